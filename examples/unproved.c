/* For 'make try': the plain C pool of the benchmarks under the library's names. Nothing proves it. It is linked with the till in place of
   libbufpool.a, to see the example where there is no toolchain; no program of a shop is built with it. */
#define plain_set_up bufpool_set_up
#define plain_pin bufpool_pin
#define plain_unpin bufpool_unpin
#define plain_read bufpool_read
#define plain_write bufpool_write
#define plain_flush bufpool_flush
#define plain_give_back bufpool_give_back
#define plain_checkpoint bufpool_checkpoint
#define plain_peek bufpool_peek
#define plain_extend bufpool_extend
#define plain_drop bufpool_drop
#define plain_log_inserted bufpool_log_inserted
#define plain_log_flushed bufpool_log_flushed
#define plain_checksum bufpool_checksum

/* set up hands pool and store to the check, which ends before it comes to their bytes; gcc cannot see that */
#if defined(__GNUC__) && !defined(__clang__)
#pragma GCC diagnostic ignored "-Wmaybe-uninitialized"
#endif
#include "../bench/calls/plain.c"
#include "../bench/checksum/plain.c"

uint32_t BUFPOOL_INTERFACE_SYMBOL(void)
{
    return BUFPOOL_INTERFACE;
}
