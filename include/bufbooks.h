/* The check of a page pool's memory, for programs in C. Link with libbufbooks.a (x86-64 Linux). */
#ifndef BUFBOOKS_H
#define BUFBOOKS_H

#include <stdint.h>

#ifdef __cplusplus
extern "C" {
#endif

/* The compiler warns where a result is not used. */
#ifdef __GNUC__
#define BUFBOOKS_RESULT __attribute__((warn_unused_result))
#else
#define BUFBOOKS_RESULT
#endif

/* What bufbooks_check answers. */
#define BUFBOOKS_SOUND 0 /* a call goes on with this memory */
#define BUFBOOKS_SIZES 1 /* a length, the block size or a file row breaks a rule */
#define BUFBOOKS_BOOKS 2 /* these are right, and the books are not sound */

/* Whether memory is fit for a call: what every call but set up checks first. It changes nothing. It takes the counts since interface 4 of
   the pool, whose number this library does not carry: objects from before are compiled again. Each slice is a pointer and its
   number of elements; no pointer is null.
   control      P, hand, top of the free list (-1 as 64 one bits), inserted and flushed log position, cap
   states       N state words                       names   N names of five words
   pool         N pages of P bytes                  free    N free links
   heads        B heads of the bucket chains        chain   N chain links
   rows         file rows of six words              store   P bytes for each block of the rows' capacities
   counts       N x 64 private counts: holder h's pins on buffer i at i * 64 + h
   answer       the four words in which a call would answer; only its length is looked at */
BUFBOOKS_RESULT uint32_t bufbooks_check(
    const uint64_t *control, uint64_t control_len, const uint32_t *states, uint64_t states_len,
    const uint32_t *names, uint64_t names_len, const uint8_t *pool, uint64_t pool_len, const int32_t *free, uint64_t free_len,
    const int32_t *heads, uint64_t heads_len, const int32_t *chain, uint64_t chain_len, const uint32_t *rows, uint64_t rows_len,
    const uint8_t *store, uint64_t store_len, const uint16_t *counts, uint64_t counts_len, const uint64_t *answer, uint64_t answer_len);

#ifdef __cplusplus
}
#endif

#endif
