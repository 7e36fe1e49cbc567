/* The thirteen calls in plain C: what the benchmark compares with. Each takes and answers what the library's call does. */
#ifndef PLAIN_H
#define PLAIN_H

#include "bufpool_calls.h"

/* The library's set up looks at the length of pool and store alone, and its declaration says so; this one hands both to its check. */
uint32_t plain_set_up(
    uint64_t *control, uint64_t control_len, uint32_t *states, uint64_t states_len, uint32_t *names, uint64_t names_len,
    const uint8_t *pool, uint64_t pool_len, int32_t *free, uint64_t free_len, int32_t *heads, uint64_t heads_len,
    int32_t *chain, uint64_t chain_len, const uint32_t *rows, uint64_t rows_len, const uint8_t *store, uint64_t store_len,
    uint16_t *counts, uint64_t counts_len, uint64_t page_size, uint64_t position, uint64_t cap, uint64_t *answer, uint64_t answer_len);
__typeof__(bufpool_pin) plain_pin;
__typeof__(bufpool_unpin) plain_unpin;
__typeof__(bufpool_read) plain_read;
__typeof__(bufpool_write) plain_write;
__typeof__(bufpool_flush) plain_flush;
__typeof__(bufpool_give_back) plain_give_back;
__typeof__(bufpool_checkpoint) plain_checkpoint;
__typeof__(bufpool_peek) plain_peek;
__typeof__(bufpool_extend) plain_extend;
__typeof__(bufpool_drop) plain_drop;
__typeof__(bufpool_log_inserted) plain_log_inserted;
__typeof__(bufpool_log_flushed) plain_log_flushed;

#endif
