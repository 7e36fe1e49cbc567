/* The thirteen calls of the page pool as libbufpool.a has them (x86-64 Linux), the checksum of a page, and the numbers that go with them.
   bufpool.h includes this page and has a helper for each of the thirteen; a program calls these itself only where it has no struct bufpool.

   Each of the thirteen calls takes all the lent memory first, then its own arguments, then the slice of four words in which it answers.
   The result is 0 if the call is accepted, else the number of the refusal: then the four words are 0 and nothing else has changed.
   Answer words that a call does not name are 0. An answer slice of another length than four gives 1 and stays untouched.
   A slice is a pointer and its number of elements. No pointer is null, also where there are no elements. Slices lent to one call do
   not overlap: the caller sees to that. const slices are read only.
   control      six words: P, hand, top of the free list (-1 as 64 one bits), inserted and flushed log position, cap
   states       N state words                       names   N names of five words
   pool         N pages of P bytes                  free    N free links
   heads        B heads of the bucket chains        chain   N chain links
   rows         F file rows of six words            store   P bytes for each block of the rows' capacities
   counts       N x 64 private counts: holder h's pins on buffer i at i * 64 + h */
#ifndef BUFPOOL_CALLS_H
#define BUFPOOL_CALLS_H

#include <stdint.h>

#ifdef __cplusplus
extern "C" {
#endif

/* The compiler warns where a result is not used. */
#ifdef __GNUC__
#define BUFPOOL_RESULT __attribute__((warn_unused_result))
#else
#define BUFPOOL_RESULT
#endif

/* Of set up's arguments those of which it takes the length alone: they may be memory that nobody has written to. */
#if defined(__GNUC__) && !defined(__clang__) && __GNUC__ >= 11
#define BUFPOOL_LENGTH_ONLY(argument) __attribute__((access(none, argument)))
#else
#define BUFPOOL_LENGTH_ONLY(argument)
#endif

/* The number of this interface. It changes with every change after which a program has to be compiled again; the library has one symbol
   that carries its number, and each helper refers to it, so that an object of another interface does not link. */
#define BUFPOOL_INTERFACE 4
#define BUFPOOL_INTERFACE_SYMBOL bufpool_interface_4

/* What a call results in: 0, or the first of these whose condition holds, in this order. From 17 on numbers are out of order: a later
   refusal has the next number, and stands where it is checked. */
#define BUFPOOL_DONE 0
#define BUFPOOL_SIZES 1           /* all calls: a length, the block size or a file row breaks a rule */
#define BUFPOOL_BAD_CAP 18        /* set up: the cap is not from 1 to 15 */
#define BUFPOOL_BOOKS 2           /* all but set up: cap, words, links, names, positions and counts do not fit together */
#define BUFPOOL_NO_HOLDER 19      /* pin, unpin, read, write, flush, give back: the holder is not from 0 to 63 */
#define BUFPOOL_NO_FILE 3         /* pin, peek, extend, drop: no row has these four numbers */
#define BUFPOOL_NO_BLOCK 4        /* pin, peek: the file has not so many blocks */
#define BUFPOOL_CHECKSUM 17       /* pin, peek of a page that is not held: its block is not zeros, and has another checksum */
#define BUFPOOL_PIN_COUNT 5       /* pin of a page that is held: this holder's private count of it is the greatest, 65535 */
#define BUFPOOL_ALL_PINNED 6      /* pin of a page that is not held: every buffer is pinned, by whichever holder */
#define BUFPOOL_NO_BUFFER 7       /* unpin, read, write, flush: there are not so many buffers */
#define BUFPOOL_NOT_PINNED 8      /* unpin, read, write, flush: this holder has no pin on the buffer */
#define BUFPOOL_RANGE 9           /* read, write: from + length is above P; write: from is below 8 */
#define BUFPOOL_NO_BYTES 10       /* write: no bytes */
#define BUFPOOL_NOT_INSERTED 11   /* write: the position is above inserted */
#define BUFPOOL_EARLIER 12        /* write: the position is below the page's own */
#define BUFPOOL_FILE_FULL 13      /* extend: the file has as many blocks as its capacity */
#define BUFPOOL_FILE_PINNED 14    /* drop: one of the file's pages is pinned, by whichever holder */
#define BUFPOOL_LOG_SHORTER 15    /* log inserted: the position is below inserted */
#define BUFPOOL_FLUSHED_BEYOND 16 /* log flushed: the position is above inserted */

/* Where a word of the control record stands. */
#define BUFPOOL_CONTROL_AT_PAGE_SIZE 0 /* P: 1024, 2048, 4096, 8192, 16384 or 32768 */
#define BUFPOOL_CONTROL_AT_HAND 1      /* the buffer that the sweep looks at next */
#define BUFPOOL_CONTROL_AT_FREE_TOP 2  /* the first buffer of the free list, BUFPOOL_BUFFER_NONE if it is empty */
#define BUFPOOL_CONTROL_AT_INSERTED 3  /* the log's positions */
#define BUFPOOL_CONTROL_AT_FLUSHED 4
#define BUFPOOL_CONTROL_AT_CAP 5       /* the greatest usage count, as it was given at set up */

/* Where a word of a file row stands, and of a name: a row's first four, then the block. */
#define BUFPOOL_FILE_AT_TABLESPACE 0
#define BUFPOOL_FILE_AT_DATABASE 1
#define BUFPOOL_FILE_AT_RELATION 2
#define BUFPOOL_FILE_AT_FORK 3    /* 0 table, 1 free space map, 2 visibility map */
#define BUFPOOL_ROW_AT_BLOCKS 4   /* how many blocks the file has, at most its capacity */
#define BUFPOOL_ROW_AT_CAPACITY 5 /* how many blocks of the store the file has */
#define BUFPOOL_NAME_AT_BLOCK 4   /* below its file's number of blocks */

/* Lengths and limits. */
#define BUFPOOL_CONTROL_WORDS 6
#define BUFPOOL_ANSWER_WORDS 4
#define BUFPOOL_FILE_WORDS 4
#define BUFPOOL_NAME_WORDS 5
#define BUFPOOL_ROW_WORDS 6
#define BUFPOOL_MIN_PAGE 1024 /* P is a power of two from this to the next */
#define BUFPOOL_MAX_PAGE 32768
#define BUFPOOL_MAX_BUFFERS 1024 /* N is from 1 to this */
#define BUFPOOL_MAX_BUCKETS 4096 /* B is from N to this */
#define BUFPOOL_MAX_FILES 64     /* F is from 0 to this */
#define BUFPOOL_MAX_BLOCKS 65536 /* the sum of all capacities is at most this */
#define BUFPOOL_MAX_HOLDERS 64   /* a holder is from 0 to below this */
#define BUFPOOL_MAX_COUNT 65535  /* a holder's private count of a buffer is at most this */
#define BUFPOOL_MAX_PINS 262143  /* the pin count's bits in a state word, all set: published; here it counts holders */
#define BUFPOOL_MIN_CAP 1        /* the cap is from this to the next */
#define BUFPOOL_MAX_CAP 15
#define BUFPOOL_DEFAULT_CAP 5    /* PostgreSQL's BM_MAX_USAGE_COUNT: for a till that has no reason for another */
#define BUFPOOL_POSITION_BYTES 8 /* a page begins with its log position: high word, then low word; writes begin behind it */
#define BUFPOOL_CHECKSUM_BYTES 2 /* behind it, in the store: the page's checksum, low byte first */

/* A buffer number that every call refuses with 7 (19 comes first, for a holder that is none), and a block number that pin and peek refuse
   with 4. */
#define BUFPOOL_BUFFER_NONE UINT64_MAX
#define BUFPOOL_BLOCK_NONE UINT32_MAX

/* Answers BUFPOOL_INTERFACE. A library of another interface does not have it. */
BUFPOOL_RESULT uint32_t BUFPOOL_INTERFACE_SYMBOL(void);

/* Sets up an empty pool for blocks of page_size bytes: every buffer in the free list, rising, hand 0, both log positions and the cap as
   given, every private count 0. A holder's first pin raises a page's usage count up to the cap, and a sweep probes each buffer at most
   cap + 1 times. Only set up changes it. control needs only its length. Refuses with 1, 18. */
BUFPOOL_RESULT BUFPOOL_LENGTH_ONLY(7) BUFPOOL_LENGTH_ONLY(17) uint32_t bufpool_set_up(
    uint64_t *control, uint64_t control_len, uint32_t *states, uint64_t states_len, uint32_t *names, uint64_t names_len,
    const uint8_t *pool, uint64_t pool_len, int32_t *free, uint64_t free_len, int32_t *heads, uint64_t heads_len,
    int32_t *chain, uint64_t chain_len, const uint32_t *rows, uint64_t rows_len, const uint8_t *store, uint64_t store_len,
    uint16_t *counts, uint64_t counts_len, uint64_t page_size, uint64_t position, uint64_t cap,
    uint64_t *answer, uint64_t answer_len);

/* Pins a page for a holder: its private count of the buffer rises; the word's pin count and, below the cap, the usage count rise where it
   was 0. Answers its buffer, 1 for a hit or 0 for loaded, 1 if a victim was written back, the probes of the sweep.
   Refuses with 1, 2, 19, 3, 4, 17, 5, 6. */
BUFPOOL_RESULT uint32_t bufpool_pin(
    uint64_t *control, uint64_t control_len, uint32_t *states, uint64_t states_len, uint32_t *names, uint64_t names_len,
    uint8_t *pool, uint64_t pool_len, int32_t *free, uint64_t free_len, int32_t *heads, uint64_t heads_len,
    int32_t *chain, uint64_t chain_len, const uint32_t *rows, uint64_t rows_len, uint8_t *store, uint64_t store_len,
    uint16_t *counts, uint64_t counts_len, uint64_t holder, uint32_t tablespace, uint32_t database, uint32_t relation,
    uint32_t fork, uint32_t block, uint64_t *answer, uint64_t answer_len);

/* Takes one of a holder's pins from a buffer; its last one takes one from the word's pin count. Answers nothing.
   Refuses with 1, 2, 19, 7, 8. */
BUFPOOL_RESULT uint32_t bufpool_unpin(
    const uint64_t *control, uint64_t control_len, uint32_t *states, uint64_t states_len, const uint32_t *names, uint64_t names_len,
    const uint8_t *pool, uint64_t pool_len, const int32_t *free, uint64_t free_len, const int32_t *heads, uint64_t heads_len,
    const int32_t *chain, uint64_t chain_len, const uint32_t *rows, uint64_t rows_len, const uint8_t *store, uint64_t store_len,
    uint16_t *counts, uint64_t counts_len, uint64_t holder, uint64_t buffer, uint64_t *answer, uint64_t answer_len);

/* Fills out from the page of a buffer that the holder has pinned, from byte `from` on. Answers nothing.
   Refuses with 1, 2, 19, 7, 8, 9. */
BUFPOOL_RESULT uint32_t bufpool_read(
    const uint64_t *control, uint64_t control_len, const uint32_t *states, uint64_t states_len,
    const uint32_t *names, uint64_t names_len, const uint8_t *pool, uint64_t pool_len, const int32_t *free, uint64_t free_len,
    const int32_t *heads, uint64_t heads_len, const int32_t *chain, uint64_t chain_len, const uint32_t *rows, uint64_t rows_len,
    const uint8_t *store, uint64_t store_len, const uint16_t *counts, uint64_t counts_len, uint64_t holder, uint64_t buffer,
    uint64_t from, uint8_t *out, uint64_t out_len, uint64_t *answer, uint64_t answer_len);

/* Copies bytes into the page of a buffer that the holder has pinned, from byte `from` on, sets the page's log position, and marks it
   dirty. Answers nothing.
   Bytes 8 and 9 are the caller's only while the page is held: loaded again, it has its checksum there.
   Refuses with 1, 2, 19, 7, 8, 9, 10, 11, 12. */
BUFPOOL_RESULT uint32_t bufpool_write(
    const uint64_t *control, uint64_t control_len, uint32_t *states, uint64_t states_len, const uint32_t *names, uint64_t names_len,
    uint8_t *pool, uint64_t pool_len, const int32_t *free, uint64_t free_len, const int32_t *heads, uint64_t heads_len,
    const int32_t *chain, uint64_t chain_len, const uint32_t *rows, uint64_t rows_len, const uint8_t *store, uint64_t store_len,
    const uint16_t *counts, uint64_t counts_len, uint64_t holder, uint64_t buffer, uint64_t from,
    const uint8_t *bytes, uint64_t bytes_len, uint64_t position, uint64_t *answer, uint64_t answer_len);

/* Writes the page of a buffer that the holder has pinned back if it is dirty. Answers the count written, 1 or 0.
   Refuses with 1, 2, 19, 7, 8. */
BUFPOOL_RESULT uint32_t bufpool_flush(
    uint64_t *control, uint64_t control_len, uint32_t *states, uint64_t states_len, const uint32_t *names, uint64_t names_len,
    const uint8_t *pool, uint64_t pool_len, const int32_t *free, uint64_t free_len, const int32_t *heads, uint64_t heads_len,
    const int32_t *chain, uint64_t chain_len, const uint32_t *rows, uint64_t rows_len, uint8_t *store, uint64_t store_len,
    const uint16_t *counts, uint64_t counts_len, uint64_t holder, uint64_t buffer, uint64_t *answer, uint64_t answer_len);

/* Gives back everything that a holder has: each of its private counts becomes 0, and takes one from the word's pin count where it was not.
   Pages, usage counts, dirty marks and log stay. A holder that has nothing is accepted. Answers nothing. Refuses with 1, 2, 19. */
BUFPOOL_RESULT uint32_t bufpool_give_back(
    const uint64_t *control, uint64_t control_len, uint32_t *states, uint64_t states_len, const uint32_t *names, uint64_t names_len,
    const uint8_t *pool, uint64_t pool_len, const int32_t *free, uint64_t free_len, const int32_t *heads, uint64_t heads_len,
    const int32_t *chain, uint64_t chain_len, const uint32_t *rows, uint64_t rows_len, const uint8_t *store, uint64_t store_len,
    uint16_t *counts, uint64_t counts_len, uint64_t holder, uint64_t *answer, uint64_t answer_len);

/* Writes every dirty page back. Answers the count written. Refuses with 1, 2. */
BUFPOOL_RESULT uint32_t bufpool_checkpoint(
    uint64_t *control, uint64_t control_len, uint32_t *states, uint64_t states_len, const uint32_t *names, uint64_t names_len,
    const uint8_t *pool, uint64_t pool_len, const int32_t *free, uint64_t free_len, const int32_t *heads, uint64_t heads_len,
    const int32_t *chain, uint64_t chain_len, const uint32_t *rows, uint64_t rows_len, uint8_t *store, uint64_t store_len,
    const uint16_t *counts, uint64_t counts_len, uint64_t *answer, uint64_t answer_len);

/* Says where a page's P bytes lie. Answers 1 for the pool or 0 for the store, and a byte offset in it.
   Refuses with 1, 2, 3, 4, 17. */
BUFPOOL_RESULT uint32_t bufpool_peek(
    const uint64_t *control, uint64_t control_len, const uint32_t *states, uint64_t states_len,
    const uint32_t *names, uint64_t names_len, const uint8_t *pool, uint64_t pool_len, const int32_t *free, uint64_t free_len,
    const int32_t *heads, uint64_t heads_len, const int32_t *chain, uint64_t chain_len, const uint32_t *rows, uint64_t rows_len,
    const uint8_t *store, uint64_t store_len, const uint16_t *counts, uint64_t counts_len, uint32_t tablespace, uint32_t database,
    uint32_t relation, uint32_t fork, uint32_t block, uint64_t *answer, uint64_t answer_len);

/* Gives a file its next block, of zeros, in the store. Answers the block number. Refuses with 1, 2, 3, 13. */
BUFPOOL_RESULT uint32_t bufpool_extend(
    const uint64_t *control, uint64_t control_len, const uint32_t *states, uint64_t states_len,
    const uint32_t *names, uint64_t names_len, const uint8_t *pool, uint64_t pool_len, const int32_t *free, uint64_t free_len,
    const int32_t *heads, uint64_t heads_len, const int32_t *chain, uint64_t chain_len, uint32_t *rows, uint64_t rows_len,
    uint8_t *store, uint64_t store_len, const uint16_t *counts, uint64_t counts_len, uint32_t tablespace, uint32_t database,
    uint32_t relation, uint32_t fork, uint64_t *answer, uint64_t answer_len);

/* Empties a file's buffers, dirty pages too, puts them on top of the free list, and leaves the file no blocks. Answers nothing.
   Refuses with 1, 2, 3, 14. */
BUFPOOL_RESULT uint32_t bufpool_drop(
    uint64_t *control, uint64_t control_len, uint32_t *states, uint64_t states_len, uint32_t *names, uint64_t names_len,
    const uint8_t *pool, uint64_t pool_len, int32_t *free, uint64_t free_len, int32_t *heads, uint64_t heads_len,
    int32_t *chain, uint64_t chain_len, uint32_t *rows, uint64_t rows_len, const uint8_t *store, uint64_t store_len,
    const uint16_t *counts, uint64_t counts_len, uint32_t tablespace, uint32_t database, uint32_t relation, uint32_t fork,
    uint64_t *answer, uint64_t answer_len);

/* The log is inserted up to a position. Answers nothing. Refuses with 1, 2, 15. */
BUFPOOL_RESULT uint32_t bufpool_log_inserted(
    uint64_t *control, uint64_t control_len, const uint32_t *states, uint64_t states_len, const uint32_t *names, uint64_t names_len,
    const uint8_t *pool, uint64_t pool_len, const int32_t *free, uint64_t free_len, const int32_t *heads, uint64_t heads_len,
    const int32_t *chain, uint64_t chain_len, const uint32_t *rows, uint64_t rows_len, const uint8_t *store, uint64_t store_len,
    const uint16_t *counts, uint64_t counts_len, uint64_t position, uint64_t *answer, uint64_t answer_len);

/* The log is flushed up to a position; one that is not above flushed changes nothing. Answers nothing. Refuses with 1, 2, 16.
   Pin, flush and checkpoint raise flushed themselves, to the position of a page that they write back; they cannot write the log. So a
   till with a real log writes it out up to the position of its dirty pages (simplest: up to inserted) and makes this call, before it
   calls flush, checkpoint or a pin that may evict a page. */
BUFPOOL_RESULT uint32_t bufpool_log_flushed(
    uint64_t *control, uint64_t control_len, const uint32_t *states, uint64_t states_len, const uint32_t *names, uint64_t names_len,
    const uint8_t *pool, uint64_t pool_len, const int32_t *free, uint64_t free_len, const int32_t *heads, uint64_t heads_len,
    const int32_t *chain, uint64_t chain_len, const uint32_t *rows, uint64_t rows_len, const uint8_t *store, uint64_t store_len,
    const uint16_t *counts, uint64_t counts_len, uint64_t position, uint64_t *answer, uint64_t answer_len);

/* The checksum of a page as the block of that number in its file: PostgreSQL's, of checksum_impl.h, over P bytes, of which 8 and 9 count as
   zeros. It is what a write-back puts into bytes 8 and 9 of the store's block, unless the page is all zeros. It takes no pool. Answers
   the checksum, 1 to 65535. Refuses with 1: at a page_len that no block size is, with zeros for an answer; at an answer of another length
   than four, which stays as it was. */
BUFPOOL_RESULT uint32_t bufpool_checksum(const uint8_t *page, uint64_t page_len, uint32_t block, uint64_t *answer, uint64_t answer_len);

#ifdef __cplusplus
}
#endif

#endif
