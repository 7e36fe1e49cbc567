/* A page pool over lent memory, for programs in C and C++. Link with libbufpool.a (x86-64 Linux).

   struct bufpool holds the lent memory; a helper for each of the thirteen calls takes it, and the call's answer apart. A helper results in
   0, or in the number of a refusal: then nothing has changed, and what it hands back is marked as none. docs/C-API.md has a program. */
#ifndef BUFPOOL_H
#define BUFPOOL_H

#include <stddef.h>

#include "bufpool_calls.h"

#ifdef __cplusplus
extern "C" {
#endif

#define BUFPOOL_INLINE BUFPOOL_RESULT static inline

/* The lent memory in one place: ten slices, each a pointer and its number of elements. */
struct bufpool {
    uint64_t *control;
    uint64_t control_len;
    uint32_t *states;
    uint64_t states_len;
    uint32_t *names;
    uint64_t names_len;
    uint8_t *pool;
    uint64_t pool_len;
    int32_t *free;
    uint64_t free_len;
    int32_t *heads;
    uint64_t heads_len;
    int32_t *chain;
    uint64_t chain_len;
    uint32_t *rows;
    uint64_t rows_len;
    uint8_t *store;
    uint64_t store_len;
    uint16_t *counts;
    uint64_t counts_len;
};

/* A type of its own, so that a block number is not taken for a buffer number. */
struct bufpool_buffer {
    uint64_t number;
};

/* Who has a pin: a till, a program, a part of one. A type of its own too, so that a buffer number is not taken for a holder's. */
struct bufpool_holder {
    uint64_t number; /* 0 to 63 */
};

struct bufpool_file {
    uint32_t tablespace, database, relation, fork;
};

struct bufpool_name {
    struct bufpool_file file;
    uint32_t block;
};

/* What a pin answers; where it is refused, the buffer is BUFPOOL_BUFFER_NONE. */
struct bufpool_pinned {
    struct bufpool_buffer buffer;
    int hit, wrote;
    uint64_t probes;
};

/* P bytes, or a null pointer and 0 where a peek is refused. They are the page's until a call changes pool or store. */
struct bufpool_part {
    const uint8_t *bytes;
    size_t length;
    int in_pool; /* 1 if they lie in the pool, 0 in the store */
};

/* Refers to the symbol of this interface. The address alone is taken, in a way that no optimization leaves out. */
static inline void bufpool_meet_interface(void)
{
    uint32_t (*volatile symbol)(void) = BUFPOOL_INTERFACE_SYMBOL;
    (void)symbol;
}

/* The first twenty arguments of each call: m points to a struct bufpool. */
#define BUFPOOL_LENT(m)                                                                                                       \
    (bufpool_meet_interface(), (m)->control), (m)->control_len, (m)->states, (m)->states_len, (m)->names, (m)->names_len,    \
        (m)->pool, (m)->pool_len, (m)->free, (m)->free_len, (m)->heads, (m)->heads_len, (m)->chain, (m)->chain_len, (m)->rows, \
        (m)->rows_len, (m)->store, (m)->store_len, (m)->counts, (m)->counts_len

/* ---- Names, holders and file rows ---- */

BUFPOOL_INLINE struct bufpool_name bufpool_name_of(struct bufpool_file file, uint32_t block)
{
    struct bufpool_name name = {file, block};
    return name;
}

BUFPOOL_INLINE struct bufpool_holder bufpool_holder_of(uint64_t number)
{
    struct bufpool_holder holder = {number};
    return holder;
}

static inline void bufpool_fill_row(uint32_t *row, struct bufpool_file file, uint32_t blocks, uint32_t capacity)
{
    row[BUFPOOL_FILE_AT_TABLESPACE] = file.tablespace;
    row[BUFPOOL_FILE_AT_DATABASE] = file.database;
    row[BUFPOOL_FILE_AT_RELATION] = file.relation;
    row[BUFPOOL_FILE_AT_FORK] = file.fork;
    row[BUFPOOL_ROW_AT_BLOCKS] = blocks;
    row[BUFPOOL_ROW_AT_CAPACITY] = capacity;
}

/* The row that has a file's four numbers, or a null pointer. row[BUFPOOL_ROW_AT_BLOCKS] is how many blocks the file has now. */
BUFPOOL_INLINE const uint32_t *bufpool_row_of(const struct bufpool *m, struct bufpool_file file)
{
    const uint32_t *row = m->rows;
    uint64_t files = m->rows_len / BUFPOOL_ROW_WORDS;
    for (; files > 0; files--, row += BUFPOOL_ROW_WORDS) {
        if (row[BUFPOOL_FILE_AT_TABLESPACE] == file.tablespace && row[BUFPOOL_FILE_AT_DATABASE] == file.database
            && row[BUFPOOL_FILE_AT_RELATION] == file.relation && row[BUFPOOL_FILE_AT_FORK] == file.fork) return row;
    }
    return NULL;
}

/* ---- Lending memory ---- */

/* The bytes of all slices but rows and store together, as a constant for #if and for arrays: as
   uint64_t memory[(BUFPOOL_BYTES(..) + 7) / 8] it begins at a multiple of 8. */
#define BUFPOOL_BYTES(buffers, buckets, page_size)                                                                \
    ((buffers) * (page_size) + 8 * BUFPOOL_CONTROL_WORDS + 4 * ((BUFPOOL_NAME_WORDS + 3) * (buffers) + (buckets)) \
     + 2 * BUFPOOL_MAX_HOLDERS * (buffers))

/* The same for sizes that are known later; 0 for sizes that no pool has. */
BUFPOOL_INLINE uint64_t bufpool_bytes(uint64_t buffers, uint64_t buckets, uint64_t page_size)
{
    if (buffers < 1 || buffers > BUFPOOL_MAX_BUFFERS || buckets < buffers || buckets > BUFPOOL_MAX_BUCKETS) return 0;
    if (page_size < BUFPOOL_MIN_PAGE || page_size > BUFPOOL_MAX_PAGE || (page_size & (page_size - 1)) != 0) return 0;
    return BUFPOOL_BYTES(buffers, buckets, page_size);
}

/* Sets every length for N buffers, B buckets, F files and blocks of P bytes; the rows are filled before. */
static inline void bufpool_fit(struct bufpool *m, uint64_t buffers, uint64_t buckets, uint64_t files, uint64_t page_size)
{
    uint64_t blocks = 0, r;
    for (r = 0; r < files; r++) blocks += m->rows[BUFPOOL_ROW_WORDS * r + BUFPOOL_ROW_AT_CAPACITY];
    m->control_len = BUFPOOL_CONTROL_WORDS;
    m->states_len = m->free_len = m->chain_len = buffers;
    m->names_len = BUFPOOL_NAME_WORDS * buffers;
    m->pool_len = buffers * page_size;
    m->heads_len = buckets;
    m->rows_len = BUFPOOL_ROW_WORDS * files;
    m->store_len = blocks * page_size;
    m->counts_len = BUFPOOL_MAX_HOLDERS * buffers;
}

/* Cuts one piece of memory into the slices, and sets every length; the rows are filled before. The pages come first, so that they lie as
   the memory does; then elements of 8 bytes, of 4 and of 2, so that each slice is aligned. The store, of store_len bytes, is for the
   caller to put in. Refuses with 1, and changes nothing, if memory or rows is a null pointer, if the memory does not begin at a multiple
   of 8 or has fewer bytes than bufpool_bytes says, or at more than 64 files. */
BUFPOOL_INLINE uint32_t bufpool_lend(struct bufpool *m, void *memory, uint64_t memory_len, uint64_t buffers, uint64_t buckets,
                                     uint64_t page_size, uint32_t *rows, uint64_t files)
{
    uint64_t bytes = bufpool_bytes(buffers, buckets, page_size);
    if (memory == NULL || (uintptr_t)memory % 8 != 0 || rows == NULL) return BUFPOOL_SIZES;
    if (bytes == 0 || memory_len < bytes || files > BUFPOOL_MAX_FILES) return BUFPOOL_SIZES;
    m->rows = rows;
    bufpool_fit(m, buffers, buckets, files, page_size);
    m->pool = (uint8_t *)memory;
    m->control = (uint64_t *)(void *)(m->pool + m->pool_len);
    m->states = (uint32_t *)(void *)(m->control + m->control_len);
    m->names = m->states + m->states_len;
    m->free = (int32_t *)(void *)(m->names + m->names_len);
    m->heads = m->free + m->free_len;
    m->chain = m->heads + m->heads_len;
    m->counts = (uint16_t *)(void *)(m->chain + m->chain_len);
    m->store = NULL;
    return BUFPOOL_DONE;
}

/* ---- The pool's own words ---- */

BUFPOOL_INLINE uint64_t bufpool_page_size(const struct bufpool *m) { return m->control[BUFPOOL_CONTROL_AT_PAGE_SIZE]; }
BUFPOOL_INLINE uint64_t bufpool_inserted(const struct bufpool *m) { return m->control[BUFPOOL_CONTROL_AT_INSERTED]; }
BUFPOOL_INLINE uint64_t bufpool_flushed(const struct bufpool *m) { return m->control[BUFPOOL_CONTROL_AT_FLUSHED]; }
BUFPOOL_INLINE uint64_t bufpool_cap(const struct bufpool *m) { return m->control[BUFPOOL_CONTROL_AT_CAP]; }

/* Whether a buffer is free: then no pin evicts a page. */
BUFPOOL_INLINE int bufpool_has_free(const struct bufpool *m)
{
    return m->control[BUFPOOL_CONTROL_AT_FREE_TOP] != BUFPOOL_BUFFER_NONE;
}

/* How many pins a holder has on a buffer: its private count. 0 where there is no such holder or buffer. */
BUFPOOL_INLINE uint32_t bufpool_count_of(const struct bufpool *m, struct bufpool_holder holder, struct bufpool_buffer buffer)
{
    if (holder.number >= BUFPOOL_MAX_HOLDERS || buffer.number >= m->states_len) return 0;
    return m->counts[buffer.number * BUFPOOL_MAX_HOLDERS + holder.number];
}

/* The parts of a state word. Its pins are the holders that have some, each counted once. An empty buffer's is 0; any other has flags. */
BUFPOOL_INLINE uint32_t bufpool_state_pins(uint32_t state) { return state & BUFPOOL_MAX_PINS; }
BUFPOOL_INLINE uint32_t bufpool_state_usage(uint32_t state) { return state >> 18 & 15; }
BUFPOOL_INLINE int bufpool_state_dirty(uint32_t state) { return (state >> 23 & 1) != 0; }
BUFPOOL_INLINE int bufpool_state_empty(uint32_t state) { return state == 0; }

/* ---- Pages ---- */

/* The log position that a page's first 8 bytes are: the bytes 3, 2, 1, 0, 7, 6, 5, 4, highest first. */
BUFPOOL_INLINE uint64_t bufpool_page_position(const uint8_t *page)
{
    uint64_t position = 0;
    size_t k;
    for (k = 0; k < BUFPOOL_POSITION_BYTES; k++) position = position << 8 | page[k ^ 3];
    return position;
}

/* PostgreSQL's page header is 24 bytes: the log position, which the pool writes, and 16 that the till writes at byte 8 of a new page. */
#define BUFPOOL_HEADER_BYTES 24
#define BUFPOOL_HEADER_REST (BUFPOOL_HEADER_BYTES - BUFPOOL_POSITION_BYTES)

/* Those 16 bytes: checksum 0, which each write-back sets in the store; flags 0; lower, where free room begins; upper, where the till's own
   bytes do, above 0; special, where they end, at most P and a multiple of 8; size and version, P + 4; prune number 0. */
static inline void bufpool_page_header(uint8_t *rest, uint64_t page_size, uint64_t lower, uint64_t upper, uint64_t special)
{
    const uint64_t words[BUFPOOL_HEADER_REST / 2] = {0, 0, lower, upper, special, page_size + 4, 0, 0};
    size_t k;
    for (k = 0; k < BUFPOOL_HEADER_REST; k++) rest[k] = (uint8_t)(words[k / 2] >> 8 * (k % 2));
}

/* ---- The calls ---- */

/* Empties the pool. What was dirty in it is forgotten. The cap is BUFPOOL_DEFAULT_CAP, or as docs/CAP.md says. */
BUFPOOL_INLINE uint32_t bufpool_set_up_pool(struct bufpool *m, uint64_t page_size, uint64_t position, uint64_t cap)
{
    uint64_t answer[BUFPOOL_ANSWER_WORDS];
    return bufpool_set_up(BUFPOOL_LENT(m), page_size, position, cap, answer, BUFPOOL_ANSWER_WORDS);
}

BUFPOOL_INLINE uint32_t bufpool_pin_page(struct bufpool *m, struct bufpool_holder holder, struct bufpool_name name,
                                         struct bufpool_pinned *pinned)
{
    uint64_t answer[BUFPOOL_ANSWER_WORDS];
    struct bufpool_file file = name.file;
    uint32_t refusal = bufpool_pin(BUFPOOL_LENT(m), holder.number, file.tablespace, file.database, file.relation, file.fork,
                                   name.block, answer, BUFPOOL_ANSWER_WORDS);
    pinned->buffer.number = refusal == BUFPOOL_DONE ? answer[0] : BUFPOOL_BUFFER_NONE;
    pinned->hit = answer[1] != 0;
    pinned->wrote = answer[2] != 0;
    pinned->probes = answer[3];
    return refusal;
}

BUFPOOL_INLINE uint32_t bufpool_unpin_buffer(struct bufpool *m, struct bufpool_holder holder, struct bufpool_buffer buffer)
{
    uint64_t answer[BUFPOOL_ANSWER_WORDS];
    return bufpool_unpin(BUFPOOL_LENT(m), holder.number, buffer.number, answer, BUFPOOL_ANSWER_WORDS);
}

BUFPOOL_INLINE uint32_t bufpool_read_buffer(const struct bufpool *m, struct bufpool_holder holder, struct bufpool_buffer buffer,
                                            uint64_t from, uint8_t *out, uint64_t out_len)
{
    uint64_t answer[BUFPOOL_ANSWER_WORDS];
    return bufpool_read(BUFPOOL_LENT(m), holder.number, buffer.number, from, out, out_len, answer, BUFPOOL_ANSWER_WORDS);
}

BUFPOOL_INLINE uint32_t bufpool_write_buffer(struct bufpool *m, struct bufpool_holder holder, struct bufpool_buffer buffer,
                                             uint64_t from, const uint8_t *bytes, uint64_t bytes_len, uint64_t position)
{
    uint64_t answer[BUFPOOL_ANSWER_WORDS];
    return bufpool_write(BUFPOOL_LENT(m), holder.number, buffer.number, from, bytes, bytes_len, position, answer,
                         BUFPOOL_ANSWER_WORDS);
}

BUFPOOL_INLINE uint32_t bufpool_flush_buffer(struct bufpool *m, struct bufpool_holder holder, struct bufpool_buffer buffer,
                                             uint64_t *written)
{
    uint64_t answer[BUFPOOL_ANSWER_WORDS];
    uint32_t refusal = bufpool_flush(BUFPOOL_LENT(m), holder.number, buffer.number, answer, BUFPOOL_ANSWER_WORDS);
    *written = answer[0];
    return refusal;
}

/* Everything that a holder has, as of a till that has died. */
BUFPOOL_INLINE uint32_t bufpool_give_back_pins(struct bufpool *m, struct bufpool_holder holder)
{
    uint64_t answer[BUFPOOL_ANSWER_WORDS];
    return bufpool_give_back(BUFPOOL_LENT(m), holder.number, answer, BUFPOOL_ANSWER_WORDS);
}

BUFPOOL_INLINE uint32_t bufpool_checkpoint_pool(struct bufpool *m, uint64_t *written)
{
    uint64_t answer[BUFPOOL_ANSWER_WORDS];
    uint32_t refusal = bufpool_checkpoint(BUFPOOL_LENT(m), answer, BUFPOOL_ANSWER_WORDS);
    *written = answer[0];
    return refusal;
}

/* The part that the answer of an accepted peek means. */
BUFPOOL_INLINE struct bufpool_part bufpool_part_at(const struct bufpool *m, const uint64_t *answer)
{
    struct bufpool_part part;
    part.bytes = (answer[0] != 0 ? m->pool : m->store) + (size_t)answer[1];
    part.length = (size_t)bufpool_page_size(m);
    part.in_pool = answer[0] != 0;
    return part;
}

BUFPOOL_INLINE uint32_t bufpool_peek_page(const struct bufpool *m, struct bufpool_name name, struct bufpool_part *part)
{
    const struct bufpool_part none = {NULL, 0, 0};
    uint64_t answer[BUFPOOL_ANSWER_WORDS];
    struct bufpool_file file = name.file;
    uint32_t refusal = bufpool_peek(BUFPOOL_LENT(m), file.tablespace, file.database, file.relation, file.fork, name.block,
                                    answer, BUFPOOL_ANSWER_WORDS);
    *part = refusal == BUFPOOL_DONE ? bufpool_part_at(m, answer) : none;
    return refusal;
}

/* The new block's number is BUFPOOL_BLOCK_NONE if the file is not extended. */
BUFPOOL_INLINE uint32_t bufpool_extend_file(struct bufpool *m, struct bufpool_file file, uint32_t *block)
{
    uint64_t answer[BUFPOOL_ANSWER_WORDS];
    uint32_t refusal = bufpool_extend(BUFPOOL_LENT(m), file.tablespace, file.database, file.relation, file.fork,
                                      answer, BUFPOOL_ANSWER_WORDS);
    *block = refusal == BUFPOOL_DONE ? (uint32_t)answer[0] : BUFPOOL_BLOCK_NONE;
    return refusal;
}

BUFPOOL_INLINE uint32_t bufpool_drop_file(struct bufpool *m, struct bufpool_file file)
{
    uint64_t answer[BUFPOOL_ANSWER_WORDS];
    return bufpool_drop(BUFPOOL_LENT(m), file.tablespace, file.database, file.relation, file.fork, answer, BUFPOOL_ANSWER_WORDS);
}

BUFPOOL_INLINE uint32_t bufpool_log_inserted_to(struct bufpool *m, uint64_t position)
{
    uint64_t answer[BUFPOOL_ANSWER_WORDS];
    return bufpool_log_inserted(BUFPOOL_LENT(m), position, answer, BUFPOOL_ANSWER_WORDS);
}

BUFPOOL_INLINE uint32_t bufpool_log_flushed_to(struct bufpool *m, uint64_t position)
{
    uint64_t answer[BUFPOOL_ANSWER_WORDS];
    return bufpool_log_flushed(BUFPOOL_LENT(m), position, answer, BUFPOOL_ANSWER_WORDS);
}

#ifdef __cplusplus
}
#endif

#include "bufpool_refusals.h"

#endif
