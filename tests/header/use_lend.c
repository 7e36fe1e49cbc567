/* A program in C or C++ over memory from malloc, which nobody has cleared: sizes in bytes, one piece cut into slices, rows, what refused
   calls leave behind, page headers. Status 0 if all is right. */
#include "bufpool.h"
#include "see.h"
#include <stdlib.h>
#include <string.h>

#define BUFFERS 3
#define BUCKETS 5
#define PAGE 2048
#define FILES 2

#if BUFPOOL_BYTES(BUFFERS, BUCKETS, PAGE) != 3 * 2048 + 48 + 4 * (3 + 15 + 3 + 5 + 3) + 2 * 64 * 3 || BUFPOOL_INTERFACE < 1
#error "constants cannot be tested"
#endif
#if BUFPOOL_BLOCK_NONE < BUFPOOL_MAX_BLOCKS || BUFPOOL_BUFFER_NONE < BUFPOOL_MAX_BUFFERS
#error "a number that is none can be a pool's"
#endif
#if BUFPOOL_MIN_CAP != 1 || BUFPOOL_MAX_CAP != 15 || BUFPOOL_DEFAULT_CAP < BUFPOOL_MIN_CAP || BUFPOOL_DEFAULT_CAP > BUFPOOL_MAX_CAP
#error "not a pool's caps"
#endif
#if BUFPOOL_MAX_HOLDERS != 64 || BUFPOOL_MAX_COUNT != 65535 || BUFPOOL_MAX_PINS != (1 << 18) - 1
#error "not a pool's holders and counts"
#endif
#if BUFFERS > BUFPOOL_MAX_BUFFERS || BUCKETS > BUFPOOL_MAX_BUCKETS || PAGE < BUFPOOL_MIN_PAGE || PAGE > BUFPOOL_MAX_PAGE
#error "not a pool's sizes"
#endif

static const struct bufpool_holder me = {63};
static const struct bufpool_file table = {1663, 5, 16384, 0}, map = {1663, 5, 16384, 1}, other = {1663, 5, 16385, 0};
static uint32_t rows[BUFPOOL_ROW_WORDS * FILES];

static int sizes(void)
{
    SEE(bufpool_bytes(BUFFERS, BUCKETS, PAGE) == BUFPOOL_BYTES(BUFFERS, BUCKETS, PAGE));
    SEE(bufpool_bytes(128, 256, 8192) == 1070128 && bufpool_bytes(1, 1, 1024) == 1236);
    SEE(bufpool_bytes(1024, 4096, 32768) == BUFPOOL_BYTES(1024, 4096, 32768));
    SEE(bufpool_bytes(0, 1, 1024) == 0 && bufpool_bytes(1025, 2000, 1024) == 0 && bufpool_bytes(1, 4097, 1024) == 0);
    SEE(bufpool_bytes(2, 1, 1024) == 0 && bufpool_bytes(1, 1, 512) == 0 && bufpool_bytes(1, 1, 65536) == 0);
    SEE(bufpool_bytes(1, 1, 1025) == 0 && bufpool_bytes(1, 1, 3072) == 0 && bufpool_bytes(UINT64_MAX, UINT64_MAX, 1024) == 0);
    return 0;
}

/* Slice after slice, each at a multiple of its element's size, from the memory's first byte to its last. */
static int slices(const struct bufpool *m, const uint8_t *memory, uint64_t bytes)
{
    SEE(m->pool == memory && (const uint8_t *)m->control == m->pool + m->pool_len && m->pool_len == BUFFERS * PAGE);
    SEE((uintptr_t)m->control % 8 == 0 && m->control_len == 6 && (const uint64_t *)(const void *)m->states == m->control + 6);
    SEE(m->names == m->states + 3 && m->states_len == 3 && m->names_len == 15 && (const uint32_t *)m->free == m->names + 15);
    SEE(m->heads == m->free + 3 && m->free_len == 3 && m->chain == m->heads + 5 && m->heads_len == 5 && m->chain_len == 3);
    SEE((const int32_t *)(const void *)m->counts == m->chain + 3 && m->counts_len == 64 * 3 && (uintptr_t)m->states % 4 == 0);
    SEE((const uint8_t *)(m->counts + m->counts_len) == memory + bytes && (uintptr_t)m->counts % 2 == 0);
    SEE(m->rows == rows && m->rows_len == 12 && m->store_len == (4 + 2) * PAGE);
    return 0;
}

static int lends(struct bufpool *m, uint8_t *memory, uint64_t bytes)
{
    bufpool_fill_row(rows, table, 1, 4);
    bufpool_fill_row(rows + BUFPOOL_ROW_WORDS, map, 0, 2);
    memset(m, 0, sizeof *m);
    SEE(bufpool_lend(m, NULL, bytes, BUFFERS, BUCKETS, PAGE, rows, FILES) == BUFPOOL_SIZES);
    SEE(bufpool_lend(m, memory, bytes, BUFFERS, BUCKETS, PAGE, NULL, FILES) == BUFPOOL_SIZES);
    SEE(bufpool_lend(m, memory + 4, bytes, BUFFERS, BUCKETS, PAGE, rows, FILES) == BUFPOOL_SIZES);
    SEE(bufpool_lend(m, memory, bytes - 1, BUFFERS, BUCKETS, PAGE, rows, FILES) == BUFPOOL_SIZES);
    SEE(bufpool_lend(m, memory, bytes, BUFFERS, BUCKETS, PAGE + 1, rows, FILES) == BUFPOOL_SIZES);
    SEE(bufpool_lend(m, memory, bytes, BUFFERS, BUCKETS, PAGE, rows, BUFPOOL_MAX_FILES + 1) == BUFPOOL_SIZES);
    SEE(m->control == NULL && m->rows == NULL && m->counts == NULL && m->pool_len == 0 && m->store_len == 0 && m->counts_len == 0);
    SEE(bufpool_lend(m, memory, bytes, BUFFERS, BUCKETS, PAGE, rows, FILES) == BUFPOOL_DONE);
    return slices(m, memory, bytes);
}

/* What a refused call hands back is refused by the next one: no page that it did not mean is written to or read. */
static int nothing_left(struct bufpool *m)
{
    static const uint8_t byte[1] = {1};
    struct bufpool_pinned p;
    struct bufpool_part part;
    uint64_t written;
    uint32_t block;
    uint8_t out[1];
    SEE(bufpool_set_up_pool(m, PAGE, 100, BUFPOOL_MIN_CAP) == BUFPOOL_DONE);
    SEE(bufpool_pin_page(m, me, bufpool_name_of(table, 0), &p) == BUFPOOL_DONE);
    SEE(bufpool_pin_page(m, me, bufpool_name_of(table, 1), &p) == BUFPOOL_NO_BLOCK && p.buffer.number == BUFPOOL_BUFFER_NONE);
    SEE(bufpool_write_buffer(m, me, p.buffer, 8, byte, 1, 100) == BUFPOOL_NO_BUFFER);
    SEE(bufpool_read_buffer(m, me, p.buffer, 8, out, 1) == BUFPOOL_NO_BUFFER);
    SEE(bufpool_unpin_buffer(m, me, p.buffer) == BUFPOOL_NO_BUFFER);
    SEE(bufpool_flush_buffer(m, me, p.buffer, &written) == BUFPOOL_NO_BUFFER && written == 0);
    SEE(bufpool_extend_file(m, other, &block) == BUFPOOL_NO_FILE && block == BUFPOOL_BLOCK_NONE);
    SEE(bufpool_pin_page(m, me, bufpool_name_of(table, block), &p) == BUFPOOL_NO_BLOCK && p.buffer.number == BUFPOOL_BUFFER_NONE);
    SEE(bufpool_peek_page(m, bufpool_name_of(table, block), &part) == BUFPOOL_NO_BLOCK && part.bytes == NULL && part.length == 0);
    return 0;
}

static int row_found(struct bufpool *m)
{
    struct bufpool_file tablespace = table, database = table;
    uint32_t block;
    tablespace.tablespace++;
    database.database++;
    SEE(bufpool_row_of(m, tablespace) == NULL && bufpool_row_of(m, database) == NULL);
    SEE(bufpool_row_of(m, table) == rows && bufpool_row_of(m, map) == rows + BUFPOOL_ROW_WORDS && bufpool_row_of(m, other) == NULL);
    SEE(bufpool_extend_file(m, map, &block) == BUFPOOL_DONE && bufpool_row_of(m, map)[BUFPOOL_ROW_AT_BLOCKS] == 1);
    SEE(bufpool_row_of(m, table)[BUFPOOL_ROW_AT_BLOCKS] == 1 && bufpool_row_of(m, table)[BUFPOOL_ROW_AT_CAPACITY] == 4);
    return 0;
}

/* Bytes 8 to 23 of a page of 8,192 bytes as PostgreSQL writes them, and of the greatest page. */
static int headers(void)
{
    static const uint8_t wanted[BUFPOOL_HEADER_REST] = {0, 0, 0, 0, 24, 0, 64, 0, 0, 0x20, 4, 0x20, 0, 0, 0, 0};
    uint8_t rest[BUFPOOL_HEADER_REST];
    bufpool_page_header(rest, 8192, 24, 64, 8192);
    SEE(memcmp(rest, wanted, sizeof rest) == 0 && BUFPOOL_HEADER_REST == 16);
    bufpool_page_header(rest, 32768, 28, 32760, 32768);
    SEE(rest[4] == 28 && rest[6] == 0xF8 && rest[7] == 0x7F && rest[8] == 0 && rest[9] == 0x80 && rest[10] == 4 && rest[11] == 0x80);
    return 0;
}

static int refusals(void)
{
    static const char kinds[] = "03322112222222122322"; /* of 0 to 19: 0 done, 1 ask again, 2 mistake, 3 damage */
    uint32_t k, j;
    for (k = 0; kinds[k] != 0; k++) {
        SEE(bufpool_refusal_kind(k) == kinds[k] - '0' && strcmp(bufpool_refusal_name(k), "unknown") != 0);
        for (j = 0; j < k; j++) SEE(strcmp(bufpool_refusal_words(k), bufpool_refusal_words(j)) != 0);
        for (j = 0; j < k; j++) { /* damage to a block has advice of its own */
            int same = kinds[j] == kinds[k] && k != BUFPOOL_CHECKSUM;
            SEE((strcmp(bufpool_refusal_advice(k), bufpool_refusal_advice(j)) == 0) == same);
        }
    }
    SEE(k == BUFPOOL_NO_HOLDER + 1 && strcmp(bufpool_refusal_name(k), "unknown") == 0);
    SEE(bufpool_refusal_kind(k) == BUFPOOL_KIND_MISTAKE && bufpool_refusal_kind(UINT32_MAX) == BUFPOOL_KIND_MISTAKE);
    return 0;
}

int main(void)
{
    struct bufpool m;
    uint64_t bytes = bufpool_bytes(BUFFERS, BUCKETS, PAGE);
    uint8_t *memory = (uint8_t *)malloc((size_t)bytes), *store = (uint8_t *)malloc((4 + 2) * PAGE);
    if (memory == NULL || store == NULL || sizes() || lends(&m, memory, bytes)) return 1;
    m.store = store;
    if (nothing_left(&m) || row_found(&m) || headers() || refusals()) return 1;
    free(memory);
    free(store);
    return 0;
}
