/* A page of the model's pool and its block in the store: where it lies, its log position, its checksum, and how it is written back. */
#include "model_parts.h"
#include "sum.h"
#include <string.h>

bool same(const uint32_t *a, const uint32_t *b, size_t words)
{
    return memcmp(a, b, words * sizeof *a) == 0;
}

uint32_t *row_of(struct pool *p, const uint32_t *name)
{
    for (size_t r = 0; r < p->files; r++)
        if (same(p->rows + ROW_WORDS * r, name, FILE_WORDS)) return p->rows + ROW_WORDS * r;
    return NULL;
}

uint8_t *block_of(struct pool *p, const uint32_t *name)
{
    size_t start = 0;
    for (uint32_t *row = p->rows; row != row_of(p, name); row += ROW_WORDS) start += row[SLIP == 21 ? ROW_BLOCKS : ROW_CAPACITY];
    return p->store + (start + name[NAME_BLOCK]) * p->page_size;
}

static uint64_t word_at(const uint8_t *b)
{
    return b[0] | (uint64_t)b[1] << 8 | (uint64_t)b[2] << 16 | (uint64_t)b[3] << 24;
}

uint64_t position_of(const uint8_t *page)
{
    if (SLIP == 2) return word_at(page) | word_at(page + 4) << 32;
    return word_at(page) << 32 | word_at(page + 4);
}

void set_position(uint8_t *page, uint64_t position)
{
    uint64_t words[2] = {position >> 32, position & UINT32_MAX};
    for (size_t k = 0; k < 8; k++) page[SLIP == 2 ? k ^ 4 : k] = (uint8_t)(words[k / 4] >> k % 4 * 8);
}

/* A block's number in its file, which its checksum goes over; slips take its place in the store. */
static uint32_t number_of(struct pool *p, const uint32_t *name, bool slip)
{
    return slip ? (uint32_t)((size_t)(block_of(p, name) - p->store) / p->page_size) : name[NAME_BLOCK];
}

/* A page that was put into the store gets its checksum there, and only there; zeros have none. */
static void seal(struct pool *p, struct buffer *b)
{
    uint8_t *block = block_of(p, b->name);
    uint32_t sum = page_sum(block, p->page_size, number_of(p, b->name, SLIP == 39));
    if (SLIP == 38 || (is_zeros(block, p->page_size) && SLIP != 40)) return;
    put_sum(block, SLIP == 45 ? sum / 256 + sum % 256 * 256 : sum);
    if (SLIP == 44) put_sum(b->page, sum);
    if (SLIP == 49) block[SUM_AT + SUM_BYTES] = 0;
}

bool passes(struct pool *p, const uint32_t *name)
{
    const uint8_t *block = block_of(p, name);
    if (is_zeros(block, p->page_size)) return SLIP != 47;
    if (SLIP == 41 && sum_in(block) == 0) return true;
    return sum_in(block) == page_sum(block, p->page_size, number_of(p, name, SLIP == 48));
}

uint64_t write_back(struct pool *p, struct buffer *b)
{
    if (!b->dirty) return SLIP == 19;
    uint64_t position = position_of(b->page);
    if (position > p->flushed && SLIP != 10) p->flushed = position;
    memcpy(block_of(p, b->name), b->page, p->page_size);
    seal(p, b);
    b->dirty = false;
    if (SLIP != 7) b->just_dirtied = false;
    return 1;
}
