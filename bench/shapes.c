#include "shapes.h"
#include <stdio.h>
#include <string.h>

enum { FIRST_RELATION = 16384 };

/* relation numbers of their own, a quarter of the pages dirty; capacities such that a store is 64 MiB at most */
#define SHAPE(n, b, f, p, blocks, percent)                                                                                      \
    .is = {.buffers = n, .buckets = b, .files = f, .page = p, .capacity = blocks, .used = percent, .dirty = 25, .relations = 1, \
           .cap = DEFAULT_CAP}

const struct bench_shape other_shapes[] = {
    {SHAPE(16, 32, 1, 8192, 8192, 100), .words = "few buffers"},
    {SHAPE(16, 32, 64, 8192, 128, 100), .words = "few buffers"},
    {SHAPE(1024, 1024, 1, 8192, 8192, 100), .words = "one file"},
    {SHAPE(1024, 4096, 1, 8192, 8192, 100), .words = "one file"},
    {SHAPE(128, 256, 64, 8192, 128, 100), .words = "64 apart", .apart = 64},
    {SHAPE(1024, 4096, 64, 8192, 128, 100), .words = "64 apart", .apart = 64},
    {SHAPE(128, 200, 4, 8192, 512, 100), .words = "B no power of two"},
    {SHAPE(1024, 3000, 64, 8192, 128, 100), .words = "B no power of two"},
    {SHAPE(128, 256, 4, 8192, 512, 10), .words = "one tenth full"},
    {SHAPE(1024, 4096, 64, 8192, 128, 10), .words = "one tenth full"},
    {SHAPE(128, 256, 1, 1024, 65536, 100), .words = "one bucket", .crowded = 1},
    {SHAPE(1024, 1024, 1, 1024, 65536, 100), .words = "fullest buckets", .crowded = 1},
};
const size_t other_shape_count = sizeof other_shapes / sizeof *other_shapes;

static void space_relations(struct memory *m, uint32_t apart)
{
    for (size_t r = 0; r < m->rows_len / ROW_WORDS; r++) {
        uint32_t *relation = m->rows + ROW_WORDS * r + FILE_RELATION;
        *relation = FIRST_RELATION + (*relation - FIRST_RELATION) * apart;
    }
    for (size_t i = 0; i < m->states_len; i++) {
        uint32_t *relation = m->names + NAME_WORDS * i + FILE_RELATION;
        if (m->states[i] != 0) *relation = FIRST_RELATION + (*relation - FIRST_RELATION) * apart;
    }
}

/* the block after this one whose name falls into a bucket, or one behind the file */
static uint32_t next_block(const struct memory *m, uint32_t *name, size_t bucket)
{
    uint32_t end = m->rows[ROW_BLOCKS];
    do name[NAME_BLOCK]++;
    while (name[NAME_BLOCK] < end && name_hash(name) % m->heads_len != bucket);
    return name[NAME_BLOCK];
}

/* The first bucket gets as many names as the file has for it, then the second, until every buffer has one. */
static void crowd_names(struct memory *m)
{
    uint32_t name[NAME_WORDS];
    size_t bucket = 0;
    memcpy(name, m->rows, FILE_WORDS * sizeof *name);
    name[NAME_BLOCK] = UINT32_MAX;
    for (size_t i = 0; i < m->states_len; i++) {
        while (next_block(m, name, bucket) >= m->rows[ROW_BLOCKS]) {
            name[NAME_BLOCK] = UINT32_MAX;
            bucket++;
        }
        memcpy(m->names + NAME_WORDS * i, name, sizeof name);
    }
}

static void chain_again(struct memory *m)
{
    memset(m->heads, 255, m->heads_len * sizeof *m->heads);
    for (size_t i = 0; i < m->states_len; i++) {
        if (m->states[i] == 0) continue;
        int32_t *head = m->heads + name_hash(m->names + NAME_WORDS * i) % m->heads_len;
        m->chain[i] = *head;
        *head = (int32_t)i;
    }
}

void shape_new(struct memory *m, const struct bench_shape *s)
{
    seed_random(1);
    memory_new(m, &s->is);
    memory_fill(m, &s->is);
    if (s->apart != 0) space_relations(m, s->apart);
    if (s->crowded) crowd_names(m);
    chain_again(m);
}

void shape_print(const struct bench_shape *s)
{
    printf("N = %4zu, B = %4zu, F = %2zu, P = %5zu", s->is.buffers, s->is.buckets, s->is.files, s->is.page);
}
