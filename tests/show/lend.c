#include "lend.h"

#include <stdlib.h>

enum { PAGE = 1024, FILES = 2 };

const struct bufpool_file table_file = {1663, 5, 16384, 0}, map_file = {1663, 5, 16384, 1};

void see(int holds, const char *what)
{
    if (holds) return;
    fprintf(stderr, "does not hold: %s\n", what);
    exit(2);
}

static void *fresh(size_t count, size_t size)
{
    void *memory = malloc(count * size);
    see(memory != NULL, "memory");
    return memset(memory, 0xA5, count * size);
}

void *other_length(void *slice, size_t size, uint64_t from, uint64_t to)
{
    void *memory = fresh(to, size);
    memcpy(memory, slice, size * (from < to ? from : to));
    free(slice);
    return memory;
}

struct bufpool lend(uint32_t buffers, uint32_t buckets, uint32_t blocks, uint64_t cap)
{
    struct bufpool m;
    memset(&m, 0, sizeof m);
    m.rows = fresh(BUFPOOL_ROW_WORDS * FILES, sizeof *m.rows);
    bufpool_fill_row(m.rows, table_file, blocks, blocks + 1);
    bufpool_fill_row(m.rows + BUFPOOL_ROW_WORDS, map_file, blocks, blocks);
    bufpool_fit(&m, buffers, buckets, FILES, PAGE);
    m.control = fresh(m.control_len, sizeof *m.control);
    m.states = fresh(m.states_len, sizeof *m.states);
    m.names = fresh(m.names_len, sizeof *m.names);
    m.pool = fresh(m.pool_len, 1);
    m.free = fresh(m.free_len, sizeof *m.free);
    m.heads = fresh(m.heads_len, sizeof *m.heads);
    m.chain = fresh(m.chain_len, sizeof *m.chain);
    m.store = fresh(m.store_len, 1);
    m.counts = fresh(m.counts_len, sizeof *m.counts);
    memset(m.store, 0, m.store_len);
    see(bufpool_set_up_pool(&m, PAGE, 100, cap) == BUFPOOL_DONE, "set up");
    return m;
}

void give_back(struct bufpool *m)
{
    free(m->control);
    free(m->states);
    free(m->names);
    free(m->pool);
    free(m->free);
    free(m->heads);
    free(m->chain);
    free(m->rows);
    free(m->store);
    free(m->counts);
}
