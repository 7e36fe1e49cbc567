#include "small.h"
#include <inttypes.h>
#include <stdio.h>
#include <stdlib.h>

const struct bufpool_file small_file[SMALL_FILES] = {{1663, 5, 16384, 0}, {1663, 5, 16390, 0}};
uint8_t small_store[MOST_BLOCKS * PAGE];
const struct bufpool_holder till = {0};

static uint64_t control[BUFPOOL_CONTROL_WORDS];
static uint32_t states[MOST_BUFFERS], names[BUFPOOL_NAME_WORDS * MOST_BUFFERS], rows[BUFPOOL_ROW_WORDS * SMALL_FILES];
static int32_t free_links[MOST_BUFFERS], heads[MOST_BUFFERS], chain[MOST_BUFFERS];
static uint8_t pool[MOST_BUFFERS * BUFPOOL_MAX_PAGE];
static uint16_t counts[MOST_BUFFERS * BUFPOOL_MAX_HOLDERS];
static struct bufpool m = {.control = control, .states = states, .names = names, .pool = pool, .free = free_links,
                           .heads = heads, .chain = chain, .rows = rows, .store = small_store, .counts = counts};

void need(int holds, const char *what, uint64_t number)
{
    if (holds) return;
    printf("%s: %" PRIu64 " (0x%" PRIX64 ")\n", what, number, number);
    exit(1);
}

static struct bufpool *set_up(size_t page, size_t buffers, size_t files, uint64_t position)
{
    bufpool_fit(&m, buffers, buffers, files, page);
    need(buffers <= MOST_BUFFERS && m.store_len <= sizeof small_store, "more bytes than there is room for", m.store_len);
    need(bufpool_set_up_pool(&m, page, position, BUFPOOL_DEFAULT_CAP) == BUFPOOL_DONE, "set up is refused at log position", position);
    return &m;
}

struct bufpool *small_pool(size_t buffers, uint32_t blocks, uint64_t position)
{
    bufpool_fill_row(rows, small_file[0], blocks, blocks);
    return set_up(PAGE, buffers, 1, position);
}

struct bufpool *small_files(size_t page, size_t buffers, const uint32_t capacities[SMALL_FILES], uint32_t unused, uint64_t position)
{
    for (size_t f = 0; f < SMALL_FILES; f++)
        bufpool_fill_row(rows + BUFPOOL_ROW_WORDS * f, small_file[f], capacities[f] - unused, capacities[f]);
    return set_up(page, buffers, SMALL_FILES, position);
}

struct bufpool_name small_name(uint32_t block) { return bufpool_name_of(small_file[0], block); }

/* splitmix64 */
uint64_t random64(void)
{
    static uint64_t state = 1;
    uint64_t z = (state += 0x9E3779B97F4A7C15u);
    z = (z ^ (z >> 30)) * 0xBF58476D1CE4E5B9u;
    z = (z ^ (z >> 27)) * 0x94D049BB133111EBu;
    return z ^ (z >> 31);
}

uint32_t random_below(uint32_t n) { return (uint32_t)(random64() % n); }
