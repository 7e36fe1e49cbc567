/* pins LIST N BLOCKS FILES NOTED: the library's own pins and unpins of the listed blocks, noted by the lines of docs/SIZING.md in the file
   NOTED, and counted: hits, loads, probes. With 2 files the blocks are places in the store, of which each file has a half. */
#include "bufpool.h"
#include <inttypes.h>
#include <stdio.h>
#include <stdlib.h>
#include "noted.c"

#define PAGE 1024

static uint32_t rows[2 * BUFPOOL_ROW_WORDS];

int main(int argc, char **argv)
{
    struct bufpool m;
    struct bufpool_pinned p;
    const struct bufpool_holder till = {3};
    const struct bufpool_file files[] = {{1663, 5, 16384, 0}, {1663, 5, 16390, 0}};
    uint32_t blocks, half, block;
    uint64_t buffers, of, hits = 0, loads = 0, probes = 0;
    void *memory;
    FILE *list = argc == 6 ? fopen(argv[1], "r") : NULL;
    if (list == NULL || (used = fopen(argv[5], "w")) == NULL) return 2;
    buffers = strtoull(argv[2], NULL, 10);
    blocks = (uint32_t)strtoul(argv[3], NULL, 10);
    of = strtoull(argv[4], NULL, 10);
    half = blocks / (uint32_t)of;
    for (uint32_t k = 0; k < of; k++) bufpool_fill_row(rows + k * BUFPOOL_ROW_WORDS, files[k], half, half);
    memory = malloc((size_t)bufpool_bytes(buffers, buffers, PAGE));
    if (bufpool_lend(&m, memory, bufpool_bytes(buffers, buffers, PAGE), buffers, buffers, PAGE, rows, of) != BUFPOOL_DONE) return 3;
    m.store = calloc(blocks, PAGE);
    if (m.store == NULL || bufpool_set_up_pool(&m, PAGE, 100, BUFPOOL_DEFAULT_CAP) != BUFPOOL_DONE) return 4;
    while (fscanf(list, "%" SCNu32, &block) == 1) {
        if (pin_noted(&m, till, bufpool_name_of(files[block / half], block % half), &p) != BUFPOOL_DONE) return 5;
        if (bufpool_unpin_buffer(&m, till, p.buffer) != BUFPOOL_DONE) return 6;
        if (p.hit) hits++;
        else loads++;
        probes += p.probes;
    }
    /* a pin that is refused is no use of a page */
    if (pin_noted(&m, till, bufpool_name_of(files[0], half), &p) != BUFPOOL_NO_BLOCK) return 7;
    if (fclose(used) != 0) return 8;
    printf("%" PRIu64 " %" PRIu64 " %" PRIu64 "\n", hits, loads, probes);
    return 0;
}
