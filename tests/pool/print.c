#include "print.h"
#include <inttypes.h>
#include <stdio.h>
#include <string.h>

#define SHOWN 16

static const char *const call_names[CALLS] = {"set up", "pin", "unpin", "read", "write", "flush", "give back", "checkpoint", "peek",
                                              "extend", "drop", "log inserted", "log flushed", "checksum"};

/* the memory before the call, but for pool and store: of the pool each page's first bytes, position and checksum */
enum { FIRST = 10 };
static struct {
    size_t lengths[OWN];
    uint64_t control[MOST_CONTROL];
    uint32_t states[SHOWN], names[NAME_WORDS * SHOWN], rows[ROW_WORDS * SHOWN];
    int32_t free[SHOWN], heads[2 * SHOWN], chain[SHOWN];
    uint8_t pages[SHOWN][FIRST];
    uint16_t counts[HOLDERS * SHOWN];
} before;

void keep_before(void)
{
    for (int k = 0; k < OWN; k++) before.lengths[k] = part_length((enum part)k, NULL);
    memcpy(before.control, twin.control, sizeof before.control);
    memcpy(before.states, twin.states, sizeof before.states);
    memcpy(before.names, twin.names, sizeof before.names);
    memcpy(before.rows, twin.rows, sizeof before.rows);
    memcpy(before.free, twin.free, sizeof before.free);
    memcpy(before.heads, twin.heads, sizeof before.heads);
    memcpy(before.chain, twin.chain, sizeof before.chain);
    memcpy(before.counts, twin.counts, sizeof before.counts);
    for (size_t i = 0; i < SHOWN && i < twin.states_len; i++) {
        uint64_t p = twin.control[CONTROL_SIZE];
        if (p >= FIRST && p <= 32768 && (i + 1) * p <= twin.pool_len) memcpy(before.pages[i], twin.pool + i * p, FIRST);
    }
}

static void print_numbers(const uint32_t *numbers, int many)
{
    for (int k = 0; k < many; k++) printf("%s%" PRIu32, k == 0 ? "{" : ", ", numbers[k]);
    printf("}");
}

void print_request(const struct request *q)
{
    printf("%s ", call_names[q->call]);
    if (NAMES_HOLDER(q->call)) printf("holder %" PRIu64 " ", q->holder);
    switch (q->call) {
    case SET_UP: printf("page_size %" PRIu64 " position %" PRIu64 " cap %" PRIu64, q->page_size, q->position, q->cap); break;
    case PIN:
    case PEEK: print_numbers(q->name, NAME_WORDS); break;
    case EXTEND:
    case DROP: print_numbers(q->name, FILE_WORDS); break;
    case UNPIN:
    case FLUSH: printf("buffer %" PRIu64, q->buffer); break;
    case READ: printf("buffer %" PRIu64 " from %" PRIu64 " out of %zu bytes", q->buffer, q->from, q->own_len); break;
    case WRITE:
        printf("buffer %" PRIu64 " from %" PRIu64 " %zu bytes position %" PRIu64, q->buffer, q->from, q->own_len, q->position);
        break;
    case GIVE_BACK:
    case CHECKPOINT: break;
    case CHECKSUM: printf("block %" PRIu32 " %zu bytes", q->name[NAME_BLOCK], q->own_len); break;
    default: printf("position %" PRIu64, q->position); break;
    }
    printf("\n");
}

static void print_buffer(size_t i)
{
    uint32_t w = before.states[i], *n = before.names + NAME_WORDS * i;
    printf("  buffer %zu: word 0x%08" PRIX32 " (pins %" PRIu32 ", usage %" PRIu32 "%s), name ", i, w, w & 0x3FFFF, w >> 18 & 15,
           w >> 23 & 1 ? ", dirty" : "");
    print_numbers(n, NAME_WORDS);
    printf(", free %" PRId32 ", chain %" PRId32 ", page", before.free[i], before.chain[i]);
    for (int k = 0; k < FIRST; k++) printf(" %02X", before.pages[i][k]);
    printf(", counts");
    for (size_t h = 0; h < HOLDERS; h++)
        if (before.counts[HOLDERS * i + h] != 0) printf(" %zu:%u", h, before.counts[HOLDERS * i + h]);
    printf("\n");
}

static void print_row(size_t r)
{
    const uint32_t *w = before.rows + ROW_WORDS * r;
    printf("  row %zu: ", r);
    print_numbers(w, FILE_WORDS);
    printf(" blocks %" PRIu32 " capacity %" PRIu32 "\n", w[ROW_BLOCKS], w[ROW_CAPACITY]);
}

void print_before(void)
{
    const uint64_t *c = before.control;
    printf("before the call; lengths:");
    for (int k = 0; k < OWN; k++) printf(" %s %zu", part_names[k], before.lengths[k]);
    printf("\n  control: P %" PRIu64 ", hand %" PRIu64 ", top %" PRId64 ", inserted %" PRIu64 ", flushed %" PRIu64
           ", cap %" PRIu64 "\n  heads:",
           c[CONTROL_SIZE], c[CONTROL_HAND], (int64_t)c[CONTROL_TOP], c[CONTROL_INSERTED], c[CONTROL_FLUSHED], c[CONTROL_CAP]);
    for (size_t k = 0; k < 2 * SHOWN && k < before.lengths[HEADS]; k++) printf(" %" PRId32, before.heads[k]);
    printf("\n");
    for (size_t i = 0; i < SHOWN && i < before.lengths[STATES]; i++) print_buffer(i);
    for (size_t r = 0; r < SHOWN && r < before.lengths[ROWS] / ROW_WORDS; r++) print_row(r);
}

static void print_element(const uint8_t *at, size_t size)
{
    uint64_t value = 0;
    memcpy(&value, at, size);
    printf("0x%0*" PRIX64, (int)(2 * size), value);
}

void print_part(enum part k, const struct request *q)
{
    const uint8_t *library = library_part(k), *model = twin_part(k);
    size_t size = part_sizes[k], i = 0, many = 0, length = part_length(k, q);
    while (i < length && memcmp(library + i * size, model + i * size, size) == 0) i++;
    for (size_t j = i; j < length; j++) many += memcmp(library + j * size, model + j * size, size) != 0;
    printf("%s differs in %zu elements, first at index %zu: library ", part_names[k], many, i);
    print_element(library + i * size, size);
    printf(", model ");
    print_element(model + i * size, size);
    printf("\n");
}
