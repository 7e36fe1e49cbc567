/* Which bytes of the pool a call touches: with every page of it unreadable but the first half of the dirty one, where its log position
   is, a page that is held is pinned, unpinned and peeked at, a holder gives its pins back, and the log's positions move. A touch of
   anything else ends the program. */
#include "bufpool.h"
#include <stdio.h>
#include <string.h>
#include <sys/mman.h>

enum { BUFFERS = 4, HALF = 4096, PAGE = 2 * HALF, DIRTY = 2 };

/* with CLOSED that half is out of reach too, so that the run sees that a touch is noticed */
#ifdef CLOSED
enum { OPEN_HALF = 2 * BUFFERS };
#else
enum { OPEN_HALF = 2 * DIRTY };
#endif

static uint64_t control[BUFPOOL_CONTROL_WORDS];
static uint32_t states[BUFFERS], names[BUFPOOL_NAME_WORDS * BUFFERS], rows[BUFPOOL_ROW_WORDS] = {1663, 5, 16384, 0, BUFFERS, BUFFERS};
static int32_t free_links[BUFFERS], heads[BUFFERS], chain[BUFFERS];
static _Alignas(HALF) uint8_t pool[BUFFERS * PAGE];
static uint8_t store[BUFFERS * PAGE];
static uint16_t counts[BUFFERS * BUFPOOL_MAX_HOLDERS];
static const struct bufpool_holder first = {0}, second = {1};
static struct bufpool m;

static struct bufpool_name block(uint32_t number)
{
    struct bufpool_name name = {{1663, 5, 16384, 0}, number};
    return name;
}

/* Every page held once, one of them dirty. Sums up what the calls result in: 0 if all are accepted. */
static uint32_t fill(void)
{
    const uint8_t bytes[8] = {1, 2, 3, 4, 5, 6, 7, 8};
    uint32_t wrong = 0;
    m = (struct bufpool){.control = control, .states = states, .names = names, .pool = pool, .free = free_links,
                         .heads = heads, .chain = chain, .rows = rows, .store = store, .counts = counts};
    bufpool_fit(&m, BUFFERS, BUFFERS, 1, PAGE);
    wrong += bufpool_set_up_pool(&m, PAGE, 100, BUFPOOL_DEFAULT_CAP);
    for (uint32_t k = 0; k < BUFFERS; k++) {
        struct bufpool_pinned pinned;
        wrong += bufpool_pin_page(&m, first, block(k), &pinned);
        if (k == DIRTY) wrong += bufpool_write_buffer(&m, first, pinned.buffer, 8, bytes, sizeof bytes, 100);
    }
    return wrong;
}

static uint32_t touch(void)
{
    uint64_t answer[BUFPOOL_ANSWER_WORDS];
    uint32_t wrong = 0;
    for (uint32_t k = 0; k < BUFFERS; k++) {
        struct bufpool_pinned pinned;
        struct bufpool_part part;
        wrong += bufpool_pin_page(&m, first, block(k), &pinned) + bufpool_unpin_buffer(&m, first, pinned.buffer);
        wrong += bufpool_pin_page(&m, second, block(k), &pinned);
        wrong += bufpool_peek_page(&m, block(k), &part);
        wrong += pinned.hit != 1;
    }
    wrong += bufpool_give_back(BUFPOOL_LENT(&m), second.number, answer, BUFPOOL_ANSWER_WORDS);
    return wrong + bufpool_log_inserted_to(&m, 200) + bufpool_log_flushed_to(&m, 150);
}

int main(void)
{
    uint32_t wrong = fill();
    for (size_t half = 0; half < 2 * BUFFERS; half++)
        if (half != OPEN_HALF && mprotect(pool + half * HALF, HALF, PROT_NONE) != 0) wrong++;
    wrong += touch();
    printf("calls that were not as expected: %u\n", (unsigned)wrong);
    return wrong != 0;
}
