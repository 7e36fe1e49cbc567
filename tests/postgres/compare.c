/* Compares what the library makes with PostgreSQL's own layouts: compare tags|forks|constants|words|pins|positions|headers.
   Status 0 if they agree; else 1, and a line about the first difference. */
#include "buftag.h"
#include "published.h"
#include "small.h"
#include <stdio.h>
#include <string.h>

enum { NAMES = 100000, CALLS = 200000, POSITIONS = 20000, HEADERS = 20000, BUFFERS = MOST_BUFFERS, FEW = 5 };

static void see_tag(const uint32_t name[NAME_WORDS], uint64_t which)
{
    uint8_t ours[NAME_BYTES], theirs[64];
    uint32_t back[NAME_WORDS];
    size_t size = published_tag(name, theirs);
    need(size == sizeof ours, "a BufferTag's bytes are not 20 but", size);
    need(buftag_bytes(NAME_OF(name), ours, sizeof ours) == 0, "buftag_bytes refuses name", which);
    need(memcmp(ours, theirs, sizeof ours) == 0, "the bytes differ of name", which);
    need(buftag_name(theirs, size, back, NAME_WORDS) == 0, "buftag_name refuses the BufferTag of name", which);
    need(memcmp(back, name, sizeof back) == 0, "other words are read from the BufferTag of name", which);
}

/* Case A, with the document's bytes, and random names: all numbers but the fork have any 32 bits. */
static void tags(void)
{
    static const uint32_t case_a[NAME_WORDS] = {16821, 16384, 37721, 0, 7};
    static const uint8_t bytes[NAME_BYTES] = {0xB5, 0x41, 0, 0, 0, 0x40, 0, 0, 0x59, 0x93, 0, 0, 0, 0, 0, 0, 7, 0, 0, 0};
    uint8_t theirs[64];
    published_tag(case_a, theirs);
    need(memcmp(theirs, bytes, sizeof bytes) == 0, "case A's bytes are not a BufferTag's, block", case_a[NAME_BLOCK]);
    see_tag(case_a, 0);
    for (uint64_t k = 1; k <= NAMES; k++) {
        uint32_t name[NAME_WORDS];
        for (int w = 0; w < NAME_WORDS; w++) name[w] = (uint32_t)random64() >> (8 * random_below(4));
        name[FILE_FORK] = random_below(3);
        see_tag(name, k);
    }
}

/* 0 table, 1 free space map, 2 visibility map */
static void forks(void)
{
    for (int fork = 0; fork < 3; fork++) need(published_fork(fork) == (uint32_t)fork, "another number has fork", (uint64_t)fork);
}

/* Document 01's numbers: flags, and what a pin count's bits hold; the caps that the header names: PostgreSQL's greatest usage count, and
   what its bits hold. */
static void constants(void)
{
    static const int bits[FLAGS] = {23, 24, 25, 28, 31};
    for (int f = 0; f < FLAGS; f++) need(published_flag((enum flag)f) == (uint32_t)1 << bits[f], "another flag is bit", (uint64_t)bits[f]);
    need(published_most_usage() == BUFPOOL_DEFAULT_CAP, "the greatest usage count", published_most_usage());
    need(published_usage(UINT32_MAX) == BUFPOOL_MAX_CAP, "the greatest number that a usage count's bits hold", published_usage(UINT32_MAX));
    need(published_most_pins() == BUFPOOL_MAX_PINS, "the greatest pin count", published_most_pins());
    need(published_pins(UINT32_MAX) == BUFPOOL_MAX_PINS, "the pins that a word's bits hold", published_pins(UINT32_MAX));
}

/* What a buffer's word has to say, kept beside the pool: the pins of each holder, of which the word counts those that have some; the usage
   count, which is at most the cap. */
struct expected {
    uint32_t pins_of[HOLDERS], pins, usage, cap;
    int dirty, used;
};

static void see_flags(uint32_t word, const struct expected *e)
{
    uint32_t dirty = published_flag(FLAG_DIRTY) | published_flag(FLAG_JUST_DIRTIED);
    uint32_t always = published_flag(FLAG_VALID) | published_flag(FLAG_TAG_VALID) | published_flag(FLAG_PERMANENT);
    need((word & always) == always, "valid, tag valid and permanent are not all in word", word);
    need((word & dirty) == (e->dirty ? dirty : 0), "dirty and just dirtied are wrong in word", word);
}

static void see_word(const struct bufpool *m, uint32_t block, const struct expected *e)
{
    const uint32_t word = m->states[block], name[NAME_WORDS] = {1663, 5, 16384, 0, block};
    uint8_t tag[64];
    published_tag(name, tag);
    need(word == published_word(e->pins, e->usage, e->dirty), "PostgreSQL's constants make another word than", word);
    need(published_pins(word) == e->pins, "the pin count is wrong in word", word);
    need(published_usage(word) == e->usage, "the usage count is wrong in word", word);
    need(memcmp(m->names + NAME_WORDS * block, tag, NAME_BYTES) == 0, "the pool's name is no BufferTag, of block", block);
    see_flags(word, e);
}

/* As in PinBuffer: a holder that has pins already changes no word. */
static void see_pin(struct bufpool *m, uint32_t holder, uint32_t block, struct expected *e)
{
    struct bufpool_pinned p;
    need(bufpool_pin_page(m, bufpool_holder_of(holder), small_name(block), &p) == BUFPOOL_DONE, "pin is refused, of block", block);
    need(p.buffer.number == block && p.hit == e->used, "pin answers another buffer for block", block);
    e->used = 1;
    if (e->pins_of[holder]++ > 0) return;
    if (e->usage < e->cap) e->usage++;
    e->pins++;
}

/* A call of a holder that has pins. */
static void see_call(struct bufpool *m, uint32_t number, uint32_t block, struct expected *e)
{
    static const uint8_t byte[1] = {1};
    struct bufpool_holder holder = bufpool_holder_of(number);
    struct bufpool_buffer buffer = {block};
    uint64_t written;
    switch (random_below(4)) {
    case 0:
        need(bufpool_write_buffer(m, holder, buffer, 8, byte, 1, 100) == BUFPOOL_DONE, "write is refused, to buffer", block);
        e->dirty = 1;
        break;
    case 1:
        need(bufpool_flush_buffer(m, holder, buffer, &written) == BUFPOOL_DONE, "flush is refused, of buffer", block);
        need(written == (uint64_t)e->dirty, "flush answers another count written", written);
        e->dirty = 0;
        break;
    default:
        need(bufpool_unpin_buffer(m, holder, buffer) == BUFPOOL_DONE, "unpin is refused, of buffer", block);
        if (--e->pins_of[number] == 0) e->pins--;
    }
}

/* Random pins, writes, flushes and unpins of a few holders: block k is in buffer k, taken from the free list. */
static void see_words(struct bufpool *m, uint32_t cap)
{
    struct expected e[BUFFERS];
    for (uint32_t k = 0; k < BUFFERS; k++) {
        e[k] = (struct expected){.cap = cap};
        see_pin(m, k % FEW, k, &e[k]);
    }
    for (uint32_t k = 0; k < CALLS; k++) {
        uint32_t block = random_below(BUFFERS), holder = random_below(FEW);
        if (e[block].pins_of[holder] == 0 || random_below(5) < 2) see_pin(m, holder, block, &e[block]);
        else see_call(m, holder, block, &e[block]);
        see_word(m, block, &e[block]);
    }
}

/* With the default cap, which is PostgreSQL's greatest usage count, and with the greatest. */
static void words(void)
{
    struct bufpool *m = small_pool(BUFFERS, BUFFERS, 100);
    see_words(m, published_most_usage());
    need(bufpool_set_up_pool(m, PAGE, 100, BUFPOOL_MAX_CAP) == BUFPOOL_DONE, "set up is refused with cap", BUFPOOL_MAX_CAP);
    see_words(m, BUFPOOL_MAX_CAP);
}

/* One page pinned by every holder, twice, and by one too many. */
static void pins(void)
{
    struct bufpool *m = small_pool(1, 1, 100);
    struct expected e = {.cap = published_most_usage()};
    struct bufpool_pinned p;
    for (uint32_t k = 0; k < 2 * HOLDERS; k++) see_pin(m, k / 2, 0, &e);
    see_word(m, 0, &e);
    need(published_pins(m->states[0]) == HOLDERS, "PostgreSQL reads another pin count than 64, in word", m->states[0]);
    need(bufpool_pin_page(m, bufpool_holder_of(HOLDERS), small_name(0), &p) == BUFPOOL_NO_HOLDER, "19 is not given to holder", HOLDERS);
    see_word(m, 0, &e);
}

/* A page is written at a position; pool and store have it in PostgreSQL's form. */
static void see_position(uint64_t position)
{
    static const uint8_t byte[1] = {1};
    struct bufpool *m = small_pool(1, 1, position);
    struct bufpool_pinned p;
    uint64_t written;
    memset(m->store, 0, PAGE);
    need(bufpool_pin_page(m, till, small_name(0), &p) == BUFPOOL_DONE, "pin is refused at position", position);
    need(bufpool_write_buffer(m, till, p.buffer, 8, byte, 1, position) == BUFPOOL_DONE, "write is refused at position", position);
    need(published_position(m->pool) == position, "PageGetLSN gives another number than", position);
    need(published_pointer(m->pool) == position, "PageXLogRecPtrGet gives another number than", position);
    need(bufpool_flush_buffer(m, till, p.buffer, &written) == BUFPOOL_DONE && written == 1, "flush does not write at position", position);
    need(published_position(m->store) == position, "PageGetLSN gives another number in the store than", position);
}

/* Case B, edges, and random positions of any width. */
static void positions(void)
{
    static const uint64_t edges[] = {0x116B374D0, 0, 1, 100, UINT32_MAX, (uint64_t)UINT32_MAX + 1, UINT64_MAX - 1, UINT64_MAX};
    for (size_t k = 0; k < sizeof edges / sizeof *edges; k++) see_position(edges[k]);
    for (int k = 0; k < POSITIONS; k++) see_position(random64() >> random_below(64));
}

static void see_header(uint16_t lower, uint16_t upper, uint16_t special)
{
    uint8_t ours[BUFPOOL_HEADER_REST], theirs[PAGE_HEADER_BYTES];
    need(BUFPOOL_HEADER_BYTES == PAGE_HEADER_BYTES, "another number of bytes has a page header than", BUFPOOL_HEADER_BYTES);
    bufpool_page_header(ours, PAGE, lower, upper, special);
    published_header(lower, upper, special, theirs);
    need(memcmp(ours, theirs + BUFPOOL_POSITION_BYTES, sizeof ours) == 0, "the page header differs of upper", upper);
}

/* The till's, and random places in their order. */
static void headers(void)
{
    see_header(24, 64, PAGE);
    for (int k = 0; k < HEADERS; k++) {
        uint16_t special = (uint16_t)(PAGE - 8 * random_below(100)), upper = (uint16_t)(special - random_below(3000));
        see_header((uint16_t)(PAGE_HEADER_BYTES + random_below(3000)), upper, special);
    }
}

int main(int argc, char **argv)
{
    static const struct {
        const char *name;
        void (*see)(void);
    } parts[] = {{"tags", tags}, {"forks", forks}, {"constants", constants}, {"words", words}, {"pins", pins}, {"positions", positions},
                 {"headers", headers}};
    for (size_t k = 0; argc == 2 && k < sizeof parts / sizeof *parts; k++) {
        if (strcmp(argv[1], parts[k].name) != 0) continue;
        parts[k].see();
        return 0;
    }
    fprintf(stderr, "usage: compare PART\n");
    return 2;
}
