/* Compares the library's checksums with PostgreSQL's own, at each block size: checksums export|stores|verified.
   Status 0 if they agree; else 1, and a line about the first difference. */
#include "published.h"
#include "small.h"
#include <stdio.h>
#include <string.h>

enum { PAGES = 20000, CALLS = 4000, TURNS = 2000, BUFFERS = 3, UNUSED = 1, SIZES = 6, LOG = CALLS };

#define LISTED(size) size,
static const size_t sizes[SIZES] = {PUBLISHED_SIZES(LISTED)};
static const uint32_t capacities[SMALL_FILES] = {5, 7}; /* of the second file place and number differ */
static uint8_t before[sizeof small_store], page[BUFPOOL_MAX_PAGE];

static uint8_t *block_at(size_t size, size_t file, uint32_t block)
{
    return small_store + ((file > 0 ? capacities[0] : 0) + block) * size;
}

static void fill(uint8_t *bytes, size_t length)
{
    for (size_t k = 0; k < length; k++) bytes[k] = (uint8_t)random64();
}

static int is_blank(const uint8_t *bytes, size_t length) { return bytes[0] == 0 && memcmp(bytes, bytes + 1, length - 1) == 0; }

/* ---- the library's export */
static void see_sum(size_t size, uint32_t block)
{
    uint64_t answer[BUFPOOL_ANSWER_WORDS] = {9, 9, 9, 9};
    need(bufpool_checksum(page, size, block, answer, BUFPOOL_ANSWER_WORDS) == BUFPOOL_DONE, "the checksum is refused of a page of", size);
    need(answer[0] == published_sum(page, size, block), "PostgreSQL has another checksum than", answer[0]);
    need(answer[1] == 0 && answer[2] == 0 && answer[3] == 0, "other words are not 0 behind the checksum", answer[0]);
}

/* Zeros, ones, noise, and noise that differs in one place: in bytes 8 and 9, beside them, at the page's end, anywhere. */
static void see_sums(size_t size)
{
    static const uint32_t edges[] = {0, 1, 65534, 65535, 65536, (uint32_t)1 << 31, UINT32_MAX - 1, UINT32_MAX};
    for (size_t k = 0; k < 2 * (sizeof edges / sizeof *edges); k++) {
        memset(page, k % 2 ? 255 : 0, size);
        see_sum(size, edges[k / 2]);
    }
    for (uint32_t k = 0; k < PAGES; k++) {
        const size_t places[] = {7, 8, 9, 10, 127, 128, size - 1, random_below((uint32_t)size)};
        if (k % 8 == 0) fill(page, size);
        page[places[k % 8]] ^= (uint8_t)(1 << random_below(8));
        see_sum(size, (uint32_t)random64() >> random_below(32));
    }
}

/* Other lengths give 1: of the page, with zeros for an answer; of the answer, which stays as it was. */
static void see_lengths(void)
{
    static const uint64_t lengths[] = {0, 1, 512, 1023, 1025, 3072, 8191, 8193, 24576, 32767, 65536, ((uint64_t)1 << 32) + 1024};
    static const uint64_t answers[] = {0, 1, 3, 5, 8};
    const uint64_t kept[8] = {9, 8, 7, 6, 5, 4, 3, 2}, zeroed[8] = {0, 0, 0, 0, 5, 4, 3, 2};
    uint64_t answer[8];
    for (size_t k = 0; k < sizeof lengths / sizeof *lengths; k++) {
        memcpy(answer, kept, sizeof kept);
        need(bufpool_checksum(page, lengths[k], 0, answer, BUFPOOL_ANSWER_WORDS) == BUFPOOL_SIZES, "1 is not given at length", lengths[k]);
        need(memcmp(answer, zeroed, sizeof zeroed) == 0, "a refused checksum's answer is not zeros, at length", lengths[k]);
    }
    memcpy(answer, kept, sizeof kept);
    for (size_t k = 0; k < sizeof answers / sizeof *answers; k++)
        need(bufpool_checksum(page, PAGE, 0, answer, answers[k]) == BUFPOOL_SIZES, "1 is not given at an answer of", answers[k]);
    need(memcmp(answer, kept, sizeof kept) == 0, "a checksum writes to an answer of another length", answer[0]);
}

static void export(void)
{
    for (size_t s = 0; s < SIZES; s++) see_sums(sizes[s]);
    see_lengths();
}

/* ---- stores that pools wrote */
/* Zeros, or noise with PostgreSQL's checksum, at log position 0; noise alone where the file has no block yet. */
static struct bufpool *make_store(size_t size, int zeros)
{
    for (size_t f = 0; f < SMALL_FILES; f++) {
        for (uint32_t b = 0; b < capacities[f]; b++) {
            uint8_t *bytes = block_at(size, f, b);
            uint16_t sum;
            memset(bytes, 0, size);
            if (zeros && b % 2) continue;
            fill(bytes + BUFPOOL_POSITION_BYTES, size - BUFPOOL_POSITION_BYTES);
            if (b + UNUSED >= capacities[f]) continue;
            sum = published_sum(bytes, size, b);
            bytes[8] = (uint8_t)sum;
            bytes[9] = (uint8_t)(sum >> 8);
        }
    }
    memcpy(before, small_store, sizeof before);
    return small_files(size, BUFFERS, capacities, UNUSED, LOG);
}

static void see_block(size_t size, struct bufpool_name name)
{
    const uint8_t *bytes = block_at(size, name.file.relation != small_file[0].relation, name.block);
    need(published_sum_in(bytes) == published_sum(bytes, size, name.block), "PostgreSQL has another checksum of a written block than",
         published_sum_in(bytes));
}

/* Writes to a pinned page, flushes it now and then, and counts the pages that a flush wrote. */
static uint64_t change_page(struct bufpool *m, size_t size, struct bufpool_buffer buffer, struct bufpool_name name, uint64_t position)
{
    uint8_t bytes[16], was[2], is[2];
    uint64_t length = 1 + random_below(sizeof bytes), written = 0;
    uint64_t from = random_below(4) ? 8 + random_below((uint32_t)(size - 7 - length)) : 8;
    fill(bytes, length);
    need(bufpool_write_buffer(m, till, buffer, from, bytes, length, position) == BUFPOOL_DONE, "write is refused, at", from);
    if (random_below(4)) return 0;
    need(bufpool_read_buffer(m, till, buffer, 8, was, 2) == BUFPOOL_DONE, "read is refused, of buffer", buffer.number);
    need(bufpool_flush_buffer(m, till, buffer, &written) == BUFPOOL_DONE && written == 1, "flush does not write, of buffer", buffer.number);
    see_block(size, name);
    need(bufpool_read_buffer(m, till, buffer, 8, is, 2) == BUFPOOL_DONE, "read is refused, of buffer", buffer.number);
    need(memcmp(was, is, 2) == 0, "a flush changes bytes 8 and 9 of the pool's page, of buffer", buffer.number);
    return written;
}

/* A dirty page of zeros goes out as zeros. */
static void see_zeros(struct bufpool *m, size_t size)
{
    static const uint8_t none[4];
    struct bufpool_pinned p;
    uint64_t written;
    need(bufpool_pin_page(m, till, small_name(1), &p) == BUFPOOL_DONE, "pin of zeros is refused, at block size", size);
    need(bufpool_write_buffer(m, till, p.buffer, 8, none, sizeof none, 0) == BUFPOOL_DONE, "zeros are refused, at block size", size);
    need(bufpool_flush_buffer(m, till, p.buffer, &written) == BUFPOOL_DONE && written == 1, "zeros are not written, at block size", size);
    need(is_blank(block_at(size, 0, 1), size), "a page of zeros is written otherwise, at block size", size);
    need(bufpool_unpin_buffer(m, till, p.buffer) == BUFPOOL_DONE, "unpin is refused, at block size", size);
}

/* Pages come to the store in all three ways. Block 0 of each file is pinned and never written to. */
static void see_store(size_t size)
{
    struct bufpool *m = make_store(size, 1);
    struct bufpool_name last[BUFFERS], name;
    uint64_t flushed = 0, victims = 0, written;
    see_zeros(m, size);
    for (uint64_t k = 1; k <= CALLS; k++) {
        size_t f = random_below(SMALL_FILES);
        struct bufpool_pinned p;
        name = bufpool_name_of(small_file[f], random_below(capacities[f] - UNUSED));
        need(bufpool_pin_page(m, till, name, &p) == BUFPOOL_DONE, "pin is refused, of block", name.block);
        if (p.wrote) see_block(size, last[p.buffer.number]);
        victims += (uint64_t)p.wrote;
        last[p.buffer.number] = name;
        if (name.block > 0) flushed += change_page(m, size, p.buffer, name, k);
        need(bufpool_unpin_buffer(m, till, p.buffer) == BUFPOOL_DONE, "unpin is refused, of block", name.block);
    }
    need(bufpool_checkpoint_pool(m, &written) == BUFPOOL_DONE, "checkpoint is refused", 0);
    need(flushed > 0 && victims > 0 && written > 0, "pages written back by the checkpoint, or none in another way", written);
    for (size_t f = 0; f < SMALL_FILES; f++) {
        for (uint32_t b = 1; b < capacities[f] - UNUSED; b++) see_block(size, bufpool_name_of(small_file[f], b));
        for (uint32_t b = 0; b < capacities[f]; b += capacities[f] - 1) {
            uint8_t *bytes = block_at(size, f, b);
            need(memcmp(bytes, before + (bytes - small_store), size) == 0, "a block that nobody wrote to is changed", b);
        }
    }
}

static void stores(void)
{
    for (size_t s = 0; s < SIZES; s++) see_store(sizes[s]);
}

/* ---- blocks that are verified */
/* A pin and a peek of a block that is not held pass exactly where PostgreSQL's checksum stands in it, or it is zeros. */
static uint64_t see_verified(struct bufpool *m, size_t size, size_t f, uint32_t block)
{
    const uint8_t *bytes = block_at(size, f, block);
    int passes = published_sum_in(bytes) == published_sum(bytes, size, block) || is_blank(bytes, size);
    uint32_t expected = passes ? BUFPOOL_DONE : BUFPOOL_CHECKSUM;
    struct bufpool_name name = bufpool_name_of(small_file[f], block);
    struct bufpool_part part;
    struct bufpool_pinned p;
    need(bufpool_set_up_pool(m, size, LOG, BUFPOOL_DEFAULT_CAP) == BUFPOOL_DONE, "set up is refused, at block size", size);
    need(bufpool_peek_page(m, name, &part) == expected, "peek does not give what PostgreSQL's checksum says, at block", block);
    need(bufpool_pin_page(m, till, name, &p) == expected, "pin does not give what PostgreSQL's checksum says, at block", block);
    return expected != BUFPOOL_DONE;
}

/* A right block, at `bytes`, changed otherwise: no checksum, its bytes exchanged, zeros but for one byte. It is put back. */
static uint64_t see_changed(struct bufpool *m, size_t size, size_t f, uint32_t block)
{
    const size_t lone[] = {0, 4, 8, 9, size - 1};
    uint8_t *bytes = block_at(size, f, block);
    uint64_t refused = 0;
    memcpy(page, bytes, size);
    memset(bytes + 8, 0, 2);
    refused += see_verified(m, size, f, block);
    bytes[8] = page[9];
    bytes[9] = page[8];
    refused += see_verified(m, size, f, block);
    for (size_t k = 0; k < sizeof lone / sizeof *lone; k++) {
        memset(bytes, 0, size);
        bytes[lone[k]] = 1;
        refused += see_verified(m, size, f, block);
    }
    memcpy(bytes, page, size);
    return refused;
}

/* One bit turned, and two blocks exchanged; what is refused is put back and passes. */
static void see_turned(size_t size)
{
    struct bufpool *m = make_store(size, 0);
    uint64_t refused = 0;
    for (uint32_t k = 0; k < TURNS; k++) {
        size_t f = random_below(SMALL_FILES);
        uint32_t block = random_below(capacities[f] - UNUSED), other = (block + 1) % (capacities[f] - UNUSED);
        uint8_t *bytes = block_at(size, f, block);
        size_t at = k % 4 ? random_below((uint32_t)size) : 8 + k / 4 % 2;
        uint8_t bit = (uint8_t)(1 << random_below(8));
        bytes[at] ^= bit;
        refused += see_verified(m, size, f, block);
        bytes[at] ^= bit;
        need(see_verified(m, size, f, block) == 0, "a right block is refused, of number", block);
        memcpy(page, bytes, size);
        memcpy(bytes, block_at(size, f, other), size);
        refused += see_verified(m, size, f, block);
        memcpy(bytes, page, size);
        refused += see_changed(m, size, f, block);
    }
    /* in some blocks both bytes of the checksum are equal, so that to exchange them is no change */
    need(refused > 8 * TURNS, "too few of the changed blocks are refused", refused);
}

static void verified(void)
{
    for (size_t s = 0; s < SIZES; s++) see_turned(sizes[s]);
}

int main(int argc, char **argv)
{
    if (argc == 2 && strcmp(argv[1], "export") == 0) export();
    else if (argc == 2 && strcmp(argv[1], "stores") == 0) stores();
    else if (argc == 2 && strcmp(argv[1], "verified") == 0) verified();
    else return 2;
    return 0;
}
