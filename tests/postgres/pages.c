/* Pages that a PostgreSQL server is to read, written by the pool.
   pages ours STORE: writes a store of new pages, and prints for each what pageinspect's page_header has to say of it, and t for a right
   checksum.
   pages theirs FILE INSERTED: takes a table's file for its store, with the log inserted up to there. Reads the block numbers and log
   positions that the server gave; raises each page's position, puts the file back, and prints block numbers and positions.
   pages verify FILE: prints how many blocks of the file are pinned and peeked, of how many; 17 refuses the others.
   Status 0, or 1 and a line about what is not as expected. */
#include "published.h"
#include "small.h"
#include <inttypes.h>
#include <stdio.h>
#include <stdlib.h>
#include <string.h>

enum { BUFFERS = 4, BLOCKS = 128, BEHIND = PAGE_HEADER_BYTES - BUFPOOL_POSITION_BYTES };

static void save(const char *path, uint32_t blocks)
{
    FILE *file = fopen(path, "wb");
    need(file != NULL && fwrite(small_store, PAGE, blocks, file) == blocks && fclose(file) == 0, "cannot write the blocks", blocks);
}

static void print_position(uint32_t block, uint64_t position)
{
    printf("%" PRIu32 "|%" PRIX32 "/%" PRIX32, block, (uint32_t)(position >> 32), (uint32_t)position);
}

/* Writes a page with a header of random places, and prints it. */
static void make_page(struct bufpool *m, struct bufpool_buffer buffer, uint32_t block, uint64_t position)
{
    uint16_t special = (uint16_t)(PAGE - 8 * random_below(4)), upper = (uint16_t)(special - 8 * random_below(100));
    uint16_t lower = (uint16_t)(PAGE_HEADER_BYTES + 4 * random_below(100));
    uint8_t header[PAGE_HEADER_BYTES], tail[100];
    uint64_t from = PAGE - sizeof tail;
    published_header(lower, upper, special, header);
    for (size_t k = 0; k < sizeof tail; k++) tail[k] = (uint8_t)random64();
    need(bufpool_write_buffer(m, till, buffer, from, tail, sizeof tail, position) == BUFPOOL_DONE, "write is refused, block", block);
    need(bufpool_write_buffer(m, till, buffer, BUFPOOL_POSITION_BYTES, header + BUFPOOL_POSITION_BYTES, BEHIND, position) == BUFPOOL_DONE,
         "write of the header is refused, block", block);
    print_position(block, position);
    printf("|%d|%d|%d|%d|4|t\n", lower, upper, special, PAGE);
}

/* Pages come to the store in all three ways: by a flush, by a pin that needs their buffer, by a checkpoint. */
static void ours(const char *path)
{
    static const uint64_t edges[] = {0x116B374D0, 0, 1, 100, UINT32_MAX, (uint64_t)UINT32_MAX + 1, UINT64_MAX - 1, UINT64_MAX};
    struct bufpool *m = small_pool(BUFFERS, BLOCKS, 0);
    uint64_t flushed = 0, pinned = 0, written;
    need(bufpool_log_inserted_to(m, UINT64_MAX) == BUFPOOL_DONE, "log inserted is refused", UINT64_MAX);
    for (uint32_t k = 0; k < BLOCKS; k++) {
        struct bufpool_pinned p;
        need(bufpool_pin_page(m, till, small_name(k), &p) == BUFPOOL_DONE, "pin is refused, block", k);
        pinned += (uint64_t)p.wrote;
        make_page(m, p.buffer, k, k < sizeof edges / sizeof *edges ? edges[k] : random64() >> random_below(64));
        if (k % 3 == 0) {
            need(bufpool_flush_buffer(m, till, p.buffer, &written) == BUFPOOL_DONE, "flush is refused, block", k);
            flushed += written;
        }
        need(bufpool_unpin_buffer(m, till, p.buffer) == BUFPOOL_DONE, "unpin is refused, block", k);
    }
    need(bufpool_checkpoint_pool(m, &written) == BUFPOOL_DONE, "checkpoint is refused", 0);
    need(flushed > 0 && pinned > 0 && written > 0, "pages written back by the checkpoint, or none in another way", written);
    need(flushed + pinned + written == BLOCKS, "pages written back in all", flushed + pinned + written);
    save(path, BLOCKS);
}

/* Writes a page's own bytes again at a position from its own to inserted; one below its own is refused. */
static void raise_position(struct bufpool *m, uint32_t block, uint64_t position, uint64_t inserted)
{
    uint64_t raised = position + random64() % (inserted - position + 1);
    uint8_t bytes[BEHIND];
    struct bufpool_pinned p;
    need(bufpool_pin_page(m, till, small_name(block), &p) == BUFPOOL_DONE, "pin is refused, block", block);
    need(bufpool_read_buffer(m, till, p.buffer, BUFPOOL_POSITION_BYTES, bytes, BEHIND) == BUFPOOL_DONE, "read is refused, block", block);
    need(bufpool_write_buffer(m, till, p.buffer, BUFPOOL_POSITION_BYTES, bytes, BEHIND, position - 1) == BUFPOOL_EARLIER,
         "a position below the server's is not refused with 12, block", block);
    need(bufpool_write_buffer(m, till, p.buffer, BUFPOOL_POSITION_BYTES, bytes, BEHIND, position) == BUFPOOL_DONE,
         "the server's own position is refused, block", block);
    need(bufpool_write_buffer(m, till, p.buffer, BUFPOOL_POSITION_BYTES, bytes, BEHIND, raised) == BUFPOOL_DONE,
         "a raised position is refused, block", block);
    need(bufpool_unpin_buffer(m, till, p.buffer) == BUFPOOL_DONE, "unpin is refused, block", block);
    print_position(block, raised);
    putchar('\n');
}

static uint64_t position_of(const char *text)
{
    uint32_t high = 0, low = 0;
    need(sscanf(text, "%" SCNx32 "/%" SCNx32, &high, &low) == 2, "not a log position, its first character", (uint64_t)(unsigned char)*text);
    return (uint64_t)high << 32 | low;
}

/* The blocks of a file into the store: how many. */
static uint32_t load(const char *path)
{
    FILE *file = fopen(path, "rb");
    uint32_t blocks;
    need(file != NULL, "the table's file cannot be read", 0);
    blocks = (uint32_t)fread(small_store, PAGE, MOST_BLOCKS, file);
    need(feof(file) || fgetc(file) == EOF, "the file has more blocks than", blocks);
    fclose(file);
    return blocks;
}

static void theirs(const char *path, uint64_t inserted)
{
    uint32_t blocks = load(path), block, many = 0;
    uint64_t written;
    char text[32];
    struct bufpool *m = small_pool(BUFFERS, blocks, inserted);
    while (scanf("%" SCNu32 "|%31s", &block, text) == 2) {
        uint64_t position = position_of(text);
        need(position > 0 && position <= inserted, "the server's position is 0 or above inserted, block", block);
        raise_position(m, block, position, inserted);
        many++;
    }
    need(many == blocks && blocks > 2 * BUFFERS, "another number of blocks than the table has", many);
    need(bufpool_checkpoint_pool(m, &written) == BUFPOOL_DONE, "checkpoint is refused", 0);
    save(path, blocks);
}

static void verify(const char *path)
{
    uint32_t blocks = load(path), passed = 0;
    struct bufpool *m = small_pool(BUFFERS, blocks, 0);
    for (uint32_t k = 0; k < blocks; k++) {
        struct bufpool_pinned p;
        struct bufpool_part part;
        uint32_t peeked = bufpool_peek_page(m, small_name(k), &part), pinned = bufpool_pin_page(m, till, small_name(k), &p);
        need(peeked == pinned, "peek and pin differ, at block", k);
        need(pinned == BUFPOOL_DONE || pinned == BUFPOOL_CHECKSUM, "a pin gives another number than 0 or 17", pinned);
        if (pinned != BUFPOOL_DONE) continue;
        need(bufpool_unpin_buffer(m, till, p.buffer) == BUFPOOL_DONE, "unpin is refused, block", k);
        passed++;
    }
    printf("%" PRIu32 " of %" PRIu32 "\n", passed, blocks);
}

int main(int argc, char **argv)
{
    if (argc == 3 && strcmp(argv[1], "ours") == 0) ours(argv[2]);
    else if (argc == 4 && strcmp(argv[1], "theirs") == 0) theirs(argv[2], position_of(argv[3]));
    else if (argc == 3 && strcmp(argv[1], "verify") == 0) verify(argv[2]);
    else return 2;
    return 0;
}
