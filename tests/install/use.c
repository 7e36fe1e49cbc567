/* A program in C or C++ that knows the installed tree alone: it writes a page through a pool of two buffers and finds it in the store. */
#include <bufpool.h>
#include <stdio.h>
#include <string.h>

enum { BUFFERS = 2, BUCKETS = 2, PAGE = 1024, BLOCKS = 3, FROM = BUFPOOL_HEADER_BYTES };

static uint64_t memory[BUFPOOL_BYTES(BUFFERS, BUCKETS, PAGE) / 8];
static uint8_t store[BLOCKS * PAGE];

static uint32_t write_page(struct bufpool *m, struct bufpool_holder till, struct bufpool_name name, const char *text)
{
    struct bufpool_pinned pinned;
    uint64_t written;
    uint32_t refusal = bufpool_pin_page(m, till, name, &pinned);
    if (refusal == BUFPOOL_DONE) refusal = bufpool_log_inserted_to(m, 7);
    if (refusal == BUFPOOL_DONE) refusal = bufpool_write_buffer(m, till, pinned.buffer, FROM, (const uint8_t *)text, strlen(text) + 1, 7);
    if (refusal == BUFPOOL_DONE) refusal = bufpool_unpin_buffer(m, till, pinned.buffer);
    if (refusal == BUFPOOL_DONE) refusal = bufpool_log_flushed_to(m, 7);
    if (refusal == BUFPOOL_DONE) refusal = bufpool_checkpoint_pool(m, &written);
    return refusal;
}

int main(void)
{
    const struct bufpool_file file = {1663, 5, 16384, 0};
    uint32_t row[BUFPOOL_ROW_WORDS], refusal;
    struct bufpool m;
    bufpool_fill_row(row, file, BLOCKS, BLOCKS);
    refusal = bufpool_lend(&m, memory, sizeof memory, BUFFERS, BUCKETS, PAGE, row, 1);
    if (refusal != BUFPOOL_DONE) return 1;
    m.store = store;
    refusal = bufpool_set_up_pool(&m, PAGE, 0, BUFPOOL_DEFAULT_CAP);
    if (refusal == BUFPOOL_DONE) refusal = write_page(&m, bufpool_holder_of(1), bufpool_name_of(file, 1), "bread");
    printf("interface %d, result %u, block 1 has '%s'\n", BUFPOOL_INTERFACE, (unsigned)refusal, (const char *)store + PAGE + FROM);
    return refusal != BUFPOOL_DONE;
}
