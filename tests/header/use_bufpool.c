/* A program in C or C++ that includes the header first, and twice, makes every call and uses every helper. Status 0 if all answer right. */
#include "bufpool.h"
#include "bufpool.h"
#include "see.h"
#include <string.h>

enum { BUFFERS = 3, BUCKETS = 3, FILES = 1, PAGE = 1024, CAPACITY = 5 };

static uint64_t control[BUFPOOL_CONTROL_WORDS];
static uint32_t states[BUFFERS], names[BUFPOOL_NAME_WORDS * BUFFERS];
static int32_t free_links[BUFFERS], heads[BUCKETS], chain[BUFFERS];
static uint32_t rows[BUFPOOL_ROW_WORDS * FILES] = {1663, 5, 16384, 0, 4, CAPACITY};
static uint8_t pool[BUFFERS * PAGE], store[CAPACITY * PAGE];
static uint16_t counts[BUFPOOL_MAX_HOLDERS * BUFFERS];
static const struct bufpool_file table = {1663, 5, 16384, 0}, other = {1663, 5, 16384, 1};
static const struct bufpool_holder me = {3};

static struct bufpool lend(void)
{
    struct bufpool m;
    memset(&m, 0, sizeof m);
    m.control = control;
    m.states = states;
    m.names = names;
    m.pool = pool;
    m.free = free_links;
    m.heads = heads;
    m.chain = chain;
    m.rows = rows;
    m.store = store;
    m.counts = counts;
    bufpool_fit(&m, BUFFERS, BUCKETS, FILES, PAGE);
    return m;
}

/* parts of state words, a page's log position, a refusal in words, the number of the interface */
static int helpers(void)
{
    static const uint8_t page[BUFPOOL_POSITION_BYTES] = {1, 0, 0, 0, 0xD0, 0x74, 0xB3, 0x16};
    static const uint8_t far_page[BUFPOOL_POSITION_BYTES] = {4, 3, 2, 0xF1, 8, 7, 6, 0xF5};
    uint32_t word = 0x83000000u | 5u << 18 | BUFPOOL_MAX_PINS;
    SEE(bufpool_state_empty(0) && !bufpool_state_dirty(0) && bufpool_state_pins(0) == 0 && bufpool_state_usage(0) == 0);
    SEE(!bufpool_state_empty(0x83000000u) && bufpool_state_pins(0x83140006u) == 6 && bufpool_state_usage(0x83140006u) == 5);
    SEE(bufpool_state_pins(word) == BUFPOOL_MAX_PINS && bufpool_state_usage(word) == 5 && !bufpool_state_dirty(word));
    SEE(bufpool_state_dirty(0x93840001u) == 1 && bufpool_state_pins(0x93840001u) == 1 && bufpool_state_usage(0x93840001u) == 1);
    SEE(bufpool_page_position(page) == 0x116B374D0u && bufpool_page_position(far_page) == 0xF1020304F5060708u);
    SEE(strcmp(bufpool_refusal_words(BUFPOOL_ALL_PINNED), "every buffer is pinned") == 0);
    SEE(BUFPOOL_INTERFACE_SYMBOL() == BUFPOOL_INTERFACE);
    return 0;
}

/* a cap that none is: 18 at set up, behind 1, and nothing has changed; 2 in the control record */
static int bad_caps(struct bufpool *m)
{
    static const uint64_t bad[] = {BUFPOOL_MIN_CAP - 1, BUFPOOL_MAX_CAP + 1, (uint64_t)1 << 63, UINT64_MAX};
    uint64_t before[BUFPOOL_CONTROL_WORDS];
    struct bufpool_pinned p;
    size_t k;
    SEE(bufpool_set_up_pool(m, PAGE, 100, 7) == BUFPOOL_DONE && bufpool_cap(m) == 7 && control[BUFPOOL_CONTROL_AT_CAP] == 7);
    SEE(bufpool_pin_page(m, me, bufpool_name_of(table, 1), &p) == BUFPOOL_DONE && p.buffer.number == 0);
    memcpy(before, control, sizeof before);
    for (k = 0; k < sizeof bad / sizeof *bad; k++) {
        SEE(bufpool_set_up_pool(m, PAGE, 200, bad[k]) == BUFPOOL_BAD_CAP && memcmp(before, control, sizeof before) == 0);
        SEE(bufpool_set_up_pool(m, 1000, 200, bad[k]) == BUFPOOL_SIZES && memcmp(before, control, sizeof before) == 0);
        SEE(states[0] == 0x83040001u && names[BUFPOOL_NAME_AT_BLOCK] == 1 && free_links[0] == -2);
        control[BUFPOOL_CONTROL_AT_CAP] = bad[k];
        SEE(bufpool_log_inserted_to(m, 200) == BUFPOOL_BOOKS && bufpool_inserted(m) == 100);
        control[BUFPOOL_CONTROL_AT_CAP] = 7;
    }
    return 0;
}

/* buffers 0 and 1 are pinned, 2 was used more often than the cap counts: the next page takes it, after cap + 1 rounds */
static int capped(struct bufpool *m, uint64_t cap)
{
    struct bufpool_pinned p;
    uint32_t k;
    SEE(bufpool_set_up_pool(m, PAGE, 100, cap) == BUFPOOL_DONE && bufpool_cap(m) == cap);
    SEE(bufpool_pin_page(m, me, bufpool_name_of(table, 0), &p) == BUFPOOL_DONE);
    SEE(bufpool_pin_page(m, me, bufpool_name_of(table, 1), &p) == BUFPOOL_DONE);
    for (k = 1; k <= cap + 2; k++) {
        SEE(bufpool_pin_page(m, me, bufpool_name_of(table, 2), &p) == BUFPOOL_DONE && p.buffer.number == 2);
        SEE(bufpool_state_usage(states[2]) == (k < cap ? k : cap) && bufpool_unpin_buffer(m, me, p.buffer) == BUFPOOL_DONE);
    }
    SEE(bufpool_pin_page(m, me, bufpool_name_of(table, 3), &p) == BUFPOOL_DONE && p.buffer.number == 2 && p.probes == BUFFERS * (cap + 1));
    SEE(bufpool_cap(m) == cap && bufpool_state_usage(states[2]) == 1);
    states[2] += (uint32_t)cap << 18;
    SEE(cap == BUFPOOL_MAX_CAP || bufpool_unpin_buffer(m, me, p.buffer) == BUFPOOL_BOOKS);
    return 0;
}

static int caps(struct bufpool *m)
{
    uint64_t cap;
    for (cap = BUFPOOL_MIN_CAP; cap <= BUFPOOL_MAX_CAP; cap++) SEE(capped(m, cap) == 0);
    return bad_caps(m);
}

/* set up, pin and unpin, with the refusals of pages and buffers */
static int pins(struct bufpool *m)
{
    struct bufpool_pinned p;
    struct bufpool_buffer beyond = {BUFFERS};
    uint32_t k;
    SEE(bufpool_set_up_pool(m, 1000, 100, BUFPOOL_DEFAULT_CAP) == BUFPOOL_SIZES);
    SEE(bufpool_set_up_pool(m, PAGE, 100, BUFPOOL_DEFAULT_CAP) == BUFPOOL_DONE);
    SEE(bufpool_page_size(m) == PAGE && bufpool_has_free(m) && control[BUFPOOL_CONTROL_AT_HAND] == 0);
    SEE(control[BUFPOOL_CONTROL_AT_FREE_TOP] == 0);
    for (k = 0; k < BUFFERS; k++) {
        SEE(bufpool_pin_page(m, me, bufpool_name_of(table, k), &p) == BUFPOOL_DONE);
        SEE(p.buffer.number == k && !p.hit && !p.wrote && p.probes == 0 && states[k] == 0x83040001u);
    }
    SEE(!bufpool_has_free(m));
    SEE(bufpool_pin_page(m, me, bufpool_name_of(table, 3), &p) == BUFPOOL_ALL_PINNED && control[BUFPOOL_CONTROL_AT_HAND] == 0);
    SEE(p.buffer.number == BUFPOOL_BUFFER_NONE && !p.hit && !p.wrote && p.probes == 0);
    SEE(bufpool_pin_page(m, me, bufpool_name_of(table, 4), &p) == BUFPOOL_NO_BLOCK);
    SEE(bufpool_pin_page(m, me, bufpool_name_of(other, 0), &p) == BUFPOOL_NO_FILE);
    SEE(bufpool_pin_page(m, me, bufpool_name_of(table, 2), &p) == BUFPOOL_DONE && p.hit && p.buffer.number == 2);
    SEE(bufpool_unpin_buffer(m, me, p.buffer) == BUFPOOL_DONE && bufpool_unpin_buffer(m, me, p.buffer) == BUFPOOL_DONE);
    SEE(bufpool_unpin_buffer(m, me, p.buffer) == BUFPOOL_NOT_PINNED && bufpool_unpin_buffer(m, me, beyond) == BUFPOOL_NO_BUFFER);
    return 0;
}

/* buffers 0 and 1 are pinned by one holder: what another may do there, and what a holder that none is */
static int other_holders(struct bufpool *m)
{
    const struct bufpool_holder you = bufpool_holder_of(BUFPOOL_MAX_HOLDERS - 1), beyond = bufpool_holder_of(BUFPOOL_MAX_HOLDERS);
    struct bufpool_buffer first = {0}, none = {BUFFERS};
    struct bufpool_pinned p;
    uint64_t written;
    uint8_t byte[1] = {1};
    SEE(bufpool_unpin_buffer(m, you, first) == BUFPOOL_NOT_PINNED && bufpool_read_buffer(m, you, first, 0, byte, 1) == BUFPOOL_NOT_PINNED);
    SEE(bufpool_write_buffer(m, you, first, 8, byte, 1, 100) == BUFPOOL_NOT_PINNED);
    SEE(bufpool_flush_buffer(m, you, first, &written) == BUFPOOL_NOT_PINNED && written == 0);
    SEE(bufpool_pin_page(m, beyond, bufpool_name_of(other, 0), &p) == BUFPOOL_NO_HOLDER && p.buffer.number == BUFPOOL_BUFFER_NONE);
    SEE(bufpool_unpin_buffer(m, beyond, none) == BUFPOOL_NO_HOLDER);
    SEE(bufpool_read_buffer(m, beyond, none, 0, byte, 1) == BUFPOOL_NO_HOLDER);
    SEE(bufpool_write_buffer(m, beyond, none, 8, byte, 1, 100) == BUFPOOL_NO_HOLDER);
    SEE(bufpool_flush_buffer(m, beyond, none, &written) == BUFPOOL_NO_HOLDER && bufpool_give_back_pins(m, beyond) == BUFPOOL_NO_HOLDER);
    SEE(bufpool_give_back_pins(m, you) == BUFPOOL_DONE && states[0] == 0x83040001u && states[1] == 0x83040001u);
    counts[me.number] = BUFPOOL_MAX_COUNT;
    SEE(bufpool_pin_page(m, me, bufpool_name_of(table, 0), &p) == BUFPOOL_PIN_COUNT && states[0] == 0x83040001u);
    SEE(bufpool_pin_page(m, you, bufpool_name_of(table, 0), &p) == BUFPOOL_DONE && p.hit && states[0] == 0x83080002u);
    SEE(bufpool_count_of(m, you, first) == 1 && counts[BUFPOOL_MAX_HOLDERS - 1] == 1);
    SEE(bufpool_unpin_buffer(m, you, first) == BUFPOOL_DONE && states[0] == 0x83080001u && bufpool_count_of(m, you, first) == 0);
    counts[me.number] = 1;
    states[0] = 0x83040001u;
    return 0;
}

/* one page pinned by six holders, and six times by one; then all is given back */
static int six_pins(struct bufpool *m)
{
    struct bufpool_pinned p;
    uint64_t h;
    SEE(bufpool_set_up_pool(m, PAGE, 100, BUFPOOL_DEFAULT_CAP) == BUFPOOL_DONE);
    for (h = 0; h < 6; h++) SEE(bufpool_pin_page(m, bufpool_holder_of(h), bufpool_name_of(table, 1), &p) == BUFPOOL_DONE);
    SEE(p.buffer.number == 0 && states[0] == 0x83140006u && bufpool_count_of(m, bufpool_holder_of(5), p.buffer) == 1);
    SEE(bufpool_set_up_pool(m, PAGE, 100, BUFPOOL_DEFAULT_CAP) == BUFPOOL_DONE && counts[5] == 0);
    for (h = 0; h < 6; h++) SEE(bufpool_pin_page(m, me, bufpool_name_of(table, 1), &p) == BUFPOOL_DONE);
    SEE(p.buffer.number == 0 && states[0] == 0x83040001u && bufpool_count_of(m, me, p.buffer) == 6 && counts[3] == 6);
    SEE(bufpool_unpin_buffer(m, me, p.buffer) == BUFPOOL_DONE && states[0] == 0x83040001u && bufpool_count_of(m, me, p.buffer) == 5);
    SEE(bufpool_pin_page(m, me, bufpool_name_of(table, 2), &p) == BUFPOOL_DONE && p.buffer.number == 1);
    SEE(bufpool_count_of(m, me, p.buffer) == 1 && counts[BUFPOOL_MAX_HOLDERS + 3] == 1);
    SEE(bufpool_give_back_pins(m, me) == BUFPOOL_DONE && states[0] == 0x83040000u && states[1] == 0x83040000u);
    SEE(counts[3] == 0 && counts[BUFPOOL_MAX_HOLDERS + 3] == 0);
    p.buffer.number = BUFPOOL_BUFFER_NONE;
    for (h = 0; h <= BUFPOOL_MAX_HOLDERS; h++) SEE(bufpool_count_of(m, bufpool_holder_of(h), p.buffer) == 0);
    p.buffer.number = 0;
    SEE(bufpool_pin_page(m, bufpool_holder_of(0), bufpool_name_of(table, 2), &p) == BUFPOOL_DONE && p.buffer.number == 1);
    p.buffer.number = 0;
    SEE(bufpool_count_of(m, bufpool_holder_of(BUFPOOL_MAX_HOLDERS), p.buffer) == 0 && counts[BUFPOOL_MAX_HOLDERS] == 1);
    return 0;
}

/* read, write, flush, checkpoint and the log's positions: buffers 0 and 1 are pinned */
static int bytes(struct bufpool *m)
{
    static const uint8_t word[4] = {1, 2, 3, 4};
    struct bufpool_buffer first = {0}, second = {1};
    uint64_t written;
    uint8_t out[4];
    SEE(bufpool_write_buffer(m, me, first, 7, word, 4, 100) == BUFPOOL_RANGE);
    SEE(bufpool_write_buffer(m, me, first, BUFPOOL_POSITION_BYTES, word, 0, 100) == BUFPOOL_NO_BYTES);
    SEE(bufpool_write_buffer(m, me, first, 1020, word, 4, 101) == BUFPOOL_NOT_INSERTED);
    SEE(bufpool_write_buffer(m, me, first, 1020, word, 4, 100) == BUFPOOL_DONE && states[0] == 0x93840001u);
    SEE(bufpool_page_position(pool) == 100 && bufpool_state_dirty(states[0]) && !bufpool_state_dirty(states[1]));
    SEE(bufpool_write_buffer(m, me, first, 1020, word, 4, 99) == BUFPOOL_EARLIER);
    SEE(bufpool_read_buffer(m, me, first, 1020, out, 4) == BUFPOOL_DONE && memcmp(out, word, 4) == 0);
    SEE(bufpool_flush_buffer(m, me, first, &written) == BUFPOOL_DONE && written == 1 && memcmp(store + 1020, word, 4) == 0);
    SEE(bufpool_flush_buffer(m, me, first, &written) == BUFPOOL_DONE && written == 0);
    SEE(bufpool_checkpoint_pool(m, &written) == BUFPOOL_DONE && written == 0);
    SEE(bufpool_log_inserted_to(m, 99) == BUFPOOL_LOG_SHORTER && bufpool_log_inserted_to(m, 200) == BUFPOOL_DONE);
    SEE(bufpool_log_flushed_to(m, 201) == BUFPOOL_FLUSHED_BEYOND && bufpool_log_flushed_to(m, 150) == BUFPOOL_DONE);
    SEE(bufpool_write_buffer(m, me, first, 10, word, 4, 200) == BUFPOOL_DONE);
    SEE(bufpool_write_buffer(m, me, second, 10, word, 4, 200) == BUFPOOL_DONE);
    SEE(bufpool_checkpoint_pool(m, &written) == BUFPOOL_DONE && written == 2);
    SEE(bufpool_inserted(m) == 200 && bufpool_flushed(m) == 200 && memcmp(store + 10, word, 4) == 0);
    return 0;
}

/* The checksum of a page as a block, or 0. */
static uint64_t checksum(const uint8_t *page, uint32_t block)
{
    uint64_t answer[BUFPOOL_ANSWER_WORDS] = {9, 9, 9, 9};
    if (bufpool_checksum(page, PAGE, block, answer, BUFPOOL_ANSWER_WORDS) != BUFPOOL_DONE) return 0;
    return answer[1] == 0 && answer[2] == 0 && answer[3] == 0 ? answer[0] : 0;
}

/* what PostgreSQL's header says of some pages, and what is no page or no answer */
static int checksums(void)
{
    static uint8_t page[65536];
    uint64_t answer[BUFPOOL_ANSWER_WORDS] = {9, 9, 9, 9};
    size_t k;
    SEE(checksum(page, 0) == 35928);
    for (k = 0; k < sizeof page; k++) page[k] = (uint8_t)((7 * k + 3) % 251);
    SEE(checksum(page, 0) == 6928 && checksum(page, 1) == 6927);
    page[8] ^= 255;
    page[9] ^= 255;
    SEE(checksum(page, 0) == 6928);
    memset(page, 255, sizeof page);
    SEE(checksum(page, 65535) == 16265);
    for (k = 0; k < sizeof page; k++) page[k] = (uint8_t)((13 * k + 1) % 251);
    SEE(checksum(page, BUFPOOL_BLOCK_NONE) == 24463);
    SEE(bufpool_checksum(page, 32768, 0, answer, BUFPOOL_ANSWER_WORDS) == BUFPOOL_DONE && answer[0] == 50611);
    SEE(bufpool_checksum(page, 1024, 0, answer, BUFPOOL_ANSWER_WORDS - 1) == BUFPOOL_SIZES && answer[0] == 50611);
    SEE(bufpool_checksum(page, 512, 0, answer, BUFPOOL_ANSWER_WORDS) == BUFPOOL_SIZES && answer[0] == 0);
    answer[0] = 9;
    SEE(bufpool_checksum(page, 1025, 0, answer, BUFPOOL_ANSWER_WORDS) == BUFPOOL_SIZES && answer[0] == 0);
    answer[0] = 9;
    SEE(bufpool_checksum(page, 65536, 0, answer, BUFPOOL_ANSWER_WORDS) == BUFPOOL_SIZES && answer[0] == 0);
    return 0;
}

/* Blocks 0 and 1 were written back, 2 and 3 are zeros; buffers 0 and 1 are pinned. The store has checksums, the pool the caller's bytes;
   a block that is not held is refused if its own differs. */
static int blocks(struct bufpool *m)
{
    static const uint8_t own[BUFPOOL_CHECKSUM_BYTES] = {77, 78};
    struct bufpool_buffer first = {0};
    struct bufpool_pinned p;
    struct bufpool_part part;
    uint64_t written;
    uint8_t *bad = store + 3 * PAGE;
    SEE(bufpool_write_buffer(m, me, first, BUFPOOL_POSITION_BYTES, own, sizeof own, 200) == BUFPOOL_DONE);
    SEE(bufpool_flush_buffer(m, me, first, &written) == BUFPOOL_DONE && written == 1);
    SEE(pool[8] == 77 && pool[9] == 78 && store[8] + 256u * store[9] == checksum(pool, 0) && memcmp(store + 10, pool + 10, PAGE - 10) == 0);
    SEE(store[PAGE + 8] + 256u * store[PAGE + 9] == checksum(store + PAGE, 1) && checksum(store + PAGE, 1) != checksum(store + PAGE, 0));
    memcpy(bad, store, PAGE); /* right as block 0 */
    SEE(bufpool_pin_page(m, me, bufpool_name_of(table, 3), &p) == BUFPOOL_CHECKSUM && p.buffer.number == BUFPOOL_BUFFER_NONE);
    SEE(bufpool_peek_page(m, bufpool_name_of(table, 3), &part) == BUFPOOL_CHECKSUM && part.bytes == NULL && part.length == 0);
    SEE(bufpool_pin_page(m, me, bufpool_name_of(table, 4), &p) == BUFPOOL_NO_BLOCK);
    memset(bad, 0, PAGE);
    store[100] ^= 1; /* a page that is held is not looked at in the store */
    SEE(bufpool_pin_page(m, me, bufpool_name_of(table, 0), &p) == BUFPOOL_DONE && p.hit);
    SEE(bufpool_unpin_buffer(m, me, first) == BUFPOOL_DONE);
    SEE(bufpool_peek_page(m, bufpool_name_of(table, 0), &part) == BUFPOOL_DONE && part.in_pool);
    store[100] ^= 1;
    return 0;
}

/* peek, extend and drop */
static int files(struct bufpool *m)
{
    struct bufpool_part part;
    struct bufpool_buffer at = {0};
    uint32_t block;
    SEE(bufpool_peek_page(m, bufpool_name_of(table, 1), &part) == BUFPOOL_DONE);
    SEE(part.bytes == pool + PAGE && part.length == PAGE && part.in_pool == 1);
    SEE(bufpool_peek_page(m, bufpool_name_of(table, 3), &part) == BUFPOOL_DONE);
    SEE(part.bytes == store + 3 * PAGE && part.length == PAGE && part.in_pool == 0);
    SEE(bufpool_peek_page(m, bufpool_name_of(table, 4), &part) == BUFPOOL_NO_BLOCK);
    SEE(part.bytes == NULL && part.length == 0 && part.in_pool == 0);
    SEE(bufpool_extend_file(m, table, &block) == BUFPOOL_DONE && block == 4);
    SEE(rows[BUFPOOL_ROW_AT_BLOCKS] == rows[BUFPOOL_ROW_AT_CAPACITY]);
    SEE(bufpool_extend_file(m, table, &block) == BUFPOOL_FILE_FULL && block == BUFPOOL_BLOCK_NONE);
    SEE(bufpool_drop_file(m, table) == BUFPOOL_FILE_PINNED);
    for (; at.number < 2; at.number++) SEE(bufpool_unpin_buffer(m, me, at) == BUFPOOL_DONE);
    SEE(bufpool_drop_file(m, table) == BUFPOOL_DONE && rows[BUFPOOL_ROW_AT_BLOCKS] == 0 && control[BUFPOOL_CONTROL_AT_FREE_TOP] == 2);
    SEE(bufpool_state_empty(states[0]) && bufpool_state_empty(states[1]) && bufpool_state_empty(states[2]));
    return 0;
}

/* unsound books, and an answer that is too short */
static int refusals(struct bufpool *m)
{
    uint64_t answer[BUFPOOL_ANSWER_WORDS] = {9, 9, 9, 9};
    SEE(bufpool_checkpoint(BUFPOOL_LENT(m), answer, BUFPOOL_ANSWER_WORDS - 1) == BUFPOOL_SIZES && answer[0] == 9);
    control[BUFPOOL_CONTROL_AT_HAND] = BUFFERS;
    SEE(bufpool_checkpoint(BUFPOOL_LENT(m), answer, BUFPOOL_ANSWER_WORDS) == BUFPOOL_BOOKS && answer[0] == 0 && answer[3] == 0);
    return 0;
}

int main(void)
{
    struct bufpool m = lend();
    if (helpers() || caps(&m) || six_pins(&m) || pins(&m) || other_holders(&m)) return 1;
    return bytes(&m) || checksums() || blocks(&m) || files(&m) || refusals(&m);
}
