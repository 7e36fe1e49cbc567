/* Page checksums case by case, through the calls: N = 2, B = 2, P = 1024, log 100, cap 5; two files with 3 blocks each, capacity 4, so that
   in the second a block's number is not its place in the store. Every block below a count has bytes of its own and its checksum. After each
   refusal all that was lent is compared byte by byte. Prints a line for each case, then the counts. */
enum { N = 2, P = 1024, FILES = 2, BLOCKS = 3, CAPACITY = 4, PLACES = FILES * CAPACITY };

#include "lot.h"
#include "sum.h"

static uint8_t *block_at(uint32_t file, uint32_t block)
{
    return lot.store + (file * CAPACITY + block) * P;
}

static uint8_t *page_at(uint64_t buffer)
{
    return lot.pool + buffer * P;
}

static void write_two(uint64_t buffer, uint64_t from, unsigned first, unsigned second, uint64_t position)
{
    uint8_t bytes[2] = {(uint8_t)first, (uint8_t)second};
    struct request q = {.call = WRITE, .buffer = buffer, .from = from, .own = bytes, .own_len = 2, .position = position};
    expect("write", ask(q), 0);
}

static void expect_read(uint64_t buffer, uint64_t from, unsigned first, unsigned second)
{
    uint8_t out[2] = {0};
    expect("read", ask((struct request){.call = READ, .buffer = buffer, .from = from, .own = out, .own_len = 2}), 0);
    expect("first byte read", out[0], first);
    expect("second byte read", out[1], second);
}

static void flush(uint64_t buffer)
{
    expect("flush", ask((struct request){.call = FLUSH, .buffer = buffer}), 0);
    expect("written by the flush", lot.answer[0], 1);
}

/* Both give this number, of a page that is not held. */
static void expect_both(uint32_t file, uint32_t block, uint32_t number)
{
    expect("peek", ask_name(PEEK, file, block), number);
    expect("pin", ask_name(PIN, file, block), number);
    if (number == 0) unpin(lot.answer[0]);
}

/* Two pages of a file get both buffers. */
static void push_out(uint32_t file)
{
    uint64_t first = pin(file, 1), second = pin(file, 2);
    unpin(first);
    unpin(second);
}

/* The store's block is the page with its checksum. */
static void expect_sealed(uint32_t file, uint32_t block, const uint8_t *page)
{
    uint8_t sealed[P];
    memcpy(sealed, page, P);
    put_sum(sealed, page_sum(page, P, block));
    expect("difference of the store's block from the page with its checksum", memcmp(sealed, block_at(file, block), P) != 0, 0);
}

static void set_up(uint64_t log)
{
    memset(&lot, 0x5A, sizeof lot);
    memset(lot.store, 0xEE, sizeof lot.store);
    for (uint32_t f = 0; f < FILES; f++) {
        const uint32_t row[ROW_WORDS] = {1663, 5, 16384 + f, 0, BLOCKS, CAPACITY};
        memcpy(lot.rows + ROW_WORDS * f, row, sizeof row);
        for (uint32_t b = 0; b < BLOCKS; b++) {
            uint8_t *page = block_at(f, b);
            for (uint32_t k = 0; k < P; k++) page[k] = k < 8 ? 90 * (k == 4) : (uint8_t)((7 * k + 3 + 31 * b + 97 * f) % 251);
            put_sum(page, page_sum(page, P, b));
        }
    }
    expect("set up", ask((struct request){.call = SET_UP, .page_size = P, .position = log, .cap = DEFAULT_CAP}), 0);
}

static void expect_sum(const uint8_t *page, size_t size, uint32_t block, uint64_t sum)
{
    expect("checksum", ask((struct request){.call = CHECKSUM, .own = (uint8_t *)page, .own_len = size, .name[NAME_BLOCK] = block}), 0);
    expect("its number", lot.answer[0], sum);
    for (int k = 1; k < ANSWER_WORDS; k++) expect("answer word behind it", lot.answer[k], 0);
}

static const uint8_t *ramp(uint32_t step, uint32_t first)
{
    static uint8_t page[32768];
    for (uint32_t k = 0; k < sizeof page; k++) page[k] = (uint8_t)((step * k + first) % 251);
    return page;
}

/* The numbers are those of PostgreSQL's header, compiled for each block size. */
static void case_published(void)
{
    static const uint64_t of_seven[] = {6928, 27551, 3770, 19518, 10796, 7654}, of_thirteen[] = {43741, 39545, 28217, 20046, 50611};
    static uint8_t page[P];
    begin("checksum_impl.h's numbers: zeros, bytes of 255, two ramps at each block size, block numbers up to the greatest");
    expect_sum(page, P, 0, 35928);
    memset(page, 255, P);
    expect_sum(page, P, 65535, 16265);
    for (int k = 0; k < 6; k++) expect_sum(ramp(7, 3), (size_t)P << k, 0, of_seven[k]);
    for (int k = 1; k < 6; k++) expect_sum(ramp(13, 1), (size_t)P << k, 0, of_thirteen[k - 1]);
    expect_sum(ramp(7, 3), P, 1, 6927);
    expect_sum(ramp(13, 1), P, UINT32_MAX, 24463);
    end();
}

static void case_lengths(void)
{
    static const size_t none[] = {0, 1, 128, 512, 1023, 1025, 1536, 32767};
    struct request q = {.call = CHECKSUM, .own = (uint8_t *)ramp(7, 3), .own_len = P};
    begin("a checksum of a length that is no P: 1 and zeros; with an answer of another length than 4: 1, and nothing is written");
    for (m.answer_len = 0; m.answer_len < ANSWER_WORDS; m.answer_len++) expect("checksum", ask(q), 1);
    for (size_t k = 0; k < sizeof none / sizeof *none; k++) {
        q.own_len = none[k];
        expect("checksum", ask(q), 1);
    }
    end();
}

static void case_written(void)
{
    uint8_t kept[P], *first = block_at(0, 0);
    begin("flush, checkpoint and a pin's victim put a page into the store with its checksum; the pool's page keeps its bytes");
    set_up(100);
    memset(first, 0, P);
    uint64_t i = pin(0, 0), j = pin(1, 1);
    write_two(i, 10, 77, 78, 90);
    flush(i);
    const uint8_t bytes[12] = {0, 0, 0, 0, 90, 0, 0, 0, 141, 142, 77, 78};
    for (int k = 0; k < 12; k++) expect("byte of the store", first[k], bytes[k]);
    expect("all further bytes are zeros", is_zeros(first + 12, P - 12), 1);
    expect("checksum in the pool", sum_in(page_at(i)), 0);
    write_two(j, 500, 1, 2, 91);
    memcpy(kept, page_at(j), P);
    expect("checkpoint", ask((struct request){.call = CHECKPOINT}), 0);
    expect("written by it", lot.answer[0], 1);
    expect_sealed(1, 1, kept);
    expect("change in the pool", memcmp(kept, page_at(j), P) != 0, 0);
    write_two(j, 500, 3, 4, 92);
    memcpy(kept, page_at(j), P);
    unpin(j);
    expect("the buffer of the next page", pin(0, 1), j);
    expect("written by the pin", lot.answer[2], 1);
    expect_sealed(1, 1, kept);
    end();
}

static void case_zeros(void)
{
    begin("zeros have no checksum: a dirty page of zeros goes out as zeros and passes; with byte 8 or 9 not 0 it gets one");
    set_up(0);
    memset(block_at(1, 1), 0, P);
    expect_both(1, 1, 0);
    uint64_t i = pin(1, 1);
    write_two(i, 10, 0, 0, 0);
    flush(i);
    expect("the store's block is zeros", is_zeros(block_at(1, 1), P), 1);
    write_two(i, 8, 0, 1, 0);
    flush(i);
    expect("checksum of zeros as block 1", sum_in(block_at(1, 1)), page_sum(block_at(1, 1), P, 1));
    expect("the pool's bytes 8 and 9", sum_in(page_at(i)), 256);
    end();
}

static void case_bits(void)
{
    begin("one bit turned, each of a block's: 17; turned back it passes");
    set_up(100);
    for (uint32_t k = 0; k < 8 * P; k++) {
        block_at(1, 1)[k / 8] ^= (uint8_t)(1u << k % 8);
        expect_both(1, 1, 17);
        block_at(1, 1)[k / 8] ^= (uint8_t)(1u << k % 8);
    }
    expect_both(1, 1, 0);
    end();
}

static void case_fields(void)
{
    uint8_t *page = block_at(1, 1);
    uint32_t sum;
    begin("checksum 0: 17, also where all else but one byte is 0; high byte first, or for the place in the store: 17");
    set_up(100);
    sum = sum_in(page);
    put_sum(page, 0);
    expect_both(1, 1, 17);
    put_sum(page, sum / 256 + sum % 256 * 256);
    expect_both(1, 1, 17);
    put_sum(page, page_sum(page, P, CAPACITY + 1));
    expect_both(1, 1, 17);
    put_sum(page, sum);
    expect_both(1, 1, 0);
    memset(block_at(0, 0), 0, P);
    block_at(0, 0)[P - 1] = 1;
    expect_both(0, 0, 17);
    memset(block_at(0, 0), 0, P);
    block_at(0, 0)[4] = 90;
    expect_both(0, 0, 17);
    memset(block_at(0, 0), 0, P);
    put_sum(block_at(0, 0), 1);
    expect_both(0, 0, 17);
    end();
}

static void exchange(uint8_t *a, uint8_t *b)
{
    uint8_t kept[P];
    memcpy(kept, a, P);
    memcpy(a, b, P);
    memcpy(b, kept, P);
}

static void case_exchanged(void)
{
    begin("blocks exchanged: 17 for both; a right page under another block's number: 17; under its own in another file it passes");
    set_up(100);
    exchange(block_at(1, 0), block_at(1, 1));
    expect_both(1, 0, 17);
    expect_both(1, 1, 17);
    exchange(block_at(1, 0), block_at(1, 1));
    expect_both(1, 0, 0);
    expect_both(1, 1, 0);
    memcpy(block_at(0, 2), block_at(1, 1), P);
    expect_both(0, 2, 17);
    push_out(1);
    memcpy(block_at(0, 1), block_at(1, 1), P);
    expect_both(0, 1, 0);
    end();
}

static void case_above(void)
{
    begin("a bad block at its file's count or above: 4, not 17; an extend puts zeros over it, and they pass");
    set_up(100);
    expect_both(1, 3, 4);
    expect_both(2, 0, 3);
    expect("extend", ask_name(EXTEND, 1, 0), 0);
    expect("block number", lot.answer[0], 3);
    expect_both(1, 3, 0);
    end();
}

static void case_dropped(void)
{
    begin("a bad block gives 17 until its file is dropped; extended over it passes. Another file's stays bad");
    set_up(100);
    block_at(0, 0)[100] ^= 1;
    block_at(1, 0)[100] ^= 1;
    expect_both(0, 0, 17);
    expect_both(1, 0, 17);
    expect("drop", ask_name(DROP, 1, 0), 0);
    expect_both(1, 0, 4);
    expect_both(0, 0, 17);
    expect("extend", ask_name(EXTEND, 1, 0), 0);
    expect_both(1, 0, 0);
    expect_both(0, 0, 17);
    end();
}

static void case_all_pinned(void)
{
    begin("every buffer pinned: a bad block gives 17, a good one 6; damaged books give 2 before either");
    set_up(100);
    block_at(1, 0)[100] ^= 1;
    pin(0, 1);
    pin(0, 2);
    expect_both(1, 0, 17);
    expect("pin of a good one", ask_name(PIN, 1, 1), 6);
    lot.control[CONTROL_HAND] = N;
    expect_both(1, 0, 2);
    end();
}

static void case_held(void)
{
    begin("a held page is not verified: over a bad block it is pinned, peeked at in the pool, and refused with 5; once it is out, 17");
    set_up(100);
    uint64_t i = pin(1, 1);
    block_at(1, 1)[100] ^= 1;
    expect("buffer of a hit", pin(1, 1), i);
    expect("hit", lot.answer[1], 1);
    expect("peek", ask_name(PEEK, 1, 1), 0);
    expect("in the pool", lot.answer[0], 1);
    lot.counts[HOLDERS * i] = MOST_COUNT;
    expect("pin at the greatest count", ask_name(PIN, 1, 1), 5);
    lot.counts[HOLDERS * i] = 1;
    unpin(i);
    push_out(0);
    expect_both(1, 1, 17);
    end();
}

static void case_mended(void)
{
    begin("a dirty page that is written back over a bad block makes it pass again");
    set_up(100);
    uint64_t i = pin(1, 1);
    block_at(1, 1)[100] ^= 1;
    write_two(i, 500, 1, 2, 95);
    flush(i);
    expect_sealed(1, 1, page_at(i));
    unpin(i);
    push_out(0);
    expect_both(1, 1, 0);
    end();
}

static void case_own_bytes(void)
{
    uint32_t sum;
    begin("bytes 8 and 9 that a caller wrote last while the page is held; loaded again it has its checksum there");
    set_up(100);
    uint64_t i = pin(1, 1);
    write_two(i, 8, 201, 202, 95);
    expect_read(i, 8, 201, 202);
    flush(i);
    expect_read(i, 8, 201, 202);
    sum = page_sum(page_at(i), P, 1);
    unpin(i);
    push_out(0);
    expect_read(pin(1, 1), 8, sum % 256, sum / 256);
    end();
}

int main(void)
{
    void (*const cases[])(void) = {case_published, case_lengths, case_written, case_zeros,      case_bits, case_fields, case_exchanged,
                                   case_above,     case_dropped, case_held,    case_all_pinned, case_mended, case_own_bytes};
    return run_cases(cases, sizeof cases / sizeof *cases);
}
