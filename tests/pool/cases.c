/* Document 01's pages on the bench, through the library's calls: N = 3, B = 3, P = 1024, log 100, cap 5; one file (1663, 5, 16384, 0)
   with 4 blocks of zeros, capacity 5; holder 0 unless a case says otherwise. Every expected number is the document's. Prints a line for
   each case, then the counts. */
#include "buftag.h"
#include "expect.h"
#include "named.h"
#include "../layout.h"
#include <string.h>

static uint64_t control[CONTROL_WORDS], answer[ANSWER_WORDS];
static uint32_t states[3], names[3 * NAME_WORDS], rows[ROW_WORDS];
static int32_t free_links[3], heads[3], chain[3];
static uint8_t pool[3 * 1024], store[5 * 1024];
static uint16_t counts[3 * HOLDERS];
static struct bufpool m = {control, CONTROL_WORDS, states, 3, names, 3 * NAME_WORDS, pool, sizeof pool, free_links, 3,
                           heads, 3, chain, 3, rows, ROW_WORDS, store, sizeof store, counts, 3 * HOLDERS};

static void expect_answer(uint64_t a, uint64_t b, uint64_t c, uint64_t d)
{
    expect("answer 0", answer[0], a);
    expect("answer 1", answer[1], b);
    expect("answer 2", answer[2], c);
    expect("answer 3", answer[3], d);
}

/* Set up on memory with other contents. */
static void set_up(uint64_t log)
{
    const uint32_t file[ROW_WORDS] = {1663, 5, 16384, 0, 4, 5};
    memcpy(rows, file, sizeof file);
    memset(states, 0x5A, sizeof states);
    memset(names, 0x5A, sizeof names);
    memset(free_links, 0x5A, sizeof free_links);
    memset(heads, 0x5A, sizeof heads);
    memset(chain, 0x5A, sizeof chain);
    memset(pool, 0x5A, sizeof pool);
    memset(store, 0, sizeof store);
    memset(counts, 0x5A, sizeof counts);
    memset(control, 0x5A, sizeof control);
    memset(answer, 0x5A, sizeof answer);
    expect("set up", DO(set_up)(BUFPOOL_LENT(&m), 1024, log, 5, answer, ANSWER_WORDS), 0);
    expect_answer(0, 0, 0, 0);
}

static uint32_t pin_by(uint64_t holder, uint32_t block)
{
    memset(answer, 0x5A, sizeof answer);
    return DO(pin)(BUFPOOL_LENT(&m), holder, 1663, 5, 16384, 0, block, answer, ANSWER_WORDS);
}

static uint32_t unpin_by(uint64_t holder, uint64_t buffer)
{
    memset(answer, 0x5A, sizeof answer);
    return DO(unpin)(BUFPOOL_LENT(&m), holder, buffer, answer, ANSWER_WORDS);
}

static uint32_t pin(uint32_t block)
{
    return pin_by(0, block);
}

static uint32_t unpin(uint64_t buffer)
{
    return unpin_by(0, buffer);
}

static uint32_t write_bytes(uint64_t buffer, uint64_t from, size_t length, uint64_t position)
{
    static const uint8_t bytes[8] = {1, 2, 3, 4, 5, 6, 7, 8};
    memset(answer, 0x5A, sizeof answer);
    return DO(write)(BUFPOOL_LENT(&m), 0, buffer, from, bytes, length, position, answer, ANSWER_WORDS);
}

static uint32_t read_bytes(uint64_t buffer, uint64_t from, uint8_t *out, size_t length)
{
    memset(answer, 0x5A, sizeof answer);
    return DO(read)(BUFPOOL_LENT(&m), 0, buffer, from, out, length, answer, ANSWER_WORDS);
}

static uint32_t extend(void)
{
    memset(answer, 0x5A, sizeof answer);
    return DO(extend)(BUFPOOL_LENT(&m), 1663, 5, 16384, 0, answer, ANSWER_WORDS);
}

/* What case C does, and what it and other cases go on from. */
static void pin_three(void)
{
    set_up(100);
    for (uint32_t block = 0; block < 3; block++) {
        expect("pin", pin(block), 0);
        expect_answer(block, 0, 0, 0);
    }
}

static void unpin_three(void)
{
    for (uint64_t i = 0; i < 3; i++) expect("unpin", unpin(i), 0);
}

static void case_set_up(void)
{
    begin("set up: free list 0, 1, 2, hand 0, both positions 100, cap 5, chains and buffers empty, private counts 0");
    set_up(100);
    const uint64_t record[CONTROL_WORDS] = {1024, 0, 0, 100, 100, 5};
    for (int k = 0; k < CONTROL_WORDS; k++) expect("control word", control[k], record[k]);
    for (int k = 0; k < 3; k++) {
        expect("state word", states[k], 0);
        expect("free link", (uint64_t)free_links[k], k == 2 ? UINT64_MAX : (uint64_t)k + 1);
        expect("head", (uint64_t)heads[k], UINT64_MAX);
        expect("chain link", (uint64_t)chain[k], UINT64_MAX);
    }
    for (int k = 0; k < 3 * NAME_WORDS; k++) expect("name", names[k], 0);
    for (int k = 0; k < 3 * HOLDERS; k++) expect("private count", counts[k], 0);
    expect("pool byte", pool[0], 0x5A);
    end();
}

static void case_a(void)
{
    const uint8_t bytes[NAME_BYTES] = {0xB5, 0x41, 0, 0, 0, 0x40, 0, 0, 0x59, 0x93, 0, 0, 0, 0, 0, 0, 7, 0, 0, 0};
    uint8_t out[NAME_BYTES];
    begin("A: the bytes of name {16821, 16384, 37721, 0, 7}");
    memset(out, 0x5A, sizeof out);
    expect("buftag_bytes", buftag_bytes(16821, 16384, 37721, 0, 7, out, sizeof out), 0);
    for (int k = 0; k < NAME_BYTES; k++) expect("byte", out[k], bytes[k]);
    end();
}

static void case_b(void)
{
    const uint8_t bytes[8] = {0x01, 0, 0, 0, 0xD0, 0x74, 0xB3, 0x16};
    begin("B: position 0x116B374D0 in a page");
    set_up(0x116B374D0);
    expect("pin", pin(0), 0);
    expect("write", write_bytes(0, 8, 1, 0x116B374D0), 0);
    for (int k = 0; k < 8; k++) expect("byte", pool[k], bytes[k]);
    expect("byte 8", pool[8], 1);
    end();
}

static void case_c(void)
{
    begin("C: blocks 0, 1, 2 in buffers 0, 1, 2, probes 0, word 0x83040001");
    pin_three();
    for (int i = 0; i < 3; i++) expect("word", states[i], 0x83040001);
    for (int k = 0; k < 3 * HOLDERS; k++) expect("private count", counts[k], k % HOLDERS == 0);
    expect("top of the free list", control[CONTROL_TOP], UINT64_MAX);
    for (int k = 0; k < 3 * 1024; k++) expect("pool byte", pool[k], 0);
    end();
}

static void case_d(void)
{
    begin("D: then block 3 gives 6, hand 0");
    pin_three();
    expect("pin", pin(3), 6);
    expect_answer(0, 0, 0, 0);
    expect("hand", control[CONTROL_HAND], 0);
    for (int i = 0; i < 3; i++) expect("word", states[i], 0x83040001);
    end();
}

static void case_e(void)
{
    begin("E: C, all unpinned: block 3 in buffer 0, probes 4, hand 1; block 0 in buffer 1, probes 1, hand 2");
    pin_three();
    unpin_three();
    expect("pin 3", pin(3), 0);
    expect_answer(0, 0, 0, 4);
    expect("hand", control[CONTROL_HAND], 1);
    expect("pin 0", pin(0), 0);
    expect_answer(1, 0, 0, 1);
    expect("hand", control[CONTROL_HAND], 2);
    end();
}

static void case_f(void)
{
    begin("F: one page pinned by six holders: 0x83140006");
    set_up(100);
    for (uint64_t h = 0; h < 6; h++) {
        expect("pin", pin_by(h, 0), 0);
        expect_answer(0, h > 0, 0, 0);
    }
    expect("word", states[0], 0x83140006);
    for (int h = 0; h < HOLDERS; h++) expect("private count", counts[h], h < 6);
    end();
}

static void case_f_alone(void)
{
    begin("F: one page pinned six times by one holder: 0x83040001, private count 6");
    set_up(100);
    for (int k = 0; k < 6; k++) {
        expect("pin", pin(0), 0);
        expect_answer(0, k > 0, 0, 0);
    }
    expect("word", states[0], 0x83040001);
    for (int h = 0; h < HOLDERS; h++) expect("private count", counts[h], h == 0 ? 6 : 0);
    end();
}

static void case_g(void)
{
    begin("G: C, then a write to buffer 0: 0x93840001");
    pin_three();
    expect("write", write_bytes(0, 8, 4, 100), 0);
    expect_answer(0, 0, 0, 0);
    expect("word", states[0], 0x93840001);
    end();
}

static void case_h(void)
{
    begin("H: buffers 0, 1 pinned, 2 pinned by five holders and unpinned, so with usage 5, hand 0: probes 18");
    pin_three();
    for (uint64_t h = 1; h < 5; h++) expect("pin", pin_by(h, 2), 0);
    for (uint64_t h = 0; h < 5; h++) expect("unpin", unpin_by(h, 2), 0);
    expect("word before", states[2], 0x83140000);
    expect("hand before", control[CONTROL_HAND], 0);
    expect("pin", pin(3), 0);
    expect_answer(2, 0, 0, 18);
    expect("hand", control[CONTROL_HAND], 0);
    expect("word", states[2], 0x83040001);
    end();
}

static void case_i(void)
{
    begin("I: inserted 100: position 101 gives 11, 100 passes; page at 100, position 99: 12");
    pin_three();
    expect("position 101", write_bytes(0, 8, 1, 101), 11);
    expect("word", states[0], 0x83040001);
    expect("position 100", write_bytes(0, 8, 1, 100), 0);
    expect("position 99", write_bytes(0, 8, 1, 99), 12);
    end();
}

static void case_j(void)
{
    begin("J: C, all unpinned, drop: free list 2, 1, 0");
    pin_three();
    unpin_three();
    memset(answer, 0x5A, sizeof answer);
    expect("drop", DO(drop)(BUFPOOL_LENT(&m), 1663, 5, 16384, 0, answer, ANSWER_WORDS), 0);
    expect_answer(0, 0, 0, 0);
    expect("top of the free list", control[CONTROL_TOP], 2);
    expect("link of 2", (uint64_t)free_links[2], 1);
    expect("link of 1", (uint64_t)free_links[1], 0);
    expect("link of 0", (uint64_t)free_links[0], UINT64_MAX);
    expect("blocks", rows[ROW_BLOCKS], 0);
    for (int i = 0; i < 3; i++) expect("word", states[i], 0);
    for (int k = 0; k < 3 * NAME_WORDS; k++) expect("name", names[k], 0);
    for (int k = 0; k < 3; k++) expect("head", (uint64_t)heads[k], UINT64_MAX);
    end();
}

static void case_ranges(void)
{
    uint8_t out[4] = {0};
    begin("write from 7: 9; 8 passes; 1020 with 4 bytes passes, 5: 9; 1024 with none: 10. Read 1024 with none passes, 1025: 9");
    pin_three();
    expect("write from 7", write_bytes(0, 7, 1, 100), 9);
    expect("write from 8", write_bytes(0, 8, 1, 100), 0);
    expect("write from 1020, 4 bytes", write_bytes(0, 1020, 4, 100), 0);
    expect("write from 1020, 5 bytes", write_bytes(0, 1020, 5, 100), 9);
    expect("write from 1024, none", write_bytes(0, 1024, 0, 100), 10);
    expect("read from 1024, none", read_bytes(0, 1024, out, 0), 0);
    expect("read from 1025, none", read_bytes(0, 1025, out, 0), 9);
    expect("read from 1020, 4 bytes", read_bytes(0, 1020, out, 4), 0);
    for (int k = 0; k < 4; k++) expect("byte read", out[k], (uint64_t)k + 1);
    end();
}

static void case_extend(void)
{
    begin("pin block 4: 4. Extend: block number 4; again: 13");
    set_up(100);
    memset(store + 4 * 1024, 0xEE, 1024);
    expect("pin", pin(4), 4);
    expect("extend", extend(), 0);
    expect_answer(4, 0, 0, 0);
    expect("blocks", rows[ROW_BLOCKS], 5);
    for (int k = 0; k < 1024; k++) expect("byte of the new block", store[4 * 1024 + k], 0);
    expect("extend again", extend(), 13);
    expect_answer(0, 0, 0, 0);
    expect("pin of the new block", pin(4), 0);
    end();
}

int main(void)
{
    void (*const cases[])(void) = {case_set_up,  case_a, case_b, case_c, case_d, case_e,      case_f,
                                   case_f_alone, case_g, case_h, case_i, case_j, case_ranges, case_extend};
    return run_cases(cases, sizeof cases / sizeof *cases);
}
