/* The cap case by case, through the calls: N = 3, B = 3, P = 1024, log 100; the bench's file, with 4 blocks of zeros and capacity 5, and
   another with 1 block, capacity 2. After each refusal all that was lent is compared byte by byte. Prints a line for each case, then the
   counts. */
#include "others.h"

/* beyond the edges, or permitted in the low 4, 8, 32 or 63 bits */
static const uint64_t bad[] = {0, 16, 17, 21, 256 + 5, (1ull << 32) + 5, 1ull << 63, (1ull << 63) + 5, UINT64_MAX};
enum { BAD = sizeof bad / sizeof *bad };

static void case_permitted(void)
{
    begin("set up with caps 1 to 15: the control record is P, hand 0, top 0, both positions and the cap");
    for (uint64_t cap = 1; cap <= 15; cap++) {
        const uint64_t record[MOST_CONTROL] = {P, 0, 0, LOG, LOG, cap};
        set_up(cap);
        for (int k = 0; k < CONTROL_WORDS; k++) expect("control word", lot.control[k], record[k]);
        expect("word behind the record", lot.control[CONTROL_WORDS], 0x5A5A5A5A5A5A5A5A);
    }
    end();
}

static void case_refused(void)
{
    begin("set up with caps 0, 16, 17, 21, 2^8 + 5, 2^32 + 5, 2^63, 2^63 + 5, 2^64 - 1: 18; nothing changes, and a pool in use goes on");
    for (int k = 0; k < BAD; k++) {
        unset();
        expect("set up", ask_set_up(bad[k]), 18);
        fill(5);
        expect("set up of a pool in use", ask_set_up(bad[k]), 18);
        expect("buffer of a hit", pin(0, 1), 1);
        expect("its word", lot.states[1], word(1, 1));
        expect("its private count", lot.counts[HOLDERS], 2);
    }
    end();
}

/* Each slice one element too short, and a fork or a block size that is not permitted. */
static void expect_sizes_first(uint64_t cap)
{
    size_t *lengths[] = {&m.control_len, &m.states_len, &m.names_len, &m.pool_len, &m.free_len,
                         &m.heads_len, &m.chain_len, &m.rows_len, &m.store_len, &m.counts_len, &m.answer_len};
    for (size_t k = 0; k < sizeof lengths / sizeof *lengths; k++) {
        --*lengths[k];
        expect("set up with a slice too short", ask_set_up(cap), 1);
        ++*lengths[k];
    }
    lot.rows[FILE_FORK] = 3;
    expect("set up with fork 3", ask_set_up(cap), 1);
    lot.rows[FILE_FORK] = 0;
    expect("set up of blocks of 512", ask((struct request){.call = SET_UP, .page_size = 512, .position = LOG, .cap = cap}), 1);
}

static void case_sizes_first(void)
{
    begin("set up with sizes or rows wrong, and such a cap: 1; with sizes right, 18");
    for (int k = 0; k < BAD; k++) {
        unset();
        expect_sizes_first(bad[k]);
        expect("set up", ask_set_up(bad[k]), 18);
    }
    end();
}

static void case_lengths(void)
{
    static const size_t lengths[] = {5, 7};
    begin("a control record of five words, or of seven: 1 in every call");
    for (size_t k = 0; k < 2 * OTHERS; k++) {
        fill(5);
        m.control_len = lengths[k % 2];
        expect("set up", ask_set_up(5), 1);
        expect("another call", ask_other(k / 2), 1);
        m.control_len = 6;
        expect("the same call with six", ask_other(k / 2), 0);
    }
    end();
}

/* A call on a pool whose record has each of the bad caps, with sizes wrong too, and its own. No usage count is above 0, so that nothing
   else is unsound. */
static void expect_unsound(uint64_t cap, size_t k)
{
    fill(cap);
    for (int i = 0; i < N; i++) lot.states[i] = word(0, i < 2);
    for (int b = 0; b < BAD; b++) {
        lot.control[CONTROL_CAP] = bad[b];
        expect("a call on a bad cap", ask_other(k), 2);
        m.states_len--;
        expect("the same with a slice too short", ask_other(k), 1);
        m.states_len++;
    }
    lot.control[CONTROL_CAP] = cap;
    expect("the same call on the cap", ask_other(k), 0);
    expect("the cap after it", lot.control[CONTROL_CAP], cap);
}

static void case_unsound(void)
{
    begin("such caps in the control record: 2 in every call but set up; with set up's cap each passes, and leaves the cap as it is");
    expect_every_call();
    for (uint64_t cap = 1; cap <= 15; cap++)
        for (size_t k = 0; k < OTHERS; k++) expect_unsound(cap, k);
    end();
}

/* Each call where one buffer has this usage count. */
static void expect_usage(uint64_t cap, uint32_t usage)
{
    static struct lot filled;
    fill(cap);
    memcpy(&filled, &lot, sizeof lot);
    for (size_t k = 0; k < N * OTHERS; k++) {
        memcpy(&lot, &filled, sizeof lot);
        lot.states[k % N] = word(usage, k % N < 2);
        expect("a call", ask_other(k / N), usage <= cap ? 0 : 2);
    }
}

static void case_usage(void)
{
    begin("caps 1 to 15, a buffer's usage count from 0 to 15: above the cap 2 in every call but set up, at the cap and below sound");
    for (uint64_t cap = 1; cap <= 15; cap++)
        for (uint32_t usage = 0; usage <= 15; usage++) expect_usage(cap, usage);
    end();
}

static void case_f(void)
{
    begin("F with caps 1 to 15: a page pinned by cap + 3 holders has usage 1 at first and the cap in the end");
    for (uint64_t cap = 1; cap <= 15; cap++) {
        set_up(cap);
        for (uint64_t pins = 1; pins <= cap + 3; pins++) {
            expect("buffer", pin_by(pins - 1, 0, 0), 0);
            expect("word", lot.states[0], word(pins < cap ? pins : cap, pins));
        }
    }
    end();
}

/* Buffers 0 and 1 pinned, 2 with usage = cap, first pinned too, then not; hand 0. */
static void expect_h(uint64_t cap)
{
    fill(cap);
    for (uint64_t k = 0; k < cap; k++) expect("buffer", pin_by(k, 0, 2), 2);
    expect("pin with every buffer pinned", ask_name(PIN, 0, 3), 6);
    for (uint64_t k = 0; k < cap; k++) unpin_by(k, 2);
    expect("word before", lot.states[2], word(cap, 0));
    expect("buffer of block 3", pin(0, 3), 2);
    expect("hit", lot.answer[1], 0);
    expect("wrote", lot.answer[2], 0);
    expect("probes", lot.answer[3], 3 * (cap + 1));
    expect("hand", lot.control[CONTROL_HAND], 0);
    for (int i = 0; i < N; i++) expect("word", lot.states[i], word(1, 1));
}

static void case_h(void)
{
    begin("H with caps 1 to 15: buffers 0, 1 pinned, 2 unpinned with usage = cap, hand 0: buffer 2, probes 3 * (cap + 1)");
    for (uint64_t cap = 1; cap <= 15; cap++) expect_h(cap);
    end();
}

static void case_again(void)
{
    begin("a pool in use that is set up again has the new cap: below its old counts, or above them");
    for (uint64_t cap = 1; cap <= 15; cap++) {
        set_up(16 - cap);
        for (uint64_t k = 0; k < 16; k++) pin_by(k, 0, 0);
        expect("set up again", ask_set_up(cap), 0);
        expect("cap", lot.control[CONTROL_CAP], cap);
        for (uint64_t k = 0; k < 16; k++) pin_by(k, 0, 0);
        expect("word", lot.states[0], word(cap, 16));
    }
    end();
}

int main(void)
{
    void (*const cases[])(void) = {case_permitted, case_refused, case_sizes_first, case_lengths, case_unsound,
                                   case_usage,     case_f,       case_h,           case_again};
    return run_cases(cases, sizeof cases / sizeof *cases);
}
