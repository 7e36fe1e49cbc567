/* Holders and their private counts case by case, through the calls, on the pool of others.h with cap 5. After each refusal all that was
   lent is compared byte by byte. Prints a line for each case, then the counts. */
#include "others.h"
#include <stdbool.h>

enum { LAST = HOLDERS - 1 };

/* beyond the last, also where the low 5, 6, 8, 32 or 63 bits are a holder's */
static const uint64_t beyond[] = {64, 65, 96, 128, 256 + 5, (1ull << 32) + 5, 1ull << 63, (1ull << 63) + 5, UINT64_MAX};
enum { BEYOND = sizeof beyond / sizeof *beyond };

static uint32_t count_of(uint64_t holder, uint64_t buffer)
{
    return lot.counts[HOLDERS * buffer + holder];
}

static uint32_t ask_by(uint64_t holder, struct request q)
{
    q.holder = holder;
    return ask(q);
}

static uint32_t ask_pin(uint64_t holder, uint32_t block)
{
    return ask_by(holder, (struct request){.call = PIN, .name = {1663, 5, 16384, 0, block}});
}

static void give_back(uint64_t holder)
{
    expect("give back", ask((struct request){.call = GIVE_BACK, .holder = holder}), 0);
    for (int k = 0; k < ANSWER_WORDS; k++) expect("answer of a give back", lot.answer[k], 0);
}

/* The four calls of a holder on a buffer. */
static const struct request on_buffer[] = {
    {.call = UNPIN}, {.call = READ, .from = 8, .own = own, .own_len = sizeof own},
    {.call = WRITE, .from = 8, .own = own, .own_len = sizeof own, .position = LOG}, {.call = FLUSH}};
enum { ON_BUFFER = sizeof on_buffer / sizeof *on_buffer };

static uint32_t ask_on(size_t k, uint64_t holder, uint64_t buffer)
{
    struct request q = on_buffer[k];
    q.buffer = buffer;
    return ask_by(holder, q);
}

static void case_first_pins(void)
{
    begin("a holder's first pin raises word and usage, a further one its own count alone; one that comes again arrives anew");
    set_up(5);
    pin_by(7, 0, 0);
    expect("word of a loaded page", lot.states[0], word(1, 1));
    for (int k = 0; k < 3; k++) pin_by(7, 0, 0);
    expect("word after three more", lot.states[0], word(1, 1));
    pin_by(LAST, 0, 0);
    pin_by(LAST, 0, 0);
    expect("word with two holders", lot.states[0], word(2, 2));
    expect("count of 7", count_of(7, 0), 4);
    expect("count of 63", count_of(LAST, 0), 2);
    for (int k = 0; k < 2; k++) unpin_by(LAST, 0);
    pin_by(LAST, 0, 0);
    expect("word after 63 came again", lot.states[0], word(3, 2));
    for (uint64_t h = 0; h < N * HOLDERS; h++) expect("count", lot.counts[h], h == 7 ? 4 : h == LAST);
    end();
}

static void case_unpins(void)
{
    begin("an unpin lowers the holder's count, and the word where that becomes 0; usage stays");
    set_up(5);
    for (uint64_t h = 0; h < 3; h++)
        for (uint64_t k = 0; k <= h; k++) pin_by(h, 0, 0);
    expect("word", lot.states[0], word(3, 3));
    unpin_by(2, 0);
    expect("count after one of three", count_of(2, 0), 2);
    expect("word after one of three", lot.states[0], word(3, 3));
    unpin_by(0, 0);
    expect("word after a last one", lot.states[0], word(3, 2));
    unpin_by(2, 0);
    unpin_by(2, 0);
    expect("count after three of three", count_of(2, 0), 0);
    expect("word after three of three", lot.states[0], word(3, 1));
    expect("count of 1", count_of(1, 0), 2);
    end();
}

static void case_full(void)
{
    begin("65,535 pins of one holder, then 5, while another holder's pins pass; after an unpin one more passes");
    set_up(5);
    for (unsigned k = 0; k < 65535; k++) pin_by(5, 0, 0);
    expect("count", count_of(5, 0), 65535);
    expect("word", lot.states[0], word(1, 1));
    expect("pin of 5", ask_pin(5, 0), 5);
    pin_by(6, 0, 0);
    pin_by(6, 0, 0);
    expect("word with another holder", lot.states[0], word(2, 2));
    expect("pin of 5 again", ask_pin(5, 0), 5);
    unpin_by(5, 0);
    expect("pin of 5 after an unpin", ask_pin(5, 0), 0);
    expect("pin of 5 after that", ask_pin(5, 0), 5);
    give_back(5);
    expect("word after 5 gave all back", lot.states[0], word(2, 1));
    expect("count of 6", count_of(6, 0), 2);
    end();
}

static void case_all(void)
{
    begin("64 holders on one page: the word has 0x40 pins; holder 64: 19");
    set_up(5);
    for (uint64_t h = 0; h < HOLDERS; h++) expect("buffer", pin_by(h, 0, 0), 0);
    expect("word", lot.states[0], word(5, 0x40));
    expect("a 65th holder", ask_pin(64, 0), 19);
    for (size_t k = 0; k < OTHERS; k++) expect("another call", others[k].call == UNPIN ? 0 : ask_other(k), 0);
    for (uint64_t h = 1; h < HOLDERS; h++) unpin_by(h, 0);
    expect("pins in the end", lot.states[0] & 0x3FFFF, 0);
    end();
}

/* Every holder beyond, with a file and block, or a buffer, that would be refused too. */
static void expect_beyond(uint64_t holder)
{
    for (uint32_t block = 0; block < 6; block++) expect("pin", ask_pin(holder, block), 19);
    expect("pin without a file", ask_by(holder, (struct request){.call = PIN, .name = {1, 2, 3, 0, 0}}), 19);
    for (size_t k = 0; k < ON_BUFFER; k++)
        for (uint64_t i = 0; i <= N; i++) expect("call on a buffer", ask_on(k, holder, i), 19);
    expect("give back", ask_by(holder, (struct request){.call = GIVE_BACK}), 19);
    m.states_len--;
    expect("give back with a slice too short", ask_by(holder, (struct request){.call = GIVE_BACK}), 1);
    m.states_len++;
    lot.control[CONTROL_HAND] = N;
    expect("pin with an unsound hand", ask_pin(holder, 0), 2);
    expect("unpin with an unsound hand", ask_on(0, holder, 0), 2);
    lot.control[CONTROL_HAND] = 0;
}

static void case_beyond(void)
{
    begin("holders 64 and above: 19, behind 1 and 2, before 3, 4, 6, 7, 8 and 9; calls that name none pass; holder 63 is one");
    fill(5);
    pin(0, 2);
    for (size_t k = 0; k < BEYOND; k++) expect_beyond(beyond[k]);
    for (size_t k = 0; k < OTHERS; k++) {
        struct request q = others[k];
        q.holder = 64;
        fill(5);
        if (!NAMES_HOLDER(q.call)) expect("a call that names none", ask(q), 0);
    }
    fill(5);
    expect("buffer of holder 63", pin_by(LAST, 0, 0), 0);
    for (size_t k = ON_BUFFER; k-- > 0;) expect("call of holder 63", ask_on(k, LAST, 0), 0);
    give_back(LAST);
    end();
}

static void case_strangers(void)
{
    begin("unpin, read, write, flush of a holder without a pin: 8 whoever else has one; with one of its own each passes, and after it 8");
    for (size_t k = 0; k < ON_BUFFER; k++) {
        fill(5);
        expect("of a stranger", ask_on(k, 9, 0), 8);
        expect("of the holder that has a pin", ask_on(k, 0, 0), 0);
        pin_by(9, 0, 1);
        expect("of a holder with a pin on another page", ask_on(k, 9, 0), 8);
        pin_by(9, 0, 0);
        expect("with a pin", ask_on(k, 9, 0), 0);
        if (on_buffer[k].call != UNPIN) unpin_by(9, 0);
        expect("after its last pin", ask_on(k, 9, 0), 8);
        expect("its pin on the other page", count_of(9, 1), 1);
    }
    end();
}

/* Three holders on three pages; the first and the last of them dirty, where holder 1 has pins. */
static void share(void)
{
    static const uint8_t pins[3][N] = {{1, 2, 0}, {3, 0, 1}, {0, 1, 4}};
    set_up(5);
    for (uint64_t h = 0; h < 3; h++)
        for (uint32_t b = 0; b < N; b++)
            for (unsigned k = 0; k < pins[h][b]; k++) expect("buffer", pin_by(h, 0, b), b);
    expect("write", ask_on(2, 1, 0), 0);
    expect("write", ask_on(2, 1, 2), 0);
}

static void case_given(void)
{
    begin("give back: the holder's counts become 0, each word loses one; others' counts, usage, dirty pages and all else stay");
    share();
    give_back(1);
    struct lot wanted = before;
    memset(wanted.answer, 0, sizeof wanted.answer);
    wanted.counts[1] = wanted.counts[2 * HOLDERS + 1] = 0;
    wanted.states[0]--;
    wanted.states[2]--;
    expect("any other change", memcmp(&wanted, &lot, sizeof lot) != 0, 0);
    expect("word of page 0", lot.states[0], word(2, 1) | 1u << 28 | 1u << 23);
    expect("word of page 2", lot.states[2], word(2, 1) | 1u << 28 | 1u << 23);
    for (size_t k = 0; k < ON_BUFFER; k++) expect("a call of it", ask_on(k, 1, 0), 8);
    give_back(1);
    memset(before.answer, 0, sizeof before.answer);
    expect("change by a give back of nothing", memcmp(&before, &lot, sizeof lot) != 0, 0);
    give_back(0);
    give_back(2);
    for (int k = 0; k < N * HOLDERS; k++) expect("count in the end", lot.counts[k], 0);
    for (int i = 0; i < N; i++) expect("pins in the end", lot.states[i] & 0x3FFFF, 0);
    expect("drop of a file without pins", ask_name(DROP, 0, 0), 0);
    end();
}

static void case_together(void)
{
    begin("6, victims and 14 go by all holders together: a page leaves its buffer only when no holder has a pin on it");
    set_up(5);
    for (uint32_t b = 0; b < N; b++) pin_by(b + 3, 0, b);
    pin_by(9, 0, 1);
    expect("pin of a fourth page", ask_pin(3, 3), 6);
    expect("by a holder that has none", ask_pin(20, 3), 6);
    expect("drop", ask_name(DROP, 0, 0), 14);
    unpin_by(4, 1);
    expect("while 9 has a pin", ask_pin(3, 3), 6);
    give_back(9);
    expect("buffer of the fourth page", pin_by(20, 0, 3), 1);
    expect("its word", lot.states[1], word(1, 1));
    for (uint64_t h = 0; h < HOLDERS; h++) expect("its counts", count_of(h, 1), h == 20);
    give_back(3);
    give_back(5);
    expect("drop while 20 has a pin", ask_name(DROP, 0, 0), 14);
    give_back(20);
    expect("drop", ask_name(DROP, 0, 0), 0);
    end();
}

/* Words and counts that do, and do not, fit together: of a buffer in use with two holders, and of an empty one. */
static const struct { uint32_t pins, holder, count, empty; uint32_t result; } fits[] = {
    {1, 0, 1, 0, 0}, {1, LAST, 1, 0, 0}, {1, 7, 255, 0, 0}, {1, 7, 256, 0, 0}, {1, 7, 32768, 0, 0}, {1, 7, 65535, 0, 0}, {0, 0, 0, 0, 0},
    {0, 0, 1, 0, 2}, {0, LAST, 1, 0, 2}, {0, 7, 256, 0, 2}, {0, 7, 32768, 0, 2}, {0, 7, 65535, 0, 2}, {1, 0, 0, 0, 2}, {2, 7, 1, 0, 2},
    {2, 7, 2, 0, 2}, {65, 7, 1, 0, 2}, {64, 0, 0, 0, 2}, {65537, 7, 1, 0, 2}, {131073, 7, 1, 0, 2}, {262143, 7, 65535, 0, 2},
    {0, 0, 0, 1, 0}, {0, 0, 1, 1, 2}, {0, LAST, 1, 1, 2}, {0, 7, 65535, 1, 2}};
enum { FITS = sizeof fits / sizeof *fits };

/* Buffer 2 is the one; where it is to be empty, the pool has two pages only. */
static void set_fit(size_t k)
{
    set_up(5);
    for (uint32_t b = 0; b < N - fits[k].empty; b++) pin(0, b);
    lot.counts[2 * HOLDERS] = 0;
    lot.counts[2 * HOLDERS + fits[k].holder] = (uint16_t)fits[k].count;
    if (!fits[k].empty) lot.states[2] = word(1, fits[k].pins);
}

static void case_unsound(void)
{
    begin("a word that does not count the holders whose private count is not 0: 2 in every call but set up, which makes all counts 0");
    expect_every_call();
    for (size_t k = 0; k < FITS * OTHERS; k++) {
        size_t fit = k / OTHERS;
        uint32_t result = fits[fit].result, block = others[k % OTHERS].name[NAME_BLOCK];
        bool no_victim = others[k % OTHERS].call == PIN && block == 3 && fits[fit].pins > 0;
        set_fit(fit);
        expect("a call", ask_other(k % OTHERS), result == 0 && no_victim ? 6 : result);
        expect("set up", ask_set_up(5), 0);
        for (int c = 0; c < N * HOLDERS; c++) expect("count after it", lot.counts[c], 0);
    }
    end();
}

static void case_lengths(void)
{
    begin("a slice of 191 or of 193 counts for three buffers, of 63 or none: 1 in every call, set up too");
    static const size_t lengths[] = {191, 193, 63, 0};
    for (size_t k = 0; k < 4 * OTHERS; k++) {
        fill(5);
        lot.counts[N * HOLDERS] = 0;
        m.counts_len = lengths[k % 4];
        expect("set up", ask_set_up(5), 1);
        expect("another call", ask_other(k / 4), 1);
        m.counts_len = 192;
        expect("the same call with 192", ask_other(k / 4), 0);
    }
    end();
}

int main(void)
{
    void (*const cases[])(void) = {case_first_pins, case_unpins, case_full,     case_all,     case_beyond,
                                   case_strangers,  case_given,  case_together, case_unsound, case_lengths};
    return run_cases(cases, sizeof cases / sizeof *cases);
}
