/* directed [SLIP]: fixed lists of calls for pools of two sizes, with what each call has to give. With a slip (slip.h) a list may fail. */
#include "directed.h"

/* Served for long; then the smaller pool has no buffer, and the larger one has. */
static void late_six(void)
{
    char kept[6][5] = {"aaaa", "bbbb", "cccc", "dddd", "eeee", "ffff"};
    unsigned others = 0;
    list_for("a list served for 200 calls, and a 6 in the smaller pool alone", 2, 5, 8);
    for (uint32_t k = 0; k < 40; k++) {
        uint32_t block = k * 5 % 6, holder = k % 3;
        size_t p = pin(holder, block);
        others += got[SMALLER].answer[0] != got[LARGER].answer[0];
        reads(holder, p, 500, kept[block]);
        logs(LOG_INSERTED, LOG + k, 0);
        snprintf(kept[block], sizeof kept[block], "%04u", (unsigned)k);
        writes(holder, p, 500, kept[block], LOG + k, 0);
        unpin(holder, p);
    }
    expect("calls before the 6", pins[SMALLER].made, 200);
    expect("pins with two numbers", others > 20, true);
    pin(0, 0);
    pin(1, 1);
    ask_apart(by_name(PIN, 2, 0, 2), 6, 0);
    end();
}

static void great_pools(void)
{
    list_for("1,023 pages pinned in pools of 1,023 and 1,024 buffers, and the next one", 1023, 1024, 1030);
    for (uint32_t block = 0; block <= 1023; block++)
        if (block != BAD) pin(block % HOLDERS, block);
    ask_apart(by_name(PIN, 0, 0, 1024), 6, 0);
    end();
}

static void equal_pools(void)
{
    list_for("a 6 in both pools of one size", 2, 2, 8);
    pin(0, 0);
    pin(0, 1);
    ask(by_name(PIN, 0, 0, 2), 6);
    end();
}

/* Two pins of a page by one holder: the one that is left keeps the page, whichever it is. */
static void both_orders(void)
{
    list_for("two pins of a page given back in both orders", 1, 2, 8);
    for (int later_first = 0; later_first <= 1; later_first++) {
        size_t two[2];
        two[0] = pin(4, 1);
        two[1] = pin(4, 1);
        unpin(4, two[later_first]);
        expect("a pin given back is barred", is_barred(UNPIN, 4, two[later_first]), true);
        reads(4, two[1 - later_first], 1020, "bbbb");
        ask(by_name(DROP, 0, 0, 0), 14);
        unpin(4, two[1 - later_first]);
        unpin(4, pin(4, 2));
        expect("open pins", pins[SMALLER].open + pins[LARGER].open, 0);
    }
    ask(by_name(DROP, 0, 0, 0), 0);
    ask(by_name(PIN, 4, 0, 1), 4);
    end();
}

/* As many pins of a page as a holder may have; another holder's are counted apart. */
static void count_full(void)
{
    size_t first = 0, last = 0;
    list_for("65,535 pins of a page, and 5 in both pools", 1, 2, 8);
    for (unsigned k = 0; k < MOST_COUNT; k++) last = pin(5, 3);
    expect("calls before the 5", pins[SMALLER].made, MOST_COUNT);
    ask(by_name(PIN, 5, 0, 3), 5);
    reads(6, pin(6, 3), 8 + 2, "dd");
    unpin(5, first);
    first = pin(5, 3);
    ask(by_name(PIN, 5, 0, 3), 5);
    ask(by_name(GIVE_BACK, 5, 0, 0), 0);
    expect("a pin given back is barred", is_barred(READ, 5, last), true);
    expect("open pins", pins[SMALLER].open, 1);
    unpin(5, pin(5, 3));
    end();
}

/* A till dies with pins on three pages, one of them twice; another till has a pin too. */
static void gives_back(void)
{
    size_t others, its;
    list_for("a till gives back everything", 3, 4, 8);
    its = pin(7, 0);
    pin(7, 0);
    pin(7, 1);
    writes(7, pin(7, 2), 700, "half a receipt", LOG, 0);
    others = pin(8, 0);
    ask(by_name(GIVE_BACK, 7, 0, 0), 0);
    expect("a pin given back is barred", is_barred(READ, 7, its), true);
    reads(8, others, 1000, "aaaa");
    ask(by_name(DROP, 0, 0, 0), 14);
    unpin(8, pin(8, 3));
    pin(8, 4);
    pin(8, 5);
    peeks(2, 700, "half a receiptc");
    ask(by_name(GIVE_BACK, 7, 0, 0), 0);
    ask(by_name(GIVE_BACK, HOLDERS, 0, 0), 19);
    ask(by_name(GIVE_BACK, 8, 0, 0), 0);
    expect("open pins", pins[SMALLER].open + pins[LARGER].open, 0);
    ask(by_name(DROP, 0, 0, 0), 0);
    end();
}

/* A page that the smaller pool wrote back and loaded again has its checksum there; in the larger it has what was written. */
static void bytes_8_9(void)
{
    uint8_t page[P];
    list_for("a page's bytes 8 and 9 differ, and are in no receipt", 1, 2, 8);
    size_t p = pin(0, 0);
    writes(0, p, 8, "xyz", LOG, 0);
    unpin(0, p);
    unpin(0, pin(0, 1));
    fill_page(page, 0, 'a');
    page[4] = LOG;
    memcpy(page + 8, "xyz", 3);
    ask(reading(0, pin(0, 0), 7, 4), 0);
    expect_bytes(0, "\0\0\0z", 4);
    expect("bytes 8 and 9 in the smaller pool", got[SMALLER].sum[0] + 256u * got[SMALLER].sum[1], page_sum(page, P, 0));
    expect("byte 8 in the larger pool", got[LARGER].sum[0], 'x');
    expect("byte 9 in the larger pool", got[LARGER].sum[1], 'y');
    peeks(0, 10, "zaaa");
    expect("byte 8 in the larger pool", got[LARGER].sum[0], 'x');
    expect("equal bytes 8 and 9", memcmp(got[SMALLER].sum, got[LARGER].sum, SUM_BYTES) == 0, false);
    end();
}

/* Each byte of a page that is shown is compared, but for 8 and 9, which are not shown. */
static void whole_pages(void)
{
    uint8_t page[P];
    list_for("every byte of a page peeked and read but 8 and 9", 1, 2, 8);
    fill_page(page, 2, 'c');
    memset(page + SUM_AT, 0, SUM_BYTES);
    size_t p = pin(3, 2);
    ask(by_name(PEEK, 0, 0, 2), 0);
    expect_page(page);
    ask(reading(3, p, 0, P), 0);
    expect_page(page);
    end();
}

/* Pages and files that are refused, and holders. */
static void refused_names(void)
{
    list_for("names, files and holders that both pools refuse", 2, 3, 8);
    ask(by_name(PIN, 0, 2, 0), 3);
    ask(by_name(PIN, 0, 0, 8), 4);
    ask(by_name(PIN, 0, 0, BAD), 17);
    ask(by_name(PIN, HOLDERS, 0, 0), 19);
    ask(by_name(PEEK, 0, 2, 0), 3);
    ask(by_name(PEEK, 0, 0, 9), 4);
    ask(by_name(PEEK, 0, 0, BAD), 17);
    ask(by_name(PEEK, 0, 0, ZEROS), 0);
    expect("zeros", is_zeros(got[SMALLER].bytes, P) && is_zeros(got[LARGER].bytes, P), true);
    extends(2, 3, 0);
    extends(0, 13, 0);
    extends(1, 0, 1);
    extends(1, 13, 0);
    ask(by_name(DROP, 0, 2, 0), 3);
    ask(by_name(DROP, 0, 1, 0), 0);
    extends(1, 0, 0);
    ask(by_name(PEEK, 0, 1, 0), 0);
    expect("zeros", is_zeros(got[SMALLER].bytes, P) && is_zeros(got[LARGER].bytes, P), true);
    end();
}

/* Ranges and log positions that are refused; what was refused has left the bytes and the log. */
static void refused_bytes(void)
{
    list_for("ranges and log positions that both pools refuse", 2, 3, 8);
    size_t p = pin(1, 0);
    writes(1, p, 7, "no", LOG, 9);
    writes(1, p, P - 1, "no", LOG, 9);
    writes(1, p, 8, "", LOG, 10);
    writes(1, p, 100, "no", LOG + 1, 11);
    writes(1, p, 100, "no", LOG / 2 - 1, 12);
    reads(1, p, 100, "aa");
    ask(reading(1, p, P - 3, 4), 9);
    expect_bytes(0, "????", 4);
    logs(LOG_INSERTED, LOG - 1, 15);
    logs(LOG_FLUSHED, LOG + 1, 16);
    logs(LOG_INSERTED, LOG + 1, 0);
    writes(1, p, 100, "yes", LOG + 1, 0);
    logs(LOG_FLUSHED, LOG + 1, 0);
    ask(on_pin(FLUSH, 1, p), 0);
    writes(1, p, 100, "no", LOG, 12);
    ask((struct asked){.call = CHECKPOINT}, 0);
    reads(1, p, 99, "ayesa");
    end();
}

/* Why a list names pins that are not yet given back: the smaller pool has another page at the number, the larger has not. */
static void names_given_back(enum call call, const char *name)
{
    list_for(name, 1, 2, 8);
    size_t p = pin(0, 0);
    unpin(0, p);
    pin(0, 1);
    expect("a pin given back is barred", is_barred(call, 0, p), true);
    ask_apart(on_pin(call, 0, p), 0, 8);
    end();
}

static void unpins_given_back(void)
{
    names_given_back(UNPIN, "an unpin of a pin given back, which no list may have: 0 and 8");
}

static void reads_given_back(void)
{
    names_given_back(READ, "a read of one: 0 and 8");
}

/* Why it names its own holder's: holder 1 gives back with holder 0's pin, and its own, which nothing holds any more, stays open. */
static void names_others_pin(void)
{
    list_for("an unpin of another holder's pin, which no list may have: later 0 and 8", 1, 2, 8);
    size_t others = pin(0, 0), own = pin(1, 0);
    expect("another holder's pin is barred", is_barred(UNPIN, 1, others), true);
    ask_apart(on_pin(UNPIN, 1, others), 0, 0);
    ask(by_name(GIVE_BACK, 0, 0, 0), 0);
    pin(1, 1);
    expect("its own pin is barred", is_barred(READ, 1, own), false);
    ask_apart(reading(1, own, 100, 4), 0, 8);
    expect("the other page in the smaller pool", memcmp(got[SMALLER].bytes, "bbbb", 4) == 0, true);
    expect("what was there before the call in the larger", memcmp(got[LARGER].bytes, "????", 4) == 0, true);
    end();
}

/* Why it ends with the smaller pool's 6: the pin of the larger one is open, and the smaller one has none. */
static void goes_on_after_six(void)
{
    list_for("a call on a pin that the smaller pool answered 6: 8 or another page, and 0", 1, 2, 8);
    size_t first = pin(0, 0), six = ask_apart(by_name(PIN, 0, 0, 1), 6, 0);
    expect("a refused pin is barred", is_barred(READ, 0, six), true);
    unpin(0, first);
    ask_apart(on_pin(READ, 0, six), 8, 0);
    end();
}

/* The last list takes long with the model. */
int main(int argc, char **argv)
{
    static void (*const cases[])(void) = {late_six, equal_pools, both_orders, count_full, gives_back, bytes_8_9, whole_pages,
                                          refused_names, refused_bytes, unpins_given_back, reads_given_back, names_others_pin,
                                          goes_on_after_six, great_pools};
    if (argc > 2 || (argc == 2 && !slip_set(argv[1]))) return fprintf(stderr, "usage: directed [SLIP]\n"), 2;
    pools_new();
    return run_cases(cases, sizeof cases / sizeof *cases - (planted != 0));
}
