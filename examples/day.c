#include "day.h"

#include <stdlib.h>
#include <string.h>

#include "sale.h"
#include "trail.h"

enum { LET_GO_EVERY = 1024 }; /* pages read in a row before their part of the mapping is let go */

static const uint32_t rates[] = {0, 20};

/* All the day's places for lines, page by page; some at the end are empty. */
struct day {
    struct line *lines;
    size_t count;
};

static struct day new_day(const struct shop *shop)
{
    struct day day;
    day.count = (size_t)(receipts_blocks(shop) - shop->card->day_block) * shop->page_lines;
    day.lines = calloc(day.count + 1, sizeof *day.lines);
    if (day.lines == NULL) stop("no memory");
    return day;
}

static int all_zeros(const void *bytes, size_t length)
{
    const uint8_t *b = bytes;
    return b[0] == 0 && memcmp(b, b + 1, length - 1) == 0;
}

/* What stands before a page's lines. No page on the card may be further than the log on it. A page that was never written is zeros to
   its end; any other has the header that came with its first line, but for the checksum, which comes with each write-back. */
static void check_top(const struct shop *shop, uint32_t block, const uint8_t top[LINE_BYTES], const struct line *lines)
{
    const size_t sum = BUFPOOL_CHECKSUM_BYTES;
    uint8_t rest[BUFPOOL_HEADER_REST];
    if (bufpool_page_position(top) > shop->card->position) stop("page %u is further than the card's log", block);
    if (all_zeros(top, LINE_BYTES) && all_zeros(lines, shop->page_lines * sizeof *lines)) return;
    sale_page_header(shop, rest);
    if (memcmp(top + BUFPOOL_POSITION_BYTES + sum, rest + sum, sizeof rest - sum) != 0) {
        stop("page %u has no page header that a till writes", block);
    }
}

static void read_page(struct shop *shop, const char *who, uint32_t block, struct line *lines, struct bufpool_pinned *pinned)
{
    uint8_t top[LINE_BYTES];
    const struct bufpool_holder reader = bufpool_holder_of(READER);
    const uint64_t length = shop->page_lines * sizeof *lines;
    char call[32];
    snprintf(call, sizeof call, "pin of page %u", block);
    must(shop, call, shop_pin(shop, reader, who, bufpool_name_of(receipts_file, block), pinned));
    must(shop, "read", bufpool_read_buffer(&shop->pool, reader, pinned->buffer, 0, top, sizeof top));
    must(shop, "read", bufpool_read_buffer(&shop->pool, reader, pinned->buffer, LINE_BYTES, (uint8_t *)lines, length));
    check_top(shop, block, top, lines);
    must(shop, "unpin", bufpool_unpin_buffer(&shop->pool, reader, pinned->buffer));
    trail_note(shop, "%s gives page %u back", who, block);
}

/* What was sold at a rate, in pence, tax included. */
static uint32_t takings(const struct day *day, uint32_t rate)
{
    uint32_t sum = 0;
    size_t k;
    for (k = 0; k < day->count; k++) {
        if (day->lines[k].kind == LINE_SOLD && day->lines[k].rate == rate) sum += day->lines[k].pence;
    }
    return sum;
}

/* The tax that is within an amount, to the nearest penny: once for the day, so that no roundings add up. */
static uint32_t tax_within(uint32_t pence, uint32_t rate)
{
    return (uint32_t)(((uint64_t)2 * pence * rate + 100 + rate) / (2 * (100 + rate)));
}

static int same_line(const struct line *a, const struct line *b)
{
    return memcmp(a, b, sizeof *a) == 0;
}

/* A receipt's lines in the order pressed; equal lines that follow each other are counted together. */
static void print_receipt(const struct day *day, uint32_t receipt)
{
    const struct line *former = NULL;
    uint32_t count = 0, sum = 0;
    size_t k;
    for (k = 0; k <= day->count; k++) { /* the place behind the last is empty, and ends the count of the last lines */
        const struct line *line = &day->lines[k];
        if (k < day->count && line->receipt != receipt) continue;
        if (former != NULL && !same_line(former, line)) {
            printf("  %2u x %-22.39s" MONEY "  %2u %%%s\n", count, former->item, POUNDS(count * former->pence), former->rate,
                   former->kind == LINE_VOID ? "  void" : "");
            count = 0;
        } else if (former == NULL) {
            printf("receipt %u, till %u\n", receipt, line->till);
        }
        if (line->kind == LINE_SOLD) sum += line->pence;
        former = line;
        count++;
    }
    printf("       %-22s" MONEY "\n", "total", POUNDS(sum));
}

static void print_tax(const struct day *day)
{
    uint32_t all = 0, tax = 0;
    size_t k;
    printf("the day by rate      takings   tax in it\n");
    for (k = 0; k < sizeof rates / sizeof *rates; k++) {
        uint32_t sold = takings(day, rates[k]);
        printf("  %2u %%                " MONEY "      " MONEY "\n", rates[k], POUNDS(sold), POUNDS(tax_within(sold, rates[k])));
        all += sold;
        tax += tax_within(sold, rates[k]);
    }
    printf("  all                 " MONEY "      " MONEY "\n", POUNDS(all), POUNDS(tax));
}

static int is_a_tills(const struct line *line, const struct day *day)
{
    return line->kind <= LINE_VOID && (line->kind == LINE_NONE) == (line->receipt == 0) && line->receipt <= day->count
        && (line->rate == rates[0] || line->rate == rates[1]);
}

/* The number of the last receipt. Stops at a line that no till has written. */
static uint32_t last_receipt(const struct day *day)
{
    uint32_t last = 0;
    size_t k;
    for (k = 0; k < day->count; k++) {
        if (!is_a_tills(&day->lines[k], day)) stop("line %zu of the day is not a till's", k);
        if (day->lines[k].receipt > last) last = day->lines[k].receipt;
    }
    return last;
}

void day_read_back(struct shop *shop)
{
    struct bufpool_pinned pinned;
    struct day day = new_day(shop);
    uint32_t block, receipt, receipts, page = 0;
    for (block = shop->card->day_block; block < receipts_blocks(shop); block++, page++) {
        read_page(shop, "reading", block, day.lines + page * shop->page_lines, &pinned);
    }
    receipts = last_receipt(&day);
    for (receipt = 1; receipt <= receipts; receipt++) print_receipt(&day, receipt);
    print_tax(&day);
    free(day.lines);
}

void day_peek(const struct shop *shop)
{
    struct bufpool_part part;
    struct day day = new_day(shop);
    uint32_t block, in_pool = 0, page = 0;
    for (block = shop->card->day_block; block < receipts_blocks(shop); block++, page++) {
        must(shop, "peek", bufpool_peek_page(&shop->pool, bufpool_name_of(receipts_file, block), &part));
        in_pool += (uint32_t)part.in_pool;
        memcpy(day.lines + page * shop->page_lines, part.bytes + LINE_BYTES, shop->page_lines * sizeof *day.lines);
    }
    printf("head office peeks: %u pages in the pool, %u on the card; takings" MONEY " at 0 %%," MONEY " at 20 %%\n",
           in_pool, page - in_pool, POUNDS(takings(&day, 0)), POUNDS(takings(&day, 20)));
    free(day.lines);
}

void day_look_back(struct shop *shop, uint32_t pages)
{
    struct bufpool_pinned pinned;
    uint32_t old = shop->card->day_block, k, loaded = 0;
    struct line *lines = calloc(shop->page_lines, sizeof *lines);
    if (lines == NULL) stop("no memory");
    if (pages > old) pages = old;
    for (k = 0; k < pages; k++) {
        read_page(shop, "look back", (uint32_t)((uint64_t)k * old / pages), lines, &pinned);
        loaded += !pinned.hit;
        if ((k + 1) % LET_GO_EVERY == 0) card_let_go(shop);
    }
    if (pages > 0) printf("look back: %u pages of %u read, %u of them loaded\n", pages, old, loaded);
    free(lines);
}
