#include "sale.h"

#include <string.h>

#include "trail.h"

static void say_pinned(const struct till *till, uint32_t block, const struct bufpool_pinned *pinned)
{
    printf("till %u              page %u: ", till->number, block);
    if (pinned->hit) {
        printf("in buffer %llu already\n", (unsigned long long)pinned->buffer.number);
        return;
    }
    printf("loaded into buffer %llu", (unsigned long long)pinned->buffer.number);
    if (pinned->probes > 0) printf(" after %llu probes", (unsigned long long)pinned->probes);
    printf("%s\n", pinned->wrote ? "; the page that was there is written back" : "");
}

static struct bufpool_holder holder_of(const struct till *till)
{
    return bufpool_holder_of(till->number);
}

/* The buffer of a page, pinned for this till's open receipt. */
static uint32_t hold(struct shop *shop, struct till *till, uint32_t block, struct bufpool_buffer *buffer)
{
    struct bufpool_pinned pinned;
    char who[16];
    uint32_t refusal, k;
    for (k = 0; k < till->held_pages; k++) {
        if (till->held[k].block == block) {
            *buffer = till->held[k].buffer;
            return BUFPOOL_DONE;
        }
    }
    if (k == HELD_PAGES) stop("till %u: a receipt on more than %d pages", till->number, HELD_PAGES);
    snprintf(who, sizeof who, "till %u", till->number);
    refusal = shop_pin(shop, holder_of(till), who, bufpool_name_of(receipts_file, block), &pinned);
    if (refusal == BUFPOOL_ALL_PINNED) return refusal;
    must(shop, "pin", refusal);
    say_pinned(till, block, &pinned);
    *buffer = pinned.buffer;
    till->held[till->held_pages].block = block;
    till->held[till->held_pages++].buffer = pinned.buffer;
    return BUFPOOL_DONE;
}

/* The log first: it is a line longer, and the page that changes gets the position of its new end. */
static uint64_t log_line(struct shop *shop)
{
    uint64_t position = bufpool_inserted(&shop->pool) + 1;
    must(shop, "log inserted", bufpool_log_inserted_to(&shop->pool, position));
    return position;
}

/* Where a till writes: a buffer that it has pinned, in its own name. */
struct place {
    struct bufpool_holder holder;
    struct bufpool_buffer buffer;
};

static void write_bytes(struct shop *shop, struct place at, uint64_t from, const void *bytes, size_t length, uint64_t position)
{
    must(shop, "write", bufpool_write_buffer(&shop->pool, at.holder, at.buffer, from, (const uint8_t *)bytes, length, position));
}

void sale_page_header(const struct shop *shop, uint8_t rest[BUFPOOL_HEADER_REST])
{
    uint64_t page = bufpool_page_size(&shop->pool);
    bufpool_page_header(rest, page, BUFPOOL_HEADER_BYTES, LINE_BYTES, page);
}

/* Line and header are one record of the log, and so one position. The page is pinned: neither comes to the card without the other. */
static void write_first_line(struct shop *shop, struct place at, const struct line *line, uint64_t position)
{
    uint8_t rest[BUFPOOL_HEADER_REST];
    sale_page_header(shop, rest);
    write_bytes(shop, at, BUFPOOL_POSITION_BYTES, rest, sizeof rest, position);
    write_bytes(shop, at, LINE_BYTES, line, sizeof *line, position);
}

static struct line line_of(uint32_t till, uint32_t receipt, const struct product *product)
{
    struct line line;
    memset(&line, 0, sizeof line);
    line.kind = LINE_SOLD;
    line.till = till;
    line.receipt = receipt;
    line.rate = product->rate;
    line.pence = product->pence;
    snprintf(line.item, sizeof line.item, "%s", product->name);
    return line;
}

static void new_page(struct shop *shop)
{
    uint32_t block;
    must(shop, "extend", bufpool_extend_file(&shop->pool, receipts_file, &block));
    trail_note(shop, "the receipts get page %u", block);
    shop->last_lines = 0;
}

uint32_t sale_press(struct shop *shop, struct till *till, const struct product *product)
{
    struct place at = {holder_of(till), {BUFPOOL_BUFFER_NONE}};
    uint64_t position;
    uint32_t refusal;
    if (shop->last_lines == shop->page_lines) new_page(shop);
    refusal = hold(shop, till, receipts_blocks(shop) - 1, &at.buffer);
    if (refusal != BUFPOOL_DONE) return refusal;
    if (till->receipt == 0) {
        till->receipt = ++shop->receipts;
        till->pence = 0;
    }
    till->last = line_of(till->number, till->receipt, product);
    till->last_from = (uint64_t)LINE_BYTES * ++shop->last_lines;
    till->pence += product->pence;
    position = log_line(shop);
    if (shop->last_lines == 1) {
        write_first_line(shop, at, &till->last, position);
    } else {
        write_bytes(shop, at, till->last_from, &till->last, sizeof till->last, position);
    }
    trail_note(shop, "till %u writes a line on page %u", till->number, receipts_blocks(shop) - 1);
    return BUFPOOL_DONE;
}

void sale_void(struct shop *shop, struct till *till)
{
    const struct held *held;
    struct place at;
    if (till->held_pages == 0 || till->last.kind != LINE_SOLD) stop("till %u: there is no line to void", till->number);
    held = &till->held[till->held_pages - 1]; /* the line is on the page that the till pinned last */
    till->last.kind = LINE_VOID;
    till->pence -= till->last.pence;
    at.holder = holder_of(till);
    at.buffer = held->buffer;
    write_bytes(shop, at, till->last_from, &till->last, sizeof till->last, log_line(shop));
    trail_note(shop, "till %u voids a line on page %u", till->number, held->block);
}

void sale_pay(struct shop *shop, struct till *till, int by_card)
{
    uint64_t written;
    uint32_t k;
    if (by_card) shop_force_log(shop);
    for (k = 0; k < till->held_pages; k++) {
        const struct held *held = &till->held[k];
        if (by_card) {
            must(shop, "flush", bufpool_flush_buffer(&shop->pool, holder_of(till), held->buffer, &written));
            trail_note(shop, "till %u flushes page %u", till->number, held->block);
        }
        must(shop, "unpin", bufpool_unpin_buffer(&shop->pool, holder_of(till), held->buffer));
        trail_note(shop, "till %u gives page %u back", till->number, held->block);
    }
    if (by_card) card_settle(shop);
    till->held_pages = 0;
    till->receipt = 0;
}

/* Pins a new page of practice and writes a line to it. There it ends: nothing is unpinned. */
static void begin_practice(struct shop *shop, const struct product *product)
{
    struct place at = {bufpool_holder_of(CLASS_TILL), {BUFPOOL_BUFFER_NONE}};
    struct line line = line_of(CLASS_TILL, 0, product);
    struct bufpool_pinned pinned;
    char who[16];
    uint32_t block;
    must(shop, "extend", bufpool_extend_file(&shop->pool, practice_file, &block));
    trail_note(shop, "practice gets page %u", block);
    snprintf(who, sizeof who, "till %u", CLASS_TILL);
    must(shop, "pin", shop_pin(shop, at.holder, who, bufpool_name_of(practice_file, block), &pinned));
    at.buffer = pinned.buffer;
    write_first_line(shop, at, &line, log_line(shop));
    trail_note(shop, "till %u writes a line on page %u of practice", CLASS_TILL, block);
    printf("practice: till %u dies in the midst of a receipt for the class\n", CLASS_TILL);
}

void sale_practice(struct shop *shop, const struct product *product)
{
    uint32_t refusal;
    begin_practice(shop, product);
    refusal = bufpool_drop_file(&shop->pool, practice_file);
    trail_call(shop, "till 1 drops practice", refusal);
    if (refusal != BUFPOOL_FILE_PINNED) stop("the page of a till that died is not kept: the drop gives %u", refusal);
    printf("practice: till 1 drops it: refused, %u: %s\n", refusal, bufpool_refusal_words(refusal));
    must(shop, "give back", bufpool_give_back_pins(&shop->pool, bufpool_holder_of(CLASS_TILL)));
    trail_note(shop, "till 1 gives back what till %u had", CLASS_TILL);
    must(shop, "drop", bufpool_drop_file(&shop->pool, practice_file));
    trail_note(shop, "practice is dropped");
    printf("practice: till 1 gives back what till %u had, and drops it\n", CLASS_TILL);
}
