/* Receipts as lines on pages. Every till's lines go to the last page of the receipts, so that all tills share it. */
#ifndef SALE_H
#define SALE_H

#include "shop.h"

enum { LINE_BYTES = 64, HELD_PAGES = 8 };

enum line_kind { LINE_NONE = 0, LINE_SOLD = 1, LINE_VOID = 2 };

/* A line as it is on a page, little-endian. Line k begins at byte 64 * (k + 1). The first 64 bytes are PostgreSQL's page header of 24, so
   that its tools take the page, and 40 that stay 0: the log position, which the pool writes; then the 16 that sale_page_header makes, of
   which the first two are the checksum, which the pool puts into the store's block at each write-back.
   A block of zeros has no lines; PostgreSQL takes it for a new page. */
struct line {
    uint32_t kind, till, receipt;
    uint32_t rate;  /* of tax, in percent */
    uint32_t pence; /* with tax */
    uint32_t blank;
    char item[40];
};
_Static_assert(sizeof(struct line) == LINE_BYTES, "a line has 64 bytes");

/* A page on which the till's open receipt has lines: pinned until it is paid, for a void must find its line. */
struct held {
    uint32_t block;
    struct bufpool_buffer buffer;
};

struct till {
    uint32_t number, receipt; /* receipt: 0 if none is open */
    uint32_t pence;           /* the sum of the receipt that is open, or was open last */
    struct held held[HELD_PAGES];
    uint32_t held_pages;
    struct line last;         /* the line pressed last, and its place */
    uint64_t last_from;
    size_t step;              /* where the till is in its morning */
    uint32_t pressed;         /* lines of this step that are on a page */
};

struct product {
    const char *name;
    uint32_t pence, rate;
};

#define MONEY "%3u.%02u"
#define POUNDS(pence) (pence) / 100, (pence) % 100

/* The page header behind the log position: no item pointers, so lower is the header's end; the lines stand from upper to special. It is
   written with a page's first line, and at that line's log position. */
void sale_page_header(const struct shop *shop, uint8_t rest[BUFPOOL_HEADER_REST]);

/* One line more on the receipt. Results in 0, or in 6 if no buffer can be had now: then the till asks again later. */
uint32_t sale_press(struct shop *shop, struct till *till, const struct product *product);

/* The line pressed last no longer counts. It stays on its page. */
void sale_void(struct shop *shop, struct till *till);

/* The receipt is closed and its pages are given back. A payment by bank card waits until they are on the shop's card. */
void sale_pay(struct shop *shop, struct till *till, int by_card);

/* A receipt for the class, in a file that is dropped: no trace of it is in the day. The class's till dies in the midst of it. Its pin keeps
   the page, and the drop is refused with 14, until another till gives back everything that it has. */
void sale_practice(struct shop *shop, const struct product *product);

#endif
