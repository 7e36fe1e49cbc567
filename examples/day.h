/* Reading the day's receipts. */
#ifndef DAY_H
#define DAY_H

#include "shop.h"

/* Through the pool: pins each page of the day, reads its lines, and prints the receipts and the day's tax by rate. */
void day_read_back(struct shop *shop);

/* Without pins, while tills are at work: where head office finds each page, and the takings so far. */
void day_peek(const struct shop *shop);

/* So many pages of older days, spread evenly, each pinned, read and given back. */
void day_look_back(struct shop *shop, uint32_t pages);

#endif
