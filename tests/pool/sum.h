/* The checksum of a page by PostgreSQL's checksum_impl.h, written for clarity. SUM_SLIP changes one rule, so that it is seen that the
   comparison and the cases notice it. */
#ifndef SUM_H
#define SUM_H

#include <stdbool.h>
#include <stddef.h>
#include <stdint.h>

/* Where a page in the store has it, low byte first. */
enum { SUM_AT = 8, SUM_BYTES = 2 };

/* Of a page that is so many bytes long, the block of this number in its file. */
uint32_t page_sum(const uint8_t *page, size_t size, uint32_t block);

uint32_t sum_in(const uint8_t *page);
void put_sum(uint8_t *page, uint32_t sum);

bool is_zeros(const uint8_t *bytes, size_t many);

#endif
