/* What PostgreSQL's own headers say, as plain numbers. Only published.c includes those headers. */
#ifndef PUBLISHED_H
#define PUBLISHED_H

#include "../layout.h"
#include <stddef.h>
#include <stdint.h>

/* The header that begins each of PostgreSQL's pages. */
#define PAGE_HEADER_BYTES 24

/* The sizes that PostgreSQL can be compiled for: X is applied to each. sum.c is compiled once for each. */
#define PUBLISHED_SIZES(X) X(1024) X(2048) X(4096) X(8192) X(16384) X(32768)

enum flag { FLAG_DIRTY, FLAG_VALID, FLAG_TAG_VALID, FLAG_JUST_DIRTIED, FLAG_PERMANENT, FLAGS };

/* A BufferTag of a name's numbers: its bytes, and how many they are. */
size_t published_tag(const uint32_t name[NAME_WORDS], uint8_t *out);

/* The numbers of PostgreSQL's forks: 0 table, 1 free space map, 2 visibility map. */
uint32_t published_fork(int which);

/* Of a state word: a flag, the pin count, the usage count, and its greatest value. */
uint32_t published_flag(enum flag flag);
uint32_t published_pins(uint32_t word);
uint32_t published_usage(uint32_t word);
uint32_t published_most_usage(void);
uint32_t published_most_pins(void);

/* The state word of a page with these counts, put together of PostgreSQL's constants. */
uint32_t published_word(uint32_t pins, uint32_t usage, int dirty);

/* The log position of a page, from its first bytes: by PageGetLSN, and by PageXLogRecPtrGet. */
uint64_t published_position(const uint8_t *page);
uint64_t published_pointer(const uint8_t *page);

/* The checksum of a page of so many bytes as a block of its file, by checksum_impl.h for blocks of that size; the page itself stays as it
   is. And the one that stands in a page. */
uint16_t published_sum(const uint8_t *page, size_t length, uint32_t block);
uint16_t published_sum_in(const uint8_t *page);

/* The header of a page of 8,192 bytes with these places, its log position left 0. */
void published_header(uint16_t lower, uint16_t upper, uint16_t special, uint8_t out[PAGE_HEADER_BYTES]);

#endif
