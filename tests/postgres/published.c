/* PostgreSQL's own layouts: its structs filled, its macros applied. SLIP plants an error that the comparison has to notice. */
#include "postgres.h"

#include "storage/buf_internals.h"
#include "storage/bufpage.h"

#include "published.h"

#ifndef SLIP
#define SLIP 0
#endif

size_t published_tag(const uint32_t name[NAME_WORDS], uint8_t *out)
{
    BufferTag tag;
    ForkNumber fork = (ForkNumber)name[SLIP == 1 ? NAME_BLOCK : FILE_FORK];
    BlockNumber block = name[SLIP == 1 ? FILE_FORK : NAME_BLOCK];
    Oid space = name[SLIP == 2 ? FILE_DATABASE : FILE_TABLESPACE], database = name[SLIP == 2 ? FILE_TABLESPACE : FILE_DATABASE];
#if PG_VERSION_NUM >= 160000
    RelFileLocator file = {.spcOid = space, .dbOid = database, .relNumber = name[FILE_RELATION]};
    InitBufferTag(&tag, &file, fork, block);
#else
    RelFileNode file = {.spcNode = space, .dbNode = database, .relNode = name[FILE_RELATION]};
    INIT_BUFFERTAG(tag, file, fork, block);
#endif
    memcpy(out, &tag, sizeof tag);
    return sizeof tag;
}

uint32_t published_fork(int which)
{
    static const ForkNumber forks[3] = {MAIN_FORKNUM, SLIP == 3 ? VISIBILITYMAP_FORKNUM : FSM_FORKNUM, VISIBILITYMAP_FORKNUM};
    return (uint32_t)forks[which];
}

uint32_t published_flag(enum flag flag)
{
    static const uint32_t flags[FLAGS] = {BM_DIRTY, BM_VALID, BM_TAG_VALID, BM_JUST_DIRTIED, BM_PERMANENT};
    return SLIP == 4 + (int)flag ? flags[flag] >> 1 : flags[flag];
}

uint32_t published_pins(uint32_t word) { return BUF_STATE_GET_REFCOUNT(word) & (SLIP == 9 ? BUF_REFCOUNT_MASK >> 1 : UINT32_MAX); }

uint32_t published_usage(uint32_t word) { return SLIP == 10 ? word >> BUF_USAGECOUNT_SHIFT : BUF_STATE_GET_USAGECOUNT(word); }

uint32_t published_most_usage(void) { return BM_MAX_USAGE_COUNT + (SLIP == 11); }

uint32_t published_most_pins(void) { return BUF_REFCOUNT_MASK / BUF_REFCOUNT_ONE - (SLIP == 12); }

uint32_t published_word(uint32_t pins, uint32_t usage, int dirty)
{
    uint32_t word = pins * BUF_REFCOUNT_ONE + (SLIP == 24 ? usage % 8 : usage) * BUF_USAGECOUNT_ONE * (SLIP == 13 ? 2 : 1);
    word |= BM_VALID | BM_TAG_VALID | BM_PERMANENT;
    if (dirty) word |= BM_DIRTY | (SLIP == 14 ? 0 : BM_JUST_DIRTIED);
    return word;
}

uint64_t published_position(const uint8_t *page)
{
    PageHeaderData header;
    uint64_t number;
    memcpy(&header, page, SizeOfPageHeaderData);
    memcpy(&number, page, sizeof number);
    return SLIP == 15 ? number : PageGetLSN((Page)&header);
}

uint64_t published_pointer(const uint8_t *page)
{
    PageXLogRecPtr pointer;
    memcpy(&pointer, page, sizeof pointer);
    return PageXLogRecPtrGet(pointer) + (SLIP == 16);
}

#define DECLARED(size) extern uint16 published_sum_##size(char *page, BlockNumber block);
PUBLISHED_SIZES(DECLARED)

uint16_t published_sum(const uint8_t *page, size_t length, uint32_t block)
{
    static _Alignas(8) char copy[32768]; /* PostgreSQL's takes the checksum out of the page for a moment */
    uint16_t sum = 0;
    if (SLIP == 20) block ^= 1;
    memcpy(copy, page, length);
    switch (length) {
#define CASE(size) case size: sum = published_sum_##size(copy, block); break;
        PUBLISHED_SIZES(CASE)
    }
    return SLIP == 21 ? (uint16_t)(sum >> 8 | sum << 8) : sum;
}

uint16_t published_sum_in(const uint8_t *page)
{
    PageHeaderData header;
    memcpy(&header, page, SizeOfPageHeaderData);
    return SLIP == 22 ? header.pd_flags : SLIP == 23 ? (uint16_t)(header.pd_checksum >> 8 | header.pd_checksum << 8) : header.pd_checksum;
}

void published_header(uint16_t lower, uint16_t upper, uint16_t special, uint8_t out[PAGE_HEADER_BYTES])
{
    PageHeaderData header;
    StaticAssertStmt(SizeOfPageHeaderData == PAGE_HEADER_BYTES, "published.h has the header's size");
    memset(&header, 0, sizeof header);
    header.pd_lower = SLIP == 17 ? upper : lower;
    header.pd_upper = SLIP == 17 ? lower : upper;
    header.pd_special = special;
    header.pd_flags = SLIP == 18 ? PD_ALL_VISIBLE : 0;
    PageSetPageSizeAndVersion((Page)&header, BLCKSZ, PG_PAGE_LAYOUT_VERSION + (SLIP == 19));
    memcpy(out, &header, SizeOfPageHeaderData);
}
