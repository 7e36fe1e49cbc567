#include "shelf.h"
#include "sum.h"
#include <stdbool.h>
#include <stdlib.h>
#include <string.h>

#ifndef SHELF_SLIP
#define SHELF_SLIP 0
#endif

#define MOST_PLACES (MOST_SHELF / 1024)
#define MOST_NUMBERS 1024
#define NONE SIZE_MAX

/* the shelf: a page is the index of its block in the store, files in row order, each with its full capacity */
static size_t n, files, block_size, places;
static uint64_t inserted;
static uint32_t rows[64 * ROW_WORDS];
static uint8_t blocks[MOST_SHELF];
static uint16_t counts[MOST_PLACES][HOLDERS];
static size_t holding[MOST_NUMBERS];
static bool bad[MOST_PLACES]; /* the block came in bad, and its file was not dropped since */

/* beside it: the dirty pages, the pages put into the store, the page that a pin last got at each number, flushed, set up's cap, and the
   store after the call before */
static bool dirty[MOST_PLACES], was_put[MOST_PLACES];
static size_t last[MOST_NUMBERS];
static uint64_t flushed, cap;
static uint8_t store[MOST_SHELF];

static size_t place_of(size_t row, uint32_t block)
{
    size_t start = 0;
    for (size_t r = 0; r < row; r++) start += rows[ROW_WORDS * r + ROW_CAPACITY];
    return start + block;
}

/* whether some byte is not 0, and bytes 8 and 9 are not the checksum for the number, low byte first */
static bool is_bad(const uint8_t *page, uint32_t number)
{
    size_t k = 0;
    uint32_t sum = page_sum(page, block_size, number);
    while (k < block_size && page[k] == 0) k++;
    return k < block_size && (page[8] != sum % 256 || page[9] != sum / 256);
}

/* of the blocks below their files' counts */
static void note_bad(void)
{
    memset(bad, 0, sizeof bad);
    for (size_t r = 0; r < files; r++) {
        uint32_t below = rows[ROW_WORDS * r + (SHELF_SLIP == 6 ? ROW_CAPACITY : ROW_BLOCKS)];
        for (uint32_t b = 0; b < below; b++) bad[place_of(r, b)] = is_bad(store + place_of(r, b) * block_size, b);
    }
}

void shelf_begin(const struct memory *m, uint64_t page_size, uint64_t position, uint64_t given_cap)
{
    n = m->states_len;
    files = m->rows_len / ROW_WORDS;
    block_size = page_size;
    places = m->store_len / page_size;
    inserted = flushed = position;
    cap = SHELF_SLIP == 10 ? DEFAULT_CAP : given_cap;
    if (m->rows_len > 0) memcpy(rows, m->rows, m->rows_len * sizeof *rows);
    memcpy(blocks, m->store, m->store_len);
    memcpy(store, m->store, m->store_len);
    memset(counts, 0, places * sizeof *counts);
    memset(dirty, 0, sizeof dirty);
    memset(was_put, 0, sizeof was_put);
    for (size_t k = 0; k < MOST_NUMBERS; k++) holding[k] = last[k] = NONE;
    note_bad();
}

static size_t row_of(const uint32_t *name)
{
    for (size_t r = 0; r < files; r++)
        if (memcmp(rows + ROW_WORDS * r, name, FILE_WORDS * sizeof *rows) == 0) return r;
    return NONE;
}

static bool in_file(size_t place, size_t row)
{
    return place >= place_of(row, 0) && place < place_of(row, 0) + rows[ROW_WORDS * row + ROW_CAPACITY];
}

static uint8_t *bytes_of(size_t place)
{
    return blocks + place * block_size;
}

static uint64_t position_of(const uint8_t *page)
{
    uint64_t high = 0, low = 0;
    for (int k = 3; k >= 0; k--) {
        high = high << 8 | page[k];
        low = low << 8 | page[4 + k];
    }
    return high << 32 | low;
}

/* how many holders' counts of a page are not 0: while one is, the page has pins */
static size_t holders_of(size_t place)
{
    size_t many = 0;
    for (size_t h = 0; h < HOLDERS; h++) many += counts[place][h] != 0;
    return many;
}

static bool has_pins(size_t place)
{
    return holders_of(place) != 0;
}

static size_t pages_with_pins(void)
{
    size_t many = 0;
    for (size_t k = 0; k < places; k++) many += SHELF_SLIP == 17 ? holders_of(k) : has_pins(k);
    return many;
}

static uint32_t holder_refusal(const struct request *q)
{
    return q->holder >= 64 - (SHELF_SLIP == 21) ? 19 : 0;
}

/* whether this holder's count of a page is the greatest; slips go by the others' too */
static bool is_full(size_t place, uint64_t holder)
{
    uint32_t sum = 0, most = 0;
    for (size_t h = 0; h < HOLDERS; h++) {
        sum += counts[place][h];
        if (counts[place][h] > most) most = counts[place][h];
    }
    if (SHELF_SLIP == 11) return most == 65535;
    return (SHELF_SLIP == 22 ? sum : counts[place][holder]) == 65535 - (SHELF_SLIP == 20);
}

static uint32_t pin_refusal(const struct request *q)
{
    size_t r = row_of(q->name), place;
    if (r == NONE && SHELF_SLIP == 18) return 3;
    if (q->call == PIN && holder_refusal(q) != 0) return 19;
    if (r == NONE) return 3;
    if (q->name[NAME_BLOCK] >= rows[ROW_WORDS * r + ROW_BLOCKS]) return 4;
    place = place_of(r, q->name[NAME_BLOCK]);
    if (bad[place] && (SHELF_SLIP != 5 || q->call == PEEK)) return 17;
    if (q->call == PEEK) return 0;
    if (is_full(place, q->holder)) return 5;
    if (!has_pins(place) && pages_with_pins() == n - (SHELF_SLIP == 1 && n > 1)) return 6;
    return bad[place] ? 17 : 0;
}

static uint32_t write_refusal(const struct request *q, size_t place)
{
    if (q->from < 8) return 9;
    if (q->own_len == 0) return 10;
    if (q->position > inserted) return 11;
    return q->position < position_of(bytes_of(place)) ? 12 : 0;
}

static uint32_t number_refusal(const struct request *q)
{
    uint32_t holder = holder_refusal(q);
    if (holder != 0 && SHELF_SLIP != 19) return holder;
    if (q->buffer >= n) return 7;
    if (holding[q->buffer] == NONE) return 8;
    if (holder != 0) return holder;
    if (counts[holding[q->buffer]][q->holder] == 0 && SHELF_SLIP != 12) return 8;
    if (q->call == UNPIN || q->call == FLUSH) return 0;
    if (q->own_len > block_size || q->from > block_size - q->own_len) return 9;
    return q->call == READ ? 0 : write_refusal(q, holding[q->buffer]);
}

static uint32_t drop_refusal(size_t r)
{
    for (size_t k = 0; k < places; k++)
        if (in_file(k, r) && (SHELF_SLIP == 16 ? counts[k][0] != 0 : has_pins(k))) return 14;
    return 0;
}

static uint32_t file_refusal(const struct request *q)
{
    size_t r = row_of(q->name);
    if (r == NONE) return 3;
    if (q->call == EXTEND) return rows[ROW_WORDS * r + ROW_BLOCKS] == rows[ROW_WORDS * r + ROW_CAPACITY] ? 13 : 0;
    return drop_refusal(r);
}

static uint32_t refusal_of(const struct request *q)
{
    switch (q->call) {
    case PIN:
    case PEEK: return pin_refusal(q);
    case EXTEND:
    case DROP: return file_refusal(q);
    case LOG_INSERTED: return q->position < inserted ? 15 : 0;
    case LOG_FLUSHED: return q->position > inserted ? 16 : 0;
    case CHECKPOINT: return 0;
    case GIVE_BACK: return holder_refusal(q);
    default: return number_refusal(q);
    }
}

/* whether bytes are a page's from one of its bytes on, the page's bytes 8 and 9 left out */
static bool same(const uint8_t *bytes, const uint8_t *page, size_t from, size_t many)
{
    for (size_t k = 0; k < many; k++) {
        bool left_out = (from + k == 8 || from + k == 9) && SHELF_SLIP != 7;
        if (bytes[k] != page[from + k] && !left_out) return false;
    }
    return true;
}

/* whether the store has the shelf's bytes at a place, with their checksum unless the block is bad */
static bool kept(size_t row, uint32_t number, const uint8_t *now)
{
    size_t place = place_of(row, number);
    const uint8_t *block = now + place * block_size;
    return same(block, bytes_of(place), 0, block_size) && is_bad(block, number) == bad[place];
}

/* A block is put into the store. Gives whether it is the shelf's. */
static bool put(size_t place, const uint8_t *now)
{
    size_t r = 0;
    memcpy(store + place * block_size, now + place * block_size, block_size);
    was_put[place] = true;
    while (!in_file(place, r)) r++;
    return kept(r, (uint32_t)(place - place_of(r, 0)), now);
}

/* A page is written back: the position counted is the page's at that call. */
static bool written_back(size_t place, const uint8_t *now)
{
    uint64_t position = position_of(bytes_of(place));
    if (position > flushed && SHELF_SLIP != 2) flushed = position;
    dirty[place] = false;
    return put(place, now);
}

static const char *pinned(const struct request *q, const uint64_t *answer, const uint8_t *now)
{
    size_t place = place_of(row_of(q->name), q->name[NAME_BLOCK]), i = answer[0];
    if (i >= n) return "a pin's buffer number is below N";
    if (has_pins(place) && holding[i] != place) return "a pin of a page with pins answers the number already holding it";
    if (!has_pins(place) && holding[i] != NONE) return "a pin of a page without pins answers a number that holds none";
    if (answer[3] > ((SHELF_SLIP == 8 ? DEFAULT_CAP : cap) + (SHELF_SLIP != 9)) * n) return "at most cap + 1 probes per buffer";
    if (answer[1] == 1 && (answer[2] != 0 || answer[3] != 0)) return "a hit makes no probes and writes nothing";
    if (answer[2] == 1 && (last[i] == NONE || !dirty[last[i]])) return "a pin that answers wrote had a dirty page at the number";
    if (answer[2] == 1 && !written_back(last[i], now)) return "the page written back at a pin is the shelf's";
    counts[place][q->holder]++;
    holding[i] = last[i] = place;
    return NULL;
}

static void unpinned(size_t i, uint64_t holder)
{
    bool last = --counts[holding[i]][holder] == 0;
    if (SHELF_SLIP == 13 ? last : !has_pins(holding[i])) holding[i] = NONE;
}

static void given_back(uint64_t holder)
{
    if (SHELF_SLIP == 23) return;
    for (size_t k = 0; k < places; k++) {
        counts[k][holder] = 0;
        if (SHELF_SLIP == 15) memset(counts[k], 0, sizeof counts[k]);
    }
    for (size_t i = 0; i < n; i++)
        if (holding[i] != NONE && !has_pins(holding[i]) && SHELF_SLIP != 14) holding[i] = NONE;
}

static const char *written(const struct request *q)
{
    uint8_t *page = bytes_of(holding[q->buffer]);
    memcpy(page + q->from, q->own, q->own_len);
    for (int k = 0; k < 4; k++) {
        page[k] = (uint8_t)(q->position >> 32 >> 8 * k);
        page[4 + k] = (uint8_t)(q->position >> 8 * k);
    }
    dirty[holding[q->buffer]] = true;
    return NULL;
}

static const char *flushed_page(size_t place, const uint64_t *answer, const uint8_t *now)
{
    if (answer[0] != dirty[place]) return "a flush writes a dirty page";
    return dirty[place] && !written_back(place, now) ? "the page flushed is the shelf's" : NULL;
}

/* each block below its file's block count */
static const char *checkpointed(const uint64_t *answer, const uint8_t *now)
{
    uint64_t many = 0;
    for (size_t k = 0; k < places; k++) {
        if (!dirty[k]) continue;
        many++;
        written_back(k, now);
    }
    for (size_t r = 0; r < files; r++) {
        for (uint32_t b = 0; b < rows[ROW_WORDS * r + ROW_BLOCKS]; b++)
            if (!kept(r, b, now)) return "after a checkpoint the store is the shelf";
    }
    return answer[0] == many ? NULL : "a checkpoint answers how many pages were dirty";
}

static const char *extended(const struct request *q, const uint64_t *answer, const uint8_t *now)
{
    uint32_t *row = rows + ROW_WORDS * row_of(q->name);
    size_t place = place_of(row_of(q->name), row[ROW_BLOCKS]);
    if (answer[0] != row[ROW_BLOCKS]) return "an extend answers the shelf's block number";
    memset(bytes_of(place), 0, block_size);
    if (!put(place, now) || !is_zeros(now + place * block_size, block_size)) return "an extend's new block is zeros";
    row[ROW_BLOCKS]++;
    return NULL;
}

static const char *dropped(size_t r)
{
    rows[ROW_WORDS * r + ROW_BLOCKS] = 0;
    for (size_t k = 0; k < places; k++) {
        if (!in_file(k, r)) continue;
        dirty[k] = SHELF_SLIP == 3 && dirty[k];
        bad[k] = SHELF_SLIP == 4 && bad[k];
    }
    return NULL;
}

static const char *peeked(const struct request *q, const struct memory *after)
{
    const uint64_t *answer = after->answer;
    size_t length = answer[0] == 1 ? after->pool_len : after->store_len;
    const uint8_t *slice = answer[0] == 1 ? after->pool : after->store;
    if (answer[1] > length || length - answer[1] < block_size) return "a peek hands back a part of pool or store";
    const uint8_t *page = bytes_of(place_of(row_of(q->name), q->name[NAME_BLOCK]));
    return same(slice + answer[1], page, 0, block_size) ? NULL : "a peek hands back the shelf's bytes";
}

static const char *accepted(const struct request *q, const uint8_t *own, const struct memory *after)
{
    switch (q->call) {
    case PIN: return pinned(q, after->answer, after->store);
    case PEEK: return peeked(q, after);
    case UNPIN: return unpinned(q->buffer, q->holder), NULL;
    case GIVE_BACK: return given_back(q->holder), NULL;
    case READ: return same(own, bytes_of(holding[q->buffer]), q->from, q->own_len) ? NULL : "a read fills in the shelf's bytes";
    case WRITE: return written(q);
    case FLUSH: return flushed_page(holding[q->buffer], after->answer, after->store);
    case CHECKPOINT: return checkpointed(after->answer, after->store);
    case EXTEND: return extended(q, after->answer, after->store);
    case DROP: return dropped(row_of(q->name));
    case LOG_INSERTED: return inserted = q->position, NULL;
    default: return flushed = q->position > flushed ? q->position : flushed, NULL;
    }
}

/* whether every block put into the store by now is at or below flushed */
static bool in_log_order(uint64_t flushed_now)
{
    for (size_t k = 0; k < places; k++)
        if (was_put[k] && position_of(store + k * block_size) > flushed_now) return false;
    return true;
}

const char *shelf_follow(const struct request *q, const uint8_t *own, uint32_t result, const struct memory *after)
{
    static const uint64_t zeros[ANSWER_WORDS];
    const char *wrong = NULL;
    if (result != refusal_of(q)) return "the refusal number is the shelf's";
    if (result != 0 && memcmp(after->answer, zeros, sizeof zeros) != 0) return "a refusal has zeros for an answer";
    if (result == 0) wrong = accepted(q, own, after);
    if (wrong != NULL) return wrong;
    if (memcmp(rows, after->rows, ROW_BYTES * files) != 0) return "all rows are the shelf's";
    if (inserted != after->control[CONTROL_INSERTED]) return "inserted is the shelf's";
    if (flushed != after->control[CONTROL_FLUSHED])
        return "flushed is the largest position of set up, log flushed and the pages written back";
    if (cap != after->control[CONTROL_CAP]) return "the cap is set up's";
    if (memcmp(store, after->store, places * block_size) != 0) return "no other block of the store has changed";
    if (!in_log_order(after->control[CONTROL_FLUSHED])) return "every block put into the store is at or below flushed";
    return NULL;
}
