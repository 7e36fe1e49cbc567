/* Document 01's places 1 and 2, rule by rule, written from the document and without regard for speed.
   SLIP leaves out or changes one rule, so that it is seen that the comparison notices it. */
#include "memory.h"
#include <stdbool.h>
#include <string.h>

#ifndef SLIP
#define SLIP 0
#endif

check_fn judge;

/* what is judged: the arguments of one call */
static struct memory m;
static size_t n, files, bucket_of[1024];

static bool same(const uint32_t *a, const uint32_t *b, size_t words)
{
    return memcmp(a, b, words * sizeof *a) == 0;
}

static uint64_t capacities(void)
{
    uint64_t sum = 0;
    for (size_t r = 0; r < files; r++) sum += m.rows[ROW_WORDS * r + ROW_CAPACITY];
    return sum;
}

static bool rows_hold(void)
{
    if ((m.rows_len % ROW_WORDS != 0 && SLIP != 27) || files > (SLIP == 1 ? 63 : 64)) return false;
    if (capacities() > (SLIP == 2 ? 65537 : 65536)) return false;
    for (size_t r = 0; r < files; r++) {
        const uint32_t *row = m.rows + ROW_WORDS * r;
        if (row[FILE_FORK] > (SLIP == 3 ? 3 : 2) || row[ROW_BLOCKS] > row[ROW_CAPACITY] + (SLIP == 4)) return false;
        for (size_t s = 0; s < r; s++)
            if (SLIP != 5 && same(row, m.rows + ROW_WORDS * s, FILE_WORDS)) return false;
    }
    return true;
}

/* slips 54 and 55 permit one too many or too few, the last of which is then taken for 0 */
static bool counts_fit(void)
{
    size_t many = HOLDERS * n;
    return m.counts_len == many || (SLIP == 54 && m.counts_len == many + 1) || (SLIP == 55 && m.counts_len + 1 == many);
}

static bool sizes_hold(void)
{
    bool record = m.control_len == CONTROL_WORDS || (m.control_len == CONTROL_WORDS + 1 && SLIP == 28) ||
                  (m.control_len == CONTROL_WORDS - 1 && SLIP == 46);
    uint64_t p = record ? m.control[CONTROL_SIZE] : 0;
    bool permitted = p == 1024 || p == 2048 || p == 4096 || p == 8192 || p == 16384 || (p == 32768 && SLIP != 6) ||
                     (p == 512 && SLIP == 21) || (p == 65536 && SLIP == 22);
    bool buckets = (n <= m.heads_len || (m.heads_len > 0 && SLIP == 25)) && m.heads_len <= (SLIP == 26 ? 4097 : 4096);
    return (m.answer_len == ANSWER_WORDS || SLIP == 23) && permitted && (n >= 1 || SLIP == 24) && n <= 1024 && buckets &&
           m.names_len == NAME_WORDS * n && m.pool_len == n * p && m.free_len == n && m.chain_len == n && rows_hold() &&
           (m.store_len == capacities() * p || SLIP == 7) && counts_fit();
}

/* with slip 46 a record without the word is taken for one of the bench's cap */
static uint64_t cap(void)
{
    if (m.control_len < CONTROL_WORDS) return DEFAULT_CAP;
    uint64_t word = m.control[SLIP == 43 ? CONTROL_FLUSHED : CONTROL_CAP];
    return SLIP == 41 ? (uint32_t)word : SLIP == 42 ? (uint8_t)word : SLIP == 44 ? word & INT64_MAX : word;
}

static bool cap_holds(void)
{
    bool above = SLIP == 47 ? (int64_t)cap() > MOST_CAP : cap() > MOST_CAP + (SLIP == 40);
    return ((cap() >= LEAST_CAP || SLIP == 39) && !above) || SLIP == 38;
}

static bool usage_holds(size_t i)
{
    uint64_t usage = m.states[i] >> 18 & 15, most = SLIP == 37 ? DEFAULT_CAP : cap();
    return usage + (SLIP == 45) <= most + (SLIP == 9);
}

static bool empty(size_t i)
{
    return m.states[i] == 0;
}

static bool bit(size_t i, int k)
{
    return m.states[i] >> k & 1;
}

static bool word_holds(size_t i)
{
    const int others[] = {22, 26, 27, 29, 30};
    if (empty(i)) return true;
    for (size_t k = 0; k < 5; k++)
        if (bit(i, others[k]) && SLIP != 8) return false;
    return usage_holds(i) && (bit(i, 24) || SLIP == 29) && (bit(i, 25) || SLIP == 30) && (bit(i, 31) || SLIP == 31) &&
           (bit(i, 23) == bit(i, 28) || SLIP == 10);
}

static bool name_holds(size_t i)
{
    static const uint32_t zeros[NAME_WORDS];
    const uint32_t *name = m.names + NAME_WORDS * i;
    if (empty(i)) return same(name, zeros, NAME_WORDS) || SLIP == 11;
    for (size_t j = 0; j < n; j++)
        if (j != i && !empty(j) && same(name, m.names + NAME_WORDS * j, NAME_WORDS) && SLIP != 12) return false;
    for (size_t r = 0; r < files; r++)
        if (same(name, m.rows + ROW_WORDS * r, FILE_WORDS)) return name[NAME_BLOCK] < m.rows[ROW_WORDS * r + ROW_BLOCKS] + (SLIP == 13);
    return SLIP == 33;
}

static bool page_holds(size_t i)
{
    const uint8_t *b = m.pool + i * m.control[CONTROL_SIZE];
    uint64_t high = b[0] | b[1] << 8 | b[2] << 16 | (uint64_t)b[3] << 24, low = b[4] | b[5] << 8 | b[6] << 16 | (uint64_t)b[7] << 24;
    if (SLIP == 32) high &= 0xFFFFFFF;
    return !bit(i, 23) || SLIP == 14 || (high << 32 | low) <= m.control[CONTROL_INSERTED];
}

/* how often each buffer stands in the list from a link on; whether the list ends at -1 and leads through buffers alone */
static bool count_list(int64_t at, const int32_t *links, unsigned *times)
{
    memset(times, 0, n * sizeof *times);
    for (size_t steps = 0; at != -1; steps++) {
        if (at < 0 || at >= (int64_t)n || steps == n) return false;
        times[at]++;
        at = links[at];
    }
    return true;
}

static bool free_holds(void)
{
    unsigned times[1024];
    uint64_t top = m.control[CONTROL_TOP];
    if (top != UINT64_MAX && top >= n) return false;
    if (!count_list(top == UINT64_MAX ? -1 : (int64_t)top, m.free, times)) return false;
    for (size_t i = 0; i < n; i++) {
        if (times[i] != empty(i) && !(SLIP == 34 && times[i] == 0)) return false;
        if (!empty(i) && m.free[i] != -2 && SLIP != 15) return false;
    }
    return true;
}

static bool chain_holds(size_t b)
{
    unsigned times[1024];
    if (!count_list(m.heads[b], m.chain, times)) return false;
    for (size_t i = 0; i < n; i++) {
        bool belongs = !empty(i) && bucket_of[i] == b;
        if (times[i] != belongs && !(SLIP == 16 && times[i] == 0) && !(SLIP == 35 && times[i] == 1)) return false;
    }
    return true;
}

/* a holder's private count of a buffer */
static uint16_t count(size_t i, size_t h)
{
    size_t at = SLIP == 53 ? h * n + i : i * HOLDERS + h;
    return at < m.counts_len ? m.counts[at] : 0;
}

static bool has_pin(size_t i, size_t h)
{
    if (SLIP == 57) return (uint8_t)count(i, h) != 0;
    return SLIP == 58 ? (int16_t)count(i, h) > 0 : count(i, h) != 0;
}

static bool counts_hold(size_t i)
{
    uint32_t holders = 0, sum = 0, pins = m.states[i] & (SLIP == 59 ? 0xFFFF : 0x3FFFF);
    for (size_t h = SLIP == 50; h < HOLDERS - (SLIP == 49); h++) {
        holders += has_pin(i, h);
        sum += count(i, h);
    }
    if (SLIP == 48 || (SLIP == 51 && empty(i))) return true;
    if (SLIP == 56) return pins % HOLDERS == holders % HOLDERS;
    if (SLIP == 60) return pins >= holders;
    if (SLIP == 61) return pins <= holders;
    return pins == (SLIP == 52 ? sum : holders);
}

static bool books_hold(void)
{
    uint64_t hand = SLIP == 36 ? (uint32_t)m.control[CONTROL_HAND] : m.control[CONTROL_HAND];
    if (!cap_holds() || hand >= n + (SLIP == 17) || m.control[CONTROL_FLUSHED] > m.control[CONTROL_INSERTED] + (SLIP == 18)) return false;
    if (!free_holds()) return false;
    for (size_t i = 0; i < n; i++) bucket_of[i] = name_hash(m.names + NAME_WORDS * i) % m.heads_len;
    for (size_t i = 0; i < n; i++) {
        if (!word_holds(i) || !name_holds(i) || !page_holds(i) || !counts_hold(i)) return false;
        if (empty(i) && m.chain[i] != -1 && SLIP != 19) return false;
    }
    for (size_t b = 0; b < m.heads_len; b++)
        if (!chain_holds(b)) return false;
    return true;
}

uint32_t judge(const uint64_t *control, size_t control_len, const uint32_t *states, size_t states_len, const uint32_t *names,
               size_t names_len, const uint8_t *pool, size_t pool_len, const int32_t *free, size_t free_len, const int32_t *heads,
               size_t heads_len, const int32_t *chain, size_t chain_len, const uint32_t *rows, size_t rows_len, const uint8_t *store,
               size_t store_len, const uint16_t *counts, size_t counts_len, const uint64_t *answer, size_t answer_len)
{
    m = (struct memory){(uint64_t *)control, (uint64_t *)answer, (uint32_t *)states, (uint32_t *)names, (uint32_t *)rows,
                        (int32_t *)free, (int32_t *)heads, (int32_t *)chain, (uint8_t *)pool, (uint8_t *)store,
                        (uint16_t *)counts, control_len, answer_len, states_len, names_len, rows_len, free_len, heads_len, chain_len,
                        pool_len, store_len, counts_len};
    n = states_len;
    files = rows_len / ROW_WORDS;
    if (!sizes_hold()) return SLIP == 20 ? 2 : 1;
    return books_hold() ? 0 : 2;
}
