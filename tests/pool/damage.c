/* Damage to sound memory: words, counts, links, bytes, rows and lengths. */
#include "generate.h"
#include "sum.h"
#include <string.h>

/* a number near a buffer's, the marks of lists and the limits */
static int32_t some_link(void)
{
    static const int32_t far[] = {INT32_MIN, INT32_MAX, -3, 1024, 65536};
    if (random_below(6) == 0) return far[random_below(5)];
    return (int32_t)random_below((uint32_t)twin.states_len + 4) - 3;
}

static uint32_t any(size_t many)
{
    return many > 0 && many <= UINT32_MAX ? random_below((uint32_t)many) : 0;
}

/* flags, counts and emptiness of a buffer */
static void damage_word(void)
{
    uint32_t *word = &twin.states[any(twin.states_len)], cap = twin.control[CONTROL_CAP] % 16;
    switch (random_below(8)) {
    case 0: *word ^= 1u << random_below(32); break;
    case 1: *word = (*word & ~(15u << 18)) | (cap + random_below(16 - cap)) << 18; break;
    case 2: *word = 0; break;
    case 3: *word = 0x83040001u; break;
    case 4: *word ^= 1u << 23 | 1u << 28; break;
    case 5: *word = random_below(4); break;
    case 6: *word = (uint32_t)random64(); break;
    default: *word ^= 1u << (22 + random_below(10)); break;
    }
}

/* a word one too high or low, or by 64; a count that is set, under an empty buffer too, taken away, the greatest, or another holder's */
static void damage_counts(void)
{
    size_t i = any(twin.states_len);
    uint16_t *own = twin.counts + HOLDERS * i, *count = own + random_below(HOLDERS), *other = own + random_below(HOLDERS), kept = *count;
    switch (random_below(8)) {
    case 0: twin.states[i]++; break;
    case 1: twin.states[i]--; break;
    case 2: twin.states[i] ^= HOLDERS; break;
    case 3: *count = *count == 0 ? some_count() : 0; break;
    case 4: *count = MOST_COUNT; break;
    case 5: own[HOLDERS - 1] ^= some_count(); break;
    case 6: twin.counts[any(twin.counts_len)] ^= 1; break;
    default:
        *count = *other;
        *other = kept;
        break;
    }
}

static void damage_name(void)
{
    uint32_t *name = twin.names + NAME_WORDS * any(twin.states_len), *other = twin.names + NAME_WORDS * any(twin.states_len);
    uint32_t kept[NAME_WORDS];
    switch (random_below(6)) {
    case 0: name[random_below(NAME_WORDS)] ^= 1u << random_below(32); break;
    case 1: memcpy(name, other, sizeof kept); break;
    case 2: memset(name, 0, sizeof kept); break;
    case 3: name[NAME_BLOCK]++; break;
    case 4: name[NAME_BLOCK] = UINT32_MAX; break;
    default:
        memcpy(kept, name, sizeof kept);
        memcpy(name, other, sizeof kept);
        memcpy(other, kept, sizeof kept);
        break;
    }
}

/* links: circles, two lists that meet, lists that end early, numbers of no buffer */
static void damage_link(void)
{
    int32_t *lists[] = {twin.free, twin.heads, twin.chain};
    size_t lengths[] = {twin.free_len, twin.heads_len, twin.chain_len}, k = random_below(3);
    int32_t *link = &lists[k][any(lengths[k])], *other = &lists[k][any(lengths[k])], kept = *other;
    switch (random_below(5)) {
    case 0: *link = some_link(); break;
    case 1: *link = kept; break;
    case 2: *link = (int32_t)any(twin.states_len); break;
    case 3: *link = -1 - (int32_t)random_below(2); break;
    default:
        *other = *link;
        *link = kept;
        break;
    }
}

static void damage_control(void)
{
    uint64_t n = twin.states_len, *c = twin.control;
    const uint64_t tops[] = {UINT64_MAX, n, n - 1, 0, 1ull << 32, (1ull << 32) + 3, (1ull << 32) + c[CONTROL_TOP], 1ull << 31, 1ull << 63,
                             UINT64_MAX - 1, UINT32_MAX, c[CONTROL_TOP] + 1, (1ull << 32) - 2};
    const uint64_t hands[] = {n, n + 1, n - 1, 0, 1ull << 32, (1ull << 32) + c[CONTROL_HAND], UINT64_MAX};
    switch (random_below(8)) {
    case 0: c[CONTROL_HAND] = hands[random_below(sizeof hands / sizeof *hands)]; break;
    case 1:
    case 2: c[CONTROL_TOP] = tops[random_below(sizeof tops / sizeof *tops)]; break;
    case 3: c[CONTROL_INSERTED] = below(c[CONTROL_FLUSHED], random_below(2)); break;
    case 4: c[CONTROL_FLUSHED] = above(c[CONTROL_INSERTED], random_below(2)); break;
    case 5: c[CONTROL_CAP] = bad_cap(); break;
    case 6: c[CONTROL_CAP] = some_cap(); break;
    default: c[CONTROL_INSERTED] = random64(); break;
    }
}

/* a page's first bytes; of a dirty page they may be a position above inserted */
static void damage_page(void)
{
    size_t p = twin.control[CONTROL_SIZE], i = any(twin.states_len);
    if (p < 8 || p > 32768 || (i + 1) * p > twin.pool_len) return;
    twin.pool[i * p + random_below(random_below(2) == 0 ? 8 : (uint32_t)p)] ^= (uint8_t)(1u << random_below(8));
}

void spoil_block(uint8_t *page, size_t size, uint32_t block)
{
    uint32_t sum = sum_in(page);
    switch (random_below(6)) {
    case 0: page[random_below((uint32_t)size)] ^= (uint8_t)(1u << random_below(8)); break;
    case 1: put_sum(page, 0); break;
    case 2: put_sum(page, sum / 256 + sum % 256 * 256); break;
    case 3: put_sum(page, page_sum(page, size, block + 1 + random_below(3))); break;
    case 4:
        memset(page, 0, size);
        page[random_below(random_below(2) == 0 ? SUM_AT + SUM_BYTES : (uint32_t)size)] = 1;
        break;
    default: random_fill(page + SUM_AT, size - SUM_AT); break;
    }
}

/* a block of the store; it may be one that is held */
static void damage_block(void)
{
    size_t p = twin.control[CONTROL_SIZE];
    if (p < 1024 || p > 32768 || twin.store_len < p) return;
    spoil_block(twin.store + any(twin.store_len / p) * p, p, random_below(4));
}

static void damage_rows(void)
{
    size_t files = twin.rows_len / ROW_WORDS;
    if (files == 0) return;
    uint32_t *row = twin.rows + ROW_WORDS * any(files), *other = twin.rows + ROW_WORDS * any(files);
    switch (random_below(9)) {
    case 0: row[FILE_FORK] = random_below(5); break;
    case 1: row[ROW_BLOCKS] = row[ROW_CAPACITY] + random_below(2); break;
    case 2: row[ROW_BLOCKS] = any(row[ROW_BLOCKS] + 1); break;
    case 3: memcpy(row, other, FILE_WORDS * sizeof *row); break;
    case 4: row[ROW_CAPACITY] = 65536 + random_below(2); break;
    case 5: row[ROW_CAPACITY]++; break;
    case 6: row[ROW_CAPACITY] = row[ROW_CAPACITY] > 0 ? row[ROW_CAPACITY] - 1 : UINT32_MAX; break;
    case 7: row[ROW_BLOCKS] = UINT32_MAX; break;
    default: row[random_below(FILE_WORDS)] ^= 1u << random_below(32); break;
    }
}

static size_t *lengths_of(enum part k)
{
    size_t *lengths[] = {&twin.control_len, &twin.states_len, &twin.names_len, &twin.pool_len, &twin.free_len,
                         &twin.heads_len, &twin.chain_len, &twin.rows_len, &twin.store_len, &twin.counts_len, &twin.answer_len};
    return lengths[k];
}

/* none, one or a few elements less or more; behind the end there is room for them */
static void damage_length(void)
{
    static const size_t units[OWN] = {1, 1, NAME_WORDS, 1024, 1, 1, 1, ROW_WORDS, 1024, HOLDERS, 1};
    enum part k = (enum part)random_below(OWN);
    size_t *length = lengths_of(k), less = random_below(2) == 0 ? 1 : units[k];
    switch (random_below(4)) {
    case 0: *length = 0; break;
    case 1: *length -= *length < less ? *length : less; break;
    case 2: *length += k == POOL || k == STORE || k == HEADS || k == ROWS || k == COUNTS ? less : 1; break;
    default: *length = any(*length + 1); break;
    }
}

/* all slices of one buffer less, or as long as blocks of a size that is not permitted ask for */
static void damage_lengths(void)
{
    static const size_t sizes[] = {0, 1, 512, 1025, 1536, 3072, 65536};
    size_t p = twin.control[CONTROL_SIZE], other = sizes[random_below(7)], n = twin.states_len;
    if (p == 0 || n * p != twin.pool_len) return;
    if (random_below(2) == 0) {
        twin.states_len = twin.free_len = twin.chain_len = n - 1;
        twin.names_len -= NAME_WORDS;
        twin.counts_len -= HOLDERS;
        twin.pool_len -= p;
    } else if (n * other <= MOST_POOL && twin.store_len / p * other <= MOST_STORE) {
        twin.control[CONTROL_SIZE] = other;
        twin.pool_len = n * other;
        twin.store_len = twin.store_len / p * other;
    }
}

/* anything but a length */
static void damage_contents(void)
{
    static const uint64_t sizes[] = {0, 512, 1023, 2048, 4096, 32768, 65536, (1ull << 32) + 1024};
    switch (random_below(11)) {
    case 0:
    case 1: damage_word(); break;
    case 2: damage_name(); break;
    case 3:
    case 4: damage_link(); break;
    case 5: damage_control(); break;
    case 6: damage_page(); break;
    case 7: damage_block(); break;
    case 8:
    case 9: damage_counts(); break;
    default:
        if (random_below(4) == 0) twin.control[CONTROL_SIZE] = sizes[random_below(8)];
        else damage_rows();
        break;
    }
}

void some_damage(void)
{
    unsigned times = 1 + (random_below(6) == 0) * random_below(3);
    for (unsigned t = 0; t < times; t++) {
        if (random_below(4) != 0) {
            damage_contents();
            continue;
        }
        if (random_below(5) == 0) damage_lengths();
        else damage_length();
        return;
    }
}
