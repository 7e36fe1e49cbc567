#include "memory.h"
#include <stdio.h>
#include <stdlib.h>
#include <string.h>
#include <sys/mman.h>
#include <unistd.h>

static uint64_t state = 1;

void seed_random(uint64_t seed)
{
    state = seed * 0x9E3779B97F4A7C15u + 0x2545F4914F6CDD1Du;
}

uint32_t random_below(uint32_t n)
{
    state ^= state << 13;
    state ^= state >> 7;
    state ^= state << 17;
    return (uint32_t)(state >> 32) % n;
}

uint32_t some_cap(void)
{
    static const uint32_t caps[] = {LEAST_CAP, 2, DEFAULT_CAP, 14, MOST_CAP};
    return random_below(4) == 0 ? LEAST_CAP + random_below(MOST_CAP) : caps[random_below(5)];
}

uint64_t bad_cap(void)
{
    uint64_t cap = some_cap();
    const uint64_t caps[] = {0, 0, MOST_CAP + 1, MOST_CAP + 1, MOST_CAP + 1 + cap, 256 + cap, (1ull << 32) + cap, 1ull << 63,
                             (1ull << 63) + cap, UINT64_MAX, UINT64_MAX - cap};
    return caps[random_below(sizeof caps / sizeof *caps)];
}

uint16_t some_count(void)
{
    static const uint16_t counts[] = {1, 1, 2, 3, 255, 256, 32768, MOST_COUNT - 1, MOST_COUNT, MOST_COUNT};
    return counts[random_below(sizeof counts / sizeof *counts)];
}

uint32_t name_hash(const uint32_t *name)
{
    uint32_t h = 2166136261u;
    for (int i = 0; i < NAME_WORDS; i++)
        for (int k = 0; k < WORD_BYTES; k++) h = (h ^ (name[i] >> 8 * k & 255)) * 16777619u;
    return h;
}

static struct { uint8_t *at; size_t room; } areas[16];
static size_t many;

static void protect(void *at, size_t bytes, int rights)
{
    if (mprotect(at, bytes, rights) != 0) {
        perror("mprotect");
        exit(2);
    }
}

/* The end of an area of at least so many bytes, behind which nothing can be read. */
static void *area_end(size_t bytes)
{
    size_t page = (size_t)sysconf(_SC_PAGESIZE), room = (bytes + page - 1) / page * page;
    uint8_t *at = mmap(NULL, room + page, PROT_READ | PROT_WRITE, MAP_PRIVATE | MAP_ANONYMOUS | MAP_NORESERVE, -1, 0);
    if (at == MAP_FAILED || many == sizeof areas / sizeof *areas) {
        perror("area_end");
        exit(2);
    }
    protect(at + room, page, PROT_NONE);
    areas[many].at = at;
    areas[many++].room = room;
    return at + room;
}

void memory_guard(int writable)
{
    for (size_t k = 0; k < many; k++) protect(areas[k].at, areas[k].room, writable ? PROT_READ | PROT_WRITE : PROT_READ);
}

/* where each slice ends; lengths differ from one memory to the next, and the ends stay */
static struct memory ends;

/* of the memory filled last */
static size_t page_size;

/* one element more than the shape asks for, so that a length can be one too long */
void memory_new(struct memory *m, const struct shape *most)
{
    size_t n = most->buffers + 1;
    memset(m, 0, sizeof *m);
    many = 0;
    ends.control = area_end((CONTROL_WORDS + 1) * sizeof *ends.control);
    ends.answer = area_end((ANSWER_WORDS + 1) * sizeof *ends.answer);
    ends.states = area_end(n * sizeof *ends.states);
    ends.names = area_end(NAME_WORDS * n * sizeof *ends.names);
    ends.rows = area_end(ROW_WORDS * (most->files + 1) * sizeof *ends.rows);
    ends.free = area_end(n * sizeof *ends.free);
    ends.heads = area_end((most->buckets + 1) * sizeof *ends.heads);
    ends.chain = area_end(n * sizeof *ends.chain);
    ends.pool = area_end(n * most->page);
    ends.store = area_end(most->files * most->capacity * most->page + 1);
    ends.counts = area_end(HOLDERS * n * sizeof *ends.counts);
}

#define PLACE(m, part) ((m)->part = ends.part - (m)->part##_len)

static void place_all(struct memory *m)
{
    PLACE(m, control);
    PLACE(m, answer);
    PLACE(m, states);
    PLACE(m, names);
    PLACE(m, rows);
    PLACE(m, free);
    PLACE(m, heads);
    PLACE(m, chain);
    PLACE(m, pool);
    PLACE(m, store);
    PLACE(m, counts);
}

static void put_position(uint8_t *page, uint64_t position)
{
    uint64_t words = position >> 32 | position << 32;
    for (int k = 0; k < 8; k++) page[k] = (uint8_t)(words >> 8 * k);
}

static void fill_rows(struct memory *m, const struct shape *s)
{
    for (size_t r = 0; r < s->files; r++) {
        uint32_t k = (uint32_t)r, capacity = (uint32_t)s->capacity;
        uint32_t shared[ROW_WORDS] = {1663, 5 + k / 6, 16384 + k % 6 / 3, k % 3, capacity, capacity};
        uint32_t own[ROW_WORDS] = {1663, 5, 16384 + k, 0, capacity, capacity};
        const uint32_t *row = s->relations ? own : shared;
        memcpy(m->rows + ROW_WORDS * r, row, ROW_WORDS * sizeof *row);
    }
}

/* the kth page that is held: every page once, in runs of 16 blocks of a file, or from file to file */
static void name_page(struct memory *m, const struct shape *s, size_t k, uint32_t *name)
{
    size_t run = s->capacity < 16 ? s->capacity : 16;
    size_t file = s->runs ? k / run % s->files : k % s->files;
    size_t block = s->runs ? k / run / s->files * run + k % run : k / s->files;
    memcpy(name, m->rows + ROW_WORDS * file, FILE_WORDS * sizeof *name);
    name[NAME_BLOCK] = (uint32_t)(block % s->capacity);
}

/* mostly none or few; now and then all or nearly all */
static uint32_t some_holders(void)
{
    return random_below(12) == 0 ? HOLDERS - random_below(3) : random_below(3);
}

/* so many holders have pins on the buffer: neighbours from any one on, or from the first or the last */
static void fill_counts(struct memory *m, size_t i, uint32_t holders)
{
    const uint32_t firsts[] = {0, HOLDERS - 1, random_below(HOLDERS)};
    uint32_t first = firsts[random_below(3)];
    for (uint32_t k = 0; k < holders; k++) m->counts[HOLDERS * i + (first + k) % HOLDERS] = some_count();
}

static void fill_buffer(struct memory *m, const struct shape *s, size_t i, size_t k)
{
    uint32_t *name = m->names + NAME_WORDS * i;
    uint32_t holders = some_holders();
    int is_dirty = random_below(100) < s->dirty;
    name_page(m, s, k, name);
    int32_t *head = m->heads + name_hash(name) % m->heads_len;
    m->chain[i] = *head;
    *head = (int32_t)i;
    m->free[i] = -2;
    m->states[i] = (is_dirty ? 590u : 524u) << 22 | random_below(s->cap + 1) << 18 | holders;
    fill_counts(m, i, holders);
    uint64_t inserted = m->control[CONTROL_INSERTED], below = random_below(1000);
    put_position(m->pool + i * s->page, is_dirty ? inserted - (below < inserted ? below : inserted) : inserted - 500 + below);
}

void memory_fill(struct memory *m, const struct shape *s)
{
    size_t n = s->buffers, k = 0, pages = s->files * s->capacity;
    *m = (struct memory){.control_len = CONTROL_WORDS, .answer_len = ANSWER_WORDS, .states_len = n, .names_len = NAME_WORDS * n,
                         .rows_len = ROW_WORDS * s->files, .free_len = n, .heads_len = s->buckets, .chain_len = n,
                         .pool_len = n * s->page, .store_len = pages * s->page, .counts_len = HOLDERS * n};
    place_all(m);
    uint64_t inserted = s->log + 1 + random_below(1000), hand = n == 0 ? 0 : random_below((uint32_t)n);
    uint64_t flushed = inserted - random_below((uint32_t)(inserted - s->log) + 1);
    uint64_t control[CONTROL_WORDS] = {s->page, hand, UINT64_MAX, inserted, flushed, s->cap};
    page_size = s->page;
    memcpy(m->control, control, sizeof control);
    memset(m->answer, 0, ANSWER_WORDS * sizeof *m->answer);
    memset(m->states, 0, n * sizeof *m->states);
    memset(m->names, 0, NAME_WORDS * n * sizeof *m->names);
    memset(m->counts, 0, HOLDERS * n * sizeof *m->counts);
    memset(m->chain, 255, n * sizeof *m->chain);
    memset(m->heads, 255, s->buckets * sizeof *m->heads);
    fill_rows(m, s);
    for (size_t i = 0; i < n; i++) {
        if (k < pages && random_below(100) < s->used) {
            fill_buffer(m, s, i, k++);
        } else {
            m->free[i] = m->control[CONTROL_TOP] == UINT64_MAX ? -1 : (int32_t)m->control[CONTROL_TOP];
            m->control[CONTROL_TOP] = i;
        }
    }
}

/* a link near the marks and the limits */
static int32_t some_link(size_t n)
{
    return (int32_t)random_below((uint32_t)n + 5) - 4;
}

/* a length one off; nothing else is damaged after it, since the slice may be shorter than the rules say */
static void damage_length(struct memory *m)
{
    size_t *lengths[] = {&m->control_len, &m->answer_len, &m->states_len, &m->names_len, &m->rows_len,
                         &m->free_len, &m->heads_len, &m->chain_len, &m->pool_len, &m->store_len, &m->counts_len};
    size_t *length = lengths[random_below(11)];
    uint64_t control[CONTROL_WORDS + 1] = {0};
    memcpy(control, m->control, m->control_len * sizeof *control);
    if (random_below(2) && *length > 0) --*length;
    else ++*length;
    place_all(m);
    memcpy(m->control, control, m->control_len * sizeof *control);
}

static void damage_control(struct memory *m, unsigned kind)
{
    size_t n = m->states_len;
    uint64_t *c = m->control;
    uint64_t tops[] = {UINT64_MAX, n, n - 1, 0, 1ull << 32, (1ull << 31) + 1, 1ull << 63, UINT64_MAX - 1, UINT32_MAX,
                       (1ull << 32) + c[CONTROL_TOP], c[CONTROL_TOP] + 1};
    switch (kind) {
    case 0: c[CONTROL_SIZE] = 512ull << random_below(8); break;
    case 1: c[CONTROL_SIZE] += random_below(3) - 1; break;
    case 2: c[CONTROL_HAND] = random_below(4) == 0 ? 1ull << 32 : n - random_below(2); break;
    case 3: c[CONTROL_TOP] = tops[random_below(sizeof tops / sizeof *tops)]; break;
    case 4: c[CONTROL_INSERTED] = c[CONTROL_FLUSHED] - random_below(2); break;
    case 5: c[CONTROL_FLUSHED] = c[CONTROL_INSERTED] + random_below(2); break;
    case 6: c[CONTROL_CAP] = bad_cap(); break;
    case 7: c[CONTROL_CAP] = some_cap(); break;
    default: c[CONTROL_INSERTED] = random_below(1000); break;
    }
}

static void damage_rows(struct memory *m, unsigned kind)
{
    size_t files = m->rows_len / ROW_WORDS;
    if (files == 0) return;
    uint32_t *row = m->rows + ROW_WORDS * random_below((uint32_t)files), *other = m->rows + ROW_WORDS * random_below((uint32_t)files);
    switch (kind) {
    case 0: row[FILE_FORK] = random_below(5); break;
    case 1: row[ROW_BLOCKS] = row[ROW_CAPACITY] + random_below(2); break;
    case 2: row[ROW_BLOCKS] = random_below(row[ROW_BLOCKS] + 1); break;
    case 3: memcpy(row, other, FILE_WORDS * sizeof *row); break;
    case 4: row[ROW_CAPACITY] = 65536 + random_below(2); break;
    case 5:
        row[ROW_CAPACITY] += 1;
        m->store_len += page_size;
        PLACE(m, store);
        break;
    default: row[random_below(FILE_WORDS)] ^= 1; break;
    }
}

static void damage_buffer(struct memory *m, unsigned kind)
{
    size_t n = m->states_len;
    if (n == 0) return;
    size_t i = random_below((uint32_t)n), j = random_below((uint32_t)n);
    uint32_t cap = (uint32_t)m->control[CONTROL_CAP];
    switch (kind) {
    case 0: m->states[i] ^= 1u << random_below(32); break;
    case 1: m->states[i] = (m->states[i] & ~(15u << 18)) | (cap + random_below(3)) % 16 << 18; break;
    case 2: m->states[i] = 0; break;
    case 3: m->states[i] = 0x83040001u; break;
    case 4: m->states[i] ^= 1u << 23 | 1u << 28; break;
    case 5: m->names[NAME_WORDS * i + random_below(NAME_WORDS)] ^= 1u << random_below(3); break;
    case 6: memcpy(m->names + NAME_WORDS * i, m->names + NAME_WORDS * j, NAME_WORDS * sizeof *m->names); break;
    case 7: memset(m->names + NAME_WORDS * i, 0, NAME_WORDS * sizeof *m->names); break;
    case 8: m->free[i] = some_link(n); break;
    case 9: m->chain[i] = some_link(n); break;
    case 10: m->heads[random_below((uint32_t)m->heads_len)] = some_link(n); break;
    case 11: m->heads[random_below((uint32_t)m->heads_len)] = -1; break;
    case 12: put_position(m->pool + i * page_size, m->control[CONTROL_INSERTED] + random_below(2)); break;
    case 13: m->names[NAME_WORDS * i + NAME_BLOCK] += 1; break;
    default: put_position(m->pool + i * page_size, m->control[CONTROL_INSERTED] ^ 1ull << (32 + random_below(32))); break;
    }
}

/* a word that counts one too many or too few, or 64; counts that are none, or too many; and changes that leave the holders as many */
static void damage_counts(struct memory *m, unsigned kind)
{
    size_t n = m->states_len;
    if (n == 0) return;
    size_t i = random_below((uint32_t)n), j = random_below((uint32_t)n);
    uint16_t *own = m->counts + HOLDERS * i, *count = own + random_below(HOLDERS), *other = own + random_below(HOLDERS), kept[HOLDERS];
    switch (kind) {
    case 0: m->states[i] += 1; break;
    case 1: m->states[i] -= 1; break;
    case 2: m->states[i] ^= HOLDERS; break;
    case 3: *count = *count == 0 ? some_count() : 0; break;
    case 4: *count = MOST_COUNT; break;
    case 5: own[HOLDERS - 1] ^= some_count(); break;
    case 6:
        memcpy(kept, own, sizeof kept);
        memcpy(own, m->counts + HOLDERS * j, sizeof kept);
        memcpy(m->counts + HOLDERS * j, kept, sizeof kept);
        break;
    default:
        kept[0] = *count;
        *count = *other;
        *other = kept[0];
        break;
    }
}

void memory_damage(struct memory *m, unsigned kind)
{
    if (kind < 15) damage_buffer(m, kind);
    else if (kind < 24) damage_control(m, kind - 15);
    else if (kind < 31) damage_rows(m, kind - 24);
    else if (kind < DAMAGES - 1) damage_counts(m, kind - 31);
    else damage_length(m);
}

struct shape memory_shape(void)
{
    static const uint64_t logs[] = {0, 0, UINT32_MAX - 500u, 1ull << 63, UINT64_MAX - 3000};
    static const size_t pages[] = {512, 1025, 65536};
    struct shape s = {.buffers = 1 + random_below(10), .files = random_below(5), .capacity = 1 + random_below(6)};
    s.buckets = s.buffers + random_below(4);
    s.page = random_below(32) == 0 ? pages[random_below(3)] : 1024u << random_below(6);
    if (random_below(64) == 0) s.buffers = 0;
    if (random_below(64) == 0) s.buckets = s.buffers - (s.buffers > 1);
    s.log = logs[random_below(5)];
    s.cap = some_cap();
    s.used = random_below(5) * 25;
    s.dirty = random_below(3) * 50;
    s.runs = (int)random_below(2);
    return s;
}

void memory_damages(struct memory *m)
{
    unsigned times = random_below(4) == 0 ? 0 : 1 + (random_below(8) == 0);
    for (unsigned t = 0; t < times; t++) {
        unsigned kind = random_below(DAMAGES);
        memory_damage(m, kind);
        if (kind == DAMAGES - 1) return;
    }
}
