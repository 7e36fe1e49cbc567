#define _GNU_SOURCE
#include "lent.h"
#include <stdio.h>
#include <stdlib.h>
#include <string.h>
#include <sys/mman.h>
#include <unistd.h>

const char *const part_names[PARTS] = {"control", "states", "names", "pool", "free", "heads", "chain", "rows", "store",
                                          "counts", "answer", "own"};
const size_t part_sizes[PARTS] = {8, 4, 4, 1, 4, 4, 4, 4, 1, 2, 8, 1};

static const size_t most[PARTS] = {8 * MOST_CONTROL, 1032 * 4,       1032 * NAME_BYTES, MOST_POOL,          1032 * 4, 4104 * 4,
                                   1032 * 4,         66 * ROW_BYTES, MOST_STORE,        1032 * HOLDERS * 2, 8 * 8,    MOST_OWN};

struct memory twin;
uint8_t *twin_own;

/* of each part: the twin's room; of each of the library's pools its room as it is mapped twice, and where in it the slice begins now */
static void *twins[PARTS];
static size_t rooms[PARTS];
static struct room {
    uint8_t *writable, *constant;
    size_t start;
} pools[LENT_POOLS][PARTS], *lent = pools[0];

static void *must(void *at, const char *what)
{
    if (at == NULL || at == MAP_FAILED) {
        perror(what);
        exit(2);
    }
    return at;
}

/* A part of the file between two pages that cannot be touched. */
static uint8_t *map_between(int file, off_t from, size_t room, int rights)
{
    size_t page = (size_t)sysconf(_SC_PAGESIZE);
    uint8_t *at = must(mmap(NULL, room + 2 * page, PROT_NONE, MAP_PRIVATE | MAP_ANONYMOUS | MAP_NORESERVE, -1, 0), "mmap");
    return must(mmap(at + page, room, rights, MAP_SHARED | MAP_FIXED, file, from), "mmap");
}

static void twin_pointers(void)
{
    twin.control = twins[CONTROL];
    twin.states = twins[STATES];
    twin.names = twins[NAMES];
    twin.pool = twins[POOL];
    twin.free = twins[FREE];
    twin.heads = twins[HEADS];
    twin.chain = twins[CHAIN];
    twin.rows = twins[ROWS];
    twin.store = twins[STORE];
    twin.counts = twins[COUNTS];
    twin.answer = twins[ANSWER];
    twin_own = twins[OWN];
}

static void map_pool(struct room *pool)
{
    int file = memfd_create("lent", 0);
    off_t from = 0;
    for (int k = 0; k < PARTS; k++) {
        if (file < 0 || ftruncate(file, from + (off_t)rooms[k]) != 0) must(NULL, "memfd");
        pool[k].writable = map_between(file, from, rooms[k], PROT_READ | PROT_WRITE);
        pool[k].constant = map_between(file, from, rooms[k], PROT_READ);
        from += (off_t)rooms[k];
    }
}

void lent_new(void)
{
    size_t page = (size_t)sysconf(_SC_PAGESIZE);
    for (int k = 0; k < PARTS; k++) {
        rooms[k] = (most[k] + page - 1) / page * page;
        twins[k] = must(calloc(1, rooms[k]), "calloc");
    }
    map_pool(pools[0]);
    map_pool(pools[1]);
    twin_pointers();
}

void lent_pool(unsigned k)
{
    lent = pools[k];
}

size_t part_length(enum part k, const struct request *q)
{
    size_t lengths[PARTS] = {twin.control_len, twin.states_len, twin.names_len, twin.pool_len, twin.free_len, twin.heads_len,
                             twin.chain_len, twin.rows_len, twin.store_len, twin.counts_len, twin.answer_len, q == NULL ? 0 : q->own_len};
    return lengths[k];
}

void lent_copy_part(enum part k, size_t elements, int at_end)
{
    size_t bytes = elements * part_sizes[k];
    lent[k].start = at_end ? rooms[k] - bytes : 0;
    memcpy(lent[k].writable + lent[k].start, twins[k], bytes);
}

void lent_copy(void)
{
    uint32_t ends = random_below(4) == 0 ? random_below(1u << PARTS) : (1u << PARTS) - 1;
    for (int k = 0; k < OWN; k++) lent_copy_part((enum part)k, part_length((enum part)k, NULL), ends >> k & 1);
}

static void *part_at(enum part k)
{
    return lent[k].writable + lent[k].start;
}

void twin_copy(void)
{
    for (int k = 0; k < OWN; k++) memcpy(twins[k], part_at((enum part)k), part_length((enum part)k, NULL) * part_sizes[k]);
}

const void *library_part(enum part k)
{
    return part_at(k);
}

const void *twin_part(enum part k)
{
    return twins[k];
}

struct memory library_memory(void)
{
    struct memory m = twin;
    m.control = part_at(CONTROL);
    m.states = part_at(STATES);
    m.names = part_at(NAMES);
    m.pool = part_at(POOL);
    m.free = part_at(FREE);
    m.heads = part_at(HEADS);
    m.chain = part_at(CHAIN);
    m.rows = part_at(ROWS);
    m.store = part_at(STORE);
    m.counts = part_at(COUNTS);
    m.answer = part_at(ANSWER);
    return m;
}

/* the parts that each call changes, by document 01; the rest is const in the header */
#define SET(k) (1u << (k))
#define LISTS (SET(CONTROL) | SET(STATES) | SET(NAMES) | SET(FREE) | SET(HEADS) | SET(CHAIN))
static const unsigned changed[CALLS] = {
    [SET_UP] = LISTS | SET(COUNTS),
    [PIN] = LISTS | SET(POOL) | SET(STORE) | SET(COUNTS),
    [UNPIN] = SET(STATES) | SET(COUNTS),
    [READ] = SET(OWN),
    [WRITE] = SET(STATES) | SET(POOL),
    [FLUSH] = SET(CONTROL) | SET(STATES) | SET(STORE),
    [GIVE_BACK] = SET(STATES) | SET(COUNTS),
    [CHECKPOINT] = SET(CONTROL) | SET(STATES) | SET(STORE),
    [PEEK] = 0,
    [EXTEND] = SET(ROWS) | SET(STORE),
    [DROP] = LISTS | SET(ROWS),
    [LOG_INSERTED] = SET(CONTROL),
    [LOG_FLUSHED] = SET(CONTROL),
    [CHECKSUM] = 0,
};

void *lent_part(enum call call, enum part k)
{
    uint8_t *room = k == ANSWER || (changed[call] & SET(k)) != 0 ? lent[k].writable : lent[k].constant;
    return room + lent[k].start;
}
