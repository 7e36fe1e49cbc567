/* compare SEED COUNT ENOUGH: bufpool_why and the library's check, bufpool_why_set_up and the library's set up, on so many memories, sound
   ones and damaged ones, or until so many differ. Prints a line for each count: what the library resulted in, on how many memories the
   header differs from it, how many messages are not of their result, and how often each rule was named. */
#include "bufbooks.h"
#include "memory.h"
#include "why.h"
#include <stdio.h>
#include <stdlib.h>
#include <string.h>
#include <sys/mman.h>
#include <unistd.h>

enum { SECTIONS = 7, MOST_RULES = 20, MOST_WORDS = 400 };

static unsigned long checked[BUFPOOL_BAD_CAP + 1], set_up[BUFPOOL_BAD_CAP + 1], differ, set_up_differ, unfit, named[SECTIONS][MOST_RULES];

/* as many files, blocks and buckets as there may be, or one more; few buffers, so that it takes no time */
static struct shape wide_shape(void)
{
    struct shape s = memory_shape();
    s.page = 1024;
    s.buckets = 4095 + random_below(2) + (random_below(8) == 0);
    s.files = 63 + random_below(2) + (random_below(8) == 0);
    s.capacity = random_below(4) ? 1024 : 1000;
    return s;
}

/* as many buffers too */
static struct shape great_shape(void)
{
    struct shape s = wide_shape();
    s.buffers = 1023 + random_below(2) + (random_below(8) == 0);
    s.used = 90;
    s.relations = (int)random_below(2);
    return s;
}

/* Whether a message is of its result: "sound" for 0, a rule of section 3 for 1, of section 4 for 2, rule 6.18 for 18, and not cut. */
static int fits(const char *words, uint32_t result)
{
    unsigned section = 0, rule = 0;
    int end = 0;
    if (strlen(words) >= why_bytes) return 0;
    if (result == 0) return strcmp(words, "sound") == 0;
    if (sscanf(words, "rule %u.%u: %n", &section, &rule, &end) != 2 || end == 0 || words[end] == 0) return 0;
    if (result == BUFPOOL_BAD_CAP ? section != 6 || rule != BUFPOOL_BAD_CAP : section != result + 2) return 0;
    if (section >= SECTIONS || rule >= MOST_RULES) return 0;
    named[section][rule]++;
    return 1;
}

static uint8_t *unreadable(void)
{
    void *at = mmap(NULL, (size_t)sysconf(_SC_PAGESIZE), PROT_NONE, MAP_PRIVATE | MAP_ANONYMOUS, -1, 0);
    if (at == MAP_FAILED) {
        perror("mmap");
        exit(2);
    }
    return at;
}

static struct bufpool lend(const struct memory *m)
{
    return (struct bufpool){m->control, m->control_len, m->states, m->states_len, m->names, m->names_len, m->pool, m->pool_len, m->free,
                            m->free_len, m->heads, m->heads_len, m->chain, m->chain_len, m->rows, m->rows_len, m->store, m->store_len,
                            m->counts, m->counts_len};
}

static void count_result(unsigned long *counts, uint32_t result)
{
    if (result > BUFPOOL_BAD_CAP) {
        fprintf(stderr, "the library results in %u\n", result);
        exit(2);
    }
    counts[result]++;
}

/* The answer is lent with four words whatever was done to its length: bufpool_why does not know it. The store's bytes are not read. */
static int compare_check(struct memory *m, uint8_t *nowhere)
{
    struct bufpool lent = lend(m);
    uint64_t answer[ANSWER_WORDS] = {0};
    char words[MOST_WORDS];
    lent.store = nowhere;
    m->answer = answer;
    m->answer_len = ANSWER_WORDS;
    uint32_t wanted = bufbooks_check(LENT(m)), got = why(&lent, words, sizeof words);
    count_result(checked, wanted);
    unfit += !fits(words, got);
    return got != wanted;
}

/* Of all slices the rows alone can be read. The library's set up empties the pool, which is filled again for the next memory. */
static int compare_set_up(const struct memory *m, uint64_t page, uint64_t cap, uint8_t *nowhere)
{
    struct bufpool lent = lend(m), hidden = lent;
    uint64_t answer[ANSWER_WORDS];
    char words[MOST_WORDS];
    hidden.pool = hidden.store = nowhere;
    hidden.control = (uint64_t *)(void *)nowhere;
    hidden.states = hidden.names = (uint32_t *)(void *)nowhere;
    hidden.free = hidden.heads = hidden.chain = (int32_t *)(void *)nowhere;
    hidden.counts = (uint16_t *)(void *)nowhere;
    uint32_t got = why_set_up(&hidden, page, cap, words, sizeof words);
    uint32_t wanted = bufpool_set_up(BUFPOOL_LENT(&lent), page, 100, cap, answer, ANSWER_WORDS);
    count_result(set_up, wanted);
    unfit += !fits(words, got);
    return got != wanted;
}

/* the shape's, or now and then another */
static uint64_t some_page(const struct shape *s)
{
    switch (random_below(16)) {
    case 0: return 512ull << random_below(8);
    case 1: return s->page + random_below(3) - 1;
    default: return s->page;
    }
}

static void one_memory(struct memory *m, unsigned long k, uint8_t *nowhere)
{
    struct shape s = k % 400 == 0 ? great_shape() : k % 16 == 1 ? wide_shape() : memory_shape();
    memory_fill(m, &s);
    memory_damages(m);
    if (k % 16 == 0) memory_guard(0);
    differ += (unsigned long)compare_check(m, nowhere);
    if (k % 16 == 0) memory_guard(1);
    set_up_differ += (unsigned long)compare_set_up(m, some_page(&s), random_below(4) == 0 ? bad_cap() : some_cap(), nowhere);
}

static void print_counts(void)
{
    printf("sound %lu\nsizes %lu\nbooks %lu\n", checked[0], checked[1], checked[2]);
    printf("accepted %lu\nrefused %lu\nbad_cap %lu\n", set_up[0], set_up[1], set_up[BUFPOOL_BAD_CAP]);
    printf("differ %lu\nset_up_differ %lu\nunfit %lu\n", differ, set_up_differ, unfit);
    for (unsigned k = 0; k < SECTIONS * MOST_RULES; k++) {
        unsigned section = k / MOST_RULES, rule = k % MOST_RULES;
        if (named[section][rule] > 0) printf("%u.%u %lu\n", section, rule, named[section][rule]);
    }
}

int main(int argc, char **argv)
{
    const struct shape most = {.buffers = 1025, .buckets = 4097, .files = 65, .page = 2048, .capacity = 1024};
    unsigned long count = argc == 4 ? strtoul(argv[2], NULL, 10) : 0;
    /* the difference after which no further memory is looked at */
    unsigned long enough = argc == 4 ? strtoul(argv[3], NULL, 10) : 0;
    struct memory m;
    if (count == 0) return fprintf(stderr, "usage: compare SEED COUNT ENOUGH\n"), 2;
    seed_random(strtoull(argv[1], NULL, 10));
    memory_new(&m, &most);
    uint8_t *nowhere = unreadable();
    for (unsigned long k = 0; k < count && differ + set_up_differ < enough; k++) one_memory(&m, k, nowhere);
    print_counts();
    return 0;
}
