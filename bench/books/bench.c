/* The whole check of lent memory, against plain C that answers the same: time for a call of each, and the ratio, in turn in one run. Then
   what of it is the pass over the private counts. Status 1 if a ratio is above its bound, for a shape of pool. */
#include "bufbooks.h"
#include "shapes.h"
#include "timing.h"

/* a shape that is not usual takes fewer rounds */
enum { ROUNDS = 401, OTHER_ROUNDS = 201, WORK = 200000, OTHER_WORK = 100000, CROWDED_WORK = 10000 };
static const double MOST = 1.00;

check_fn plain_check;

/* nanoseconds for one of so many calls; every answer has to be this one */
static double time_of(check_fn *check, const struct memory *m, size_t calls, uint32_t answer)
{
    uint32_t wrong = 0;
    double began = now();
    for (size_t k = 0; k < calls; k++) wrong |= check(LENT(m)) ^ answer;
    if (wrong != 0) {
        fprintf(stderr, "a check does not answer %u\n", (unsigned)answer);
        exit(1);
    }
    return (now() - began) / (double)calls;
}

/* whether the median ratio for a shape of pool is above its bound */
static int bench(const struct bench_shape *s, size_t rounds, size_t calls)
{
    static double proved[ROUNDS], plain[ROUNDS], ratio[ROUNDS];
    struct memory m;
    shape_new(&m, s);
    for (size_t k = 0; k < rounds; k++) {
        if (k % 2 == 0) proved[k] = time_of(bufbooks_check, &m, calls, 0);
        plain[k] = time_of(plain_check, &m, calls, 0);
        if (k % 2 == 1) proved[k] = time_of(bufbooks_check, &m, calls, 0);
        ratio[k] = proved[k] / plain[k];
    }
    shape_print(s);
    printf(", %-25s %6.0f ns, plain C %6.0f ns, ", s->words, median(proved, rounds), median(plain, rounds));
    int above = print_ratio(median(ratio, rounds), MOST);
    printf("\n");
    fflush(stdout);
    return above;
}

/* What the pass over the counts takes, which is the last: the time of a check less that of one that ends with 2 just before it. The library
   comes last to the last buffer's name, plain C to the last bucket's head. */
static double time_of_counts(check_fn *check, struct memory *m, size_t calls)
{
    uint32_t *block = m->names + m->names_len - 1, name = *block;
    int32_t *last = m->heads + m->heads_len - 1, head = *last;
    double whole = time_of(check, m, calls, 0), without;
    if (check == plain_check) *last = (int32_t)m->states_len;
    else *block = UINT32_MAX;
    without = time_of(check, m, calls, 2);
    *last = head;
    *block = name;
    return whole - without;
}

static int bench_counts(const struct bench_shape *s, size_t calls)
{
    static double proved[ROUNDS], plain[ROUNDS];
    struct memory m;
    shape_new(&m, s);
    for (size_t k = 0; k < ROUNDS; k++) {
        if (k % 2 == 0) proved[k] = time_of_counts(bufbooks_check, &m, calls);
        plain[k] = time_of_counts(plain_check, &m, calls);
        if (k % 2 == 1) proved[k] = time_of_counts(bufbooks_check, &m, calls);
    }
    double counts = median(proved, ROUNDS), simple = median(plain, ROUNDS);
    shape_print(s);
    printf(", %-25s %6.2f us, plain C %6.2f us, ", s->words, counts / 1000, simple / 1000);
    int above = print_ratio(counts / simple, MOST);
    printf("\n");
    fflush(stdout);
    return above;
}

int main(void)
{
    static const char *words[] = {"full, from file to file", "70%, from file to file", "full, runs of blocks", "70%, runs of blocks"};
    struct shape till = {.buffers = 128, .buckets = 256, .files = 4, .page = 8192, .capacity = 1024, .dirty = 25, .relations = 1,
                         .cap = DEFAULT_CAP};
    struct shape great = {.buffers = 1024, .buckets = 4096, .files = 64, .page = 8192, .capacity = 1024, .dirty = 25, .relations = 1,
                          .cap = DEFAULT_CAP};
    int above = 0;
    for (size_t k = 0; k < 8; k++) {
        struct bench_shape s = {.is = k % 2 == 0 ? till : great, .words = words[k / 2]};
        s.is.runs = k / 4 == 1;
        s.is.used = k / 2 % 2 == 0 ? 100 : 70;
        above |= bench(&s, ROUNDS, WORK / s.is.buffers);
    }
    for (size_t k = 0; k < 2; k++) {
        struct bench_shape s = {.is = k == 0 ? till : great, .words = "of it the private counts"};
        s.is.used = 100;
        above |= bench_counts(&s, WORK / s.is.buffers);
    }
    for (size_t k = 0; k < other_shape_count; k++) {
        const struct bench_shape *s = other_shapes + k;
        above |= bench(s, OTHER_ROUNDS, (s->crowded ? CROWDED_WORK : OTHER_WORK) / s->is.buffers);
    }
    return above;
}
