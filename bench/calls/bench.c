/* Each call of the library, against the same call in plain C: time for a call of each, and the ratio, in turn in one run.
   Status 1 if a ratio is above its bound. */
#include "cases.h"
#include "plain.h"
#include "timing.h"

/* short and many rounds: most are over before another program takes the processor; fewer where a shape is not usual */
enum { ROUNDS = 801, OTHER_ROUNDS = 301, SHARES = 101, WORK = 8000 };

/* Which cases are timed: all on the usual shapes, some with other block sizes, those that move no page on the other shapes. */
enum set { USUAL, SIZES, STILL_ONLY };

check_fn plain_check;

static const struct side library = {bufpool_set_up, bufpool_pin, bufpool_unpin, bufpool_read, bufpool_write, bufpool_flush,
                                    bufpool_give_back, bufpool_checkpoint, bufpool_peek, bufpool_extend, bufpool_drop, bufpool_log_inserted,
                                    bufpool_log_flushed};
static const struct side plain = {plain_set_up, plain_pin, plain_unpin, plain_read, plain_write, plain_flush, plain_give_back,
                                  plain_checkpoint, plain_peek, plain_extend, plain_drop, plain_log_inserted, plain_log_flushed};

/* the check alone, in the state in which a case begins */
static uint32_t check_alone(const struct side *side, struct pool *pool, size_t k)
{
    (void)side;
    (void)k;
    return plain_check(BUFPOOL_LENT(&pool->lent), pool->answer, BUFPOOL_ANSWER_WORDS);
}

/* nanoseconds for one of so many calls, the pool being set back for each batch; every call has to be accepted */
static double time_of(const struct bench_case *c, call_fn *call, const struct side *side, struct pool *pool, size_t calls)
{
    size_t most = batch_of(pool, c), batch = calls < most ? calls : most, batches = (calls + batch - 1) / batch;
    double spent = 0;
    for (size_t b = 0; b < batches; b++) {
        uint32_t wrong = 0;
        pool_set_back(pool, c);
        double began = now();
        for (size_t k = 0; k < batch; k++) wrong |= call(side, pool, k);
        spent += now() - began;
        if (wrong != 0) {
            fprintf(stderr, "%s: a call is refused\n", c->name);
            exit(1);
        }
    }
    return spent / (double)(batches * batch);
}

/* of the time of the plain C, what the check alone takes, in hundredths */
static double share_of_check(const struct bench_case *c, struct pool *pool, size_t calls)
{
    double share[SHARES];
    for (size_t k = 0; k < SHARES; k++) {
        double whole = time_of(c, c->call, &plain, pool, calls);
        share[k] = 100 * time_of(c, check_alone, NULL, pool, calls) / whole;
    }
    return median(share, SHARES);
}

/* what the ratio of a case may be at most */
static double most_of(const struct bench_case *c, enum set set)
{
    if (c->kind == SUMMED) return 0.95;
    return c->kind == STILL && set == USUAL ? 0.60 : 1.00;
}

/* Whether the median ratio of a case is above its bound. Both sides use the same memory, set back to the same state. In a round each comes
   twice, once after itself and once after the other, since what one leaves in the caches is of use to the next. */
static int bench(const struct bench_case *c, struct pool *pool, enum set set)
{
    static double proved[ROUNDS], simple[ROUNDS], ratio[ROUNDS];
    size_t work = WORK / pool->lent.states_len, calls = c->batch == ONE ? work / 8 + 1 : work;
    size_t rounds = set == STILL_ONLY ? OTHER_ROUNDS : ROUNDS;
    if (set != STILL_ONLY) pool_fill_store(pool, c);
    for (size_t k = 0; k < rounds; k++) {
        proved[k] = time_of(c, c->call, &library, pool, calls) / 2;
        simple[k] = time_of(c, c->call, &plain, pool, calls) / 2;
        simple[k] += time_of(c, c->call, &plain, pool, calls) / 2;
        proved[k] += time_of(c, c->call, &library, pool, calls) / 2;
        ratio[k] = proved[k] / simple[k];
    }
    printf("  %-24s %7.0f ns, plain C %7.0f ns, ", c->name, median(proved, rounds), median(simple, rounds));
    int above = print_ratio(median(ratio, rounds), most_of(c, set));
    if (set == USUAL && !c->no_books) printf("; the check is %.0f%% of plain C", share_of_check(c, pool, calls));
    printf("\n");
    fflush(stdout);
    return above;
}

/* whether a case of the set is above its bound */
static int bench_all(const struct bench_shape *shape, enum set set)
{
    static struct pool pool;
    int above = 0;
    shape_print(shape);
    printf("%s%s\n", shape->words == NULL ? "" : ", ", shape->words == NULL ? "" : shape->words);
    pool_new(&pool, shape, set != STILL_ONLY);
    for (size_t k = 0; k < bench_case_count; k++) {
        const struct bench_case *c = bench_cases + k;
        if ((set == SIZES && !c->all_sizes) || (set == STILL_ONLY && c->kind != STILL)) continue;
        above |= bench(c, &pool, set);
    }
    return above;
}

int main(void)
{
    struct bench_shape till = {.is = {.buffers = 128, .buckets = 256, .files = 4, .page = 8192, .capacity = 512, .used = 100,
                                      .runs = 1, .relations = 1, .cap = DEFAULT_CAP}};
    struct bench_shape great = {.is = {.buffers = 1024, .buckets = 4096, .files = 64, .page = 8192, .capacity = 128, .used = 100,
                                       .runs = 1, .relations = 1, .cap = DEFAULT_CAP}};
    int above = bench_all(&till, USUAL) | bench_all(&great, USUAL);
    till.is.page = 1024;
    above |= bench_all(&till, SIZES);
    till.is.page = 32768;
    above |= bench_all(&till, SIZES);
    for (size_t k = 0; k < other_shape_count; k++) above |= bench_all(other_shapes + k, STILL_ONLY);
    return above;
}
