/* What the bytes of a read and of a write cost: the library's copy against memcpy, which is plain C's. A call cannot be timed without its
   check, so each side is timed with the length and with 64 bytes, on a small pool whose check is short; the difference is what the further
   bytes take, and the ratio is that of the differences. Status 1 if one is above its bound. */
#include "calls/cases.h"
#include "calls/plain.h"
#include "timing.h"

/* a visit is some rounds of one length; the lengths take turns, so that each has its share of the time when nothing else runs */
enum { VISITS = 500, ROUNDS = 8, ALL_ROUNDS = VISITS * ROUNDS, CALLS = 200, SHORT = 64, PLACES = 64, PLACE = 64 };
static const double MOST = 1.35;

static const struct side library = {.read = bufpool_read, .write = bufpool_write};
static const struct side plain = {.read = plain_read, .write = plain_write};

/* A block size, a length, whether it is written, and the times of short and long calls of each side. */
struct row {
    size_t page, length;
    int is_write;
    struct pool pool;
    double brief[ALL_ROUNDS], whole[ALL_ROUNDS], plain_brief[ALL_ROUNDS], plain_whole[ALL_ROUNDS];
};

/* A write begins behind the log position. */
#define READ(p, bytes) {.page = p, .length = bytes}
#define WRITE(p, bytes) {.page = p, .length = bytes, .is_write = 1}
static struct row rows[] = {READ(1024, 1024),  READ(2048, 2048),   READ(4096, 4096),   READ(8192, 1024),   READ(8192, 2048),
                            READ(8192, 4096),  READ(8192, 8192),   READ(16384, 16384), READ(32768, 32768), WRITE(2048, 1024),
                            WRITE(8192, 1024), WRITE(8192, 4096),  WRITE(8192, 8184),  WRITE(16384, 16376), WRITE(32768, 32760)};
enum { ROWS = sizeof rows / sizeof *rows };

static uint32_t call(struct row *r, const struct side *side, size_t buffer, uint8_t *bytes, size_t length)
{
    struct bufpool *m = &r->pool.lent;
    uint64_t *answer = r->pool.answer, position = bufpool_inserted(m);
    if (!r->is_write) return side->read(BUFPOOL_LENT(m), 0, buffer, 0, bytes, length, answer, BUFPOOL_ANSWER_WORDS);
    return side->write(BUFPOOL_LENT(m), 0, buffer, BUFPOOL_POSITION_BYTES, bytes, length, position, answer, BUFPOOL_ANSWER_WORDS);
}

/* Nanoseconds for one of so many calls with a length, on one page after the other. The stack and the caller's bytes begin at other places
   in each round: with one place for a whole run, times of 64 bytes differed by 10% from run to run. */
static double time_of(struct row *r, const struct side *side, size_t length, size_t round)
{
    static uint8_t room[WHOLE + PLACES * PLACE];
    uint8_t *bytes = room + round / 3 % PLACES * PLACE;
    volatile uint8_t further[1 + round % PLACES * PLACE];
    uint32_t wrong = 0;
    further[0] = 0;
    double began = now();
    for (size_t k = 0; k < CALLS; k++) wrong |= call(r, side, k % r->pool.held_count, bytes, length);
    if ((wrong | further[0]) != 0) {
        fprintf(stderr, "a call with %zu bytes is refused\n", length);
        exit(1);
    }
    return (now() - began) / CALLS;
}

/* Of the quickest twentieth of all rounds the slowest. A median would say how far other programs slow a loop and how far memcpy: it
   varied by a factor of two. */
static double quick(double *times)
{
    qsort(times, ALL_ROUNDS, sizeof *times, rising);
    return times[ALL_ROUNDS / 20];
}

static void begin(struct row *r)
{
    static const struct bench_case pinned = {.count = 1, .usage = 3};
    struct bench_shape s = {.is = {.buffers = 16, .buckets = 16, .files = 1, .page = r->page, .capacity = 256, .used = 100,
                                   .relations = 1, .cap = DEFAULT_CAP}};
    pool_new(&r->pool, &s, 0);
    pool_set_back(&r->pool, &pinned);
}

static void visit(struct row *r, size_t round)
{
    for (size_t k = round; k < round + ROUNDS; k++) {
        r->brief[k] = time_of(r, &library, SHORT, k);
        r->whole[k] = time_of(r, &library, r->length, k);
        r->plain_brief[k] = time_of(r, &plain, SHORT, k);
        r->plain_whole[k] = time_of(r, &plain, r->length, k);
    }
}

/* whether the ratio is above its bound */
static int report(struct row *r)
{
    double proved = quick(r->whole) - quick(r->brief), simple = quick(r->plain_whole) - quick(r->plain_brief);
    printf("%-5s %5zu bytes, P = %5zu: %6.1f ns more than 64 bytes, memcpy %6.1f ns more, ", r->is_write ? "write" : "read", r->length,
           r->page, proved, simple);
    int above = print_ratio(proved / simple, MOST);
    printf("\n");
    return above;
}

int main(void)
{
    int above = 0;
    for (size_t k = 0; k < ROWS; k++) begin(rows + k);
    for (size_t v = 0; v < VISITS; v++)
        for (size_t k = 0; k < ROWS; k++) visit(rows + k, v * ROUNDS);
    for (size_t k = 0; k < ROWS; k++) above |= report(rows + k);
    return above;
}
