/* The checksum of a page: the library's, PostgreSQL's own (its public header, compiled as bench/run says) and plain C's, in turn in one
   run, at each block size. Status 1 if one gives another sum, or if the ratio to PostgreSQL's at a block size is above its bound. */
#include "plain.h"
#include "memory.h"
#include "timing.h"
#include <string.h>

enum { ROUNDS = 801, PAGES = 16, BYTES = 1 << 20 };
static const double MOST = 1.00;

typedef uint16_t published_fn(char *page, uint32_t block);
published_fn published_1024, published_2048, published_4096, published_8192, published_16384, published_32768;
typedef __typeof__(bufpool_checksum) checksum_fn;

static const struct row {
    size_t page;
    published_fn *published;
} rows[] = {{1024, published_1024}, {2048, published_2048},   {4096, published_4096},
            {8192, published_8192}, {16384, published_16384}, {32768, published_32768}};

static _Alignas(64) uint8_t pages[PAGES * BUFPOOL_MAX_PAGE];

/* Nanoseconds for a page, and the sum of all checksums, by a function of the interface or, if there is none, by PostgreSQL's. */
static double time_of(const struct row *r, checksum_fn *checksum, uint64_t *sum)
{
    uint64_t answer[BUFPOOL_ANSWER_WORDS] = {0};
    uint32_t wrong = 0, calls = (uint32_t)(BYTES / r->page);
    *sum = 0;
    double began = now();
    for (uint32_t k = 0; k < calls; k++) {
        uint8_t *page = pages + k % PAGES * r->page;
        if (checksum == NULL) answer[0] = r->published((char *)page, k);
        else wrong |= checksum(page, r->page, k, answer, BUFPOOL_ANSWER_WORDS);
        *sum += answer[0];
    }
    double spent = now() - began;
    if (wrong != 0) {
        fprintf(stderr, "a checksum is refused\n");
        exit(1);
    }
    return spent / calls;
}

/* whether the ratio is above its bound */
static int bench(const struct row *r)
{
    static double proved[ROUNDS], published[ROUNDS], simple[ROUNDS], ratio[ROUNDS];
    uint64_t sums[3];
    int above = 0;
    for (size_t k = 0; k < ROUNDS; k++) {
        proved[k] = time_of(r, bufpool_checksum, sums);
        published[k] = time_of(r, NULL, sums + 1);
        simple[k] = time_of(r, plain_checksum, sums + 2);
        ratio[k] = proved[k] / published[k];
        if (sums[0] != sums[1] || sums[2] != sums[1]) {
            fprintf(stderr, "P = %zu: a checksum is not PostgreSQL's\n", r->page);
            exit(1);
        }
    }
    printf("checksum, P = %5zu: %6.0f ns, checksum_impl.h %6.0f ns, plain C %6.0f ns, ", r->page, median(proved, ROUNDS),
           median(published, ROUNDS), median(simple, ROUNDS));
    above = print_ratio(median(ratio, ROUNDS), MOST);
    printf("\n");
    return above;
}

int main(void)
{
    int above = 0;
    seed_random(1);
    for (size_t k = 0; k < sizeof pages; k++) pages[k] = (uint8_t)random_below(256);
    for (size_t k = 0; k < sizeof rows / sizeof *rows; k++) above |= bench(rows + k);
    return above;
}
