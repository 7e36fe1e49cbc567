/* The hash of a page name: the library's and plain C's, in turn in one run; one hash after the other, where which name is next depends
   on the hash before, and many side by side. On names as a shop's pool has them, on any words, and on names of which half the words are
   small, which no pool has: there nobody can foresee how many bytes a fork or a block has. Beside it plain C with the library's short
   cuts. Status 1 if two differ in a hash, or if a ratio to plain C is above its bound. */
#include "plain.h"
#include "buftag.h"
#include "memory.h"
#include "timing.h"

enum { ROUNDS = 801, NAMES = 4096 };
enum kind { SHOP, ANY, HALF, KINDS };
static const struct {
    const char *words;
    double most; /* 0: no bound */
} kinds[KINDS] = {{"a shop's names", 1.00}, {"any words", 1.00}, {"half of them small", 0}};

typedef __typeof__(buftag_hash) hash_fn;
typedef double time_fn(hash_fn *hash);
static uint32_t names[NAMES][NAME_WORDS];
static volatile uint32_t seen; /* so that no hash is left out */

/* Nanoseconds for a hash. */
static double one_after_the_other(hash_fn *hash)
{
    uint32_t h = 0;
    double began = now();
    for (uint32_t k = 0; k < NAMES; k++) {
        const uint32_t *name = names[(h + k) % NAMES];
        h = hash(NAME_OF(name));
    }
    seen = h;
    return (now() - began) / NAMES;
}

static double side_by_side(hash_fn *hash)
{
    uint32_t sum = 0;
    double began = now();
    for (uint32_t k = 0; k < NAMES; k++) sum += hash(NAME_OF(names[k]));
    seen = sum;
    return (now() - began) / NAMES;
}

/* whether the ratio is above its bound */
static int bench(enum kind kind, const char *how, time_fn *time_of)
{
    static double proved[ROUNDS], plain[ROUNDS], ratio[ROUNDS], to_short[ROUNDS];
    int above = 0;
    for (size_t k = 0; k < ROUNDS; k++) {
        proved[k] = time_of(buftag_hash);
        plain[k] = time_of(plain_hash);
        ratio[k] = proved[k] / plain[k];
        to_short[k] = proved[k] / time_of(short_hash);
    }
    printf("hash, %s, %s: %.1f ns, plain C %.1f ns, ", kinds[kind].words, how, median(proved, ROUNDS), median(plain, ROUNDS));
    if (kinds[kind].most > 0) above = print_ratio(median(ratio, ROUNDS), kinds[kind].most);
    else printf("ratio %.3f, no bound", median(ratio, ROUNDS));
    printf("; to plain C with the short cuts %.3f\n", median(to_short, ROUNDS));
    return above;
}

static uint32_t any_word(void)
{
    return random_below(65536) << 16 | random_below(65536);
}

static void fill(enum kind kind)
{
    for (size_t k = 0; k < NAMES; k++) {
        const uint32_t shop[NAME_WORDS] = {1663, 5, 16384 + random_below(200), random_below(3), random_below(65536)};
        for (size_t j = 0; j < NAME_WORDS; j++)
            names[k][j] = kind == SHOP ? shop[j] : kind == HALF && random_below(2) ? random_below(256) : any_word();
    }
}

static void compare(void)
{
    for (size_t k = 0; k < NAMES; k++) {
        uint32_t h = buftag_hash(NAME_OF(names[k]));
        if (plain_hash(NAME_OF(names[k])) != h || short_hash(NAME_OF(names[k])) != h) {
            fprintf(stderr, "plain C has another hash\n");
            exit(1);
        }
    }
}

int main(void)
{
    int above = 0;
    seed_random(1);
    for (enum kind kind = SHOP; kind < KINDS; kind++) {
        fill(kind);
        compare();
        above |= bench(kind, "one after the other", one_after_the_other);
        above |= bench(kind, "side by side", side_by_side);
    }
    return above;
}
