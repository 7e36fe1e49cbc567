/* compare SEED COUNT ENOUGH: the library's check, the benchmark's and the judge's, on so many memories, sound ones and damaged ones, or
   until so many differ. Prints how many memories the library gave 0, 1 and 2, and on how many the benchmark's check and the judge
   differ from it. */
#include "bufbooks.h"
#include "memory.h"
#include <stdio.h>
#include <stdlib.h>

check_fn judge, plain_check;

/* a pool at the greatest sizes or just beyond them */
static struct shape great_shape(void)
{
    struct shape s = {.page = 1024, .used = 90, .dirty = 20, .runs = (int)random_below(2)};
    s.buffers = 1023 + random_below(2) + (random_below(8) == 0);
    s.buckets = 4095 + random_below(2) + (random_below(8) == 0);
    s.files = 63 + random_below(2) + (random_below(8) == 0);
    s.capacity = random_below(2) ? 1024 : 1000;
    if (random_below(4) == 0) { /* one file of all the blocks that there may be, of one less or of one more */
        s.files = 1;
        s.capacity = 65535 + random_below(3);
    }
    s.relations = (int)random_below(2);
    s.cap = some_cap();
    return s;
}

int main(int argc, char **argv)
{
    const struct shape most = {.buffers = 1024, .buckets = 4096, .files = 65, .page = 2048, .capacity = 1024};
    unsigned long count = argc == 4 ? strtoul(argv[2], NULL, 10) : 0, answers[3] = {0}, differ[2] = {0};
    /* the difference after which no further memory is looked at */
    unsigned long enough = argc == 4 ? strtoul(argv[3], NULL, 10) : 0;
    struct memory m;
    if (count == 0) return fprintf(stderr, "usage: compare SEED COUNT ENOUGH\n"), 2;
    seed_random(strtoull(argv[1], NULL, 10));
    memory_new(&m, &most);
    for (unsigned long k = 0; k < count && differ[0] + differ[1] < enough; k++) {
        struct shape s = k % 400 == 0 ? great_shape() : memory_shape();
        memory_fill(&m, &s);
        memory_damages(&m);
        if (k % 16 == 0) memory_guard(0);
        uint32_t answer = bufbooks_check(LENT(&m)), plain = plain_check(LENT(&m)), judged = judge(LENT(&m));
        if (k % 16 == 0) memory_guard(1);
        if (answer > 2) return fprintf(stderr, "memory %lu: the library answers %u\n", k, answer), 1;
        if ((plain != answer || judged != answer) && differ[0] + differ[1] == 0)
            fprintf(stderr, "memory %lu is the first that differs: library %u, plain C %u, judge %u\n", k, answer, plain, judged);
        answers[answer]++;
        differ[0] += plain != answer;
        differ[1] += judged != answer;
    }
    printf("%lu %lu %lu %lu %lu\n", answers[0], answers[1], answers[2], differ[0], differ[1]);
    return 0;
}
