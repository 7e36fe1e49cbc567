/* bench PROGRAM PLAIN ROUNDS: what a list of used pages costs, by the program and by plain C, in turn in one run, on lists of 1,000,000
   numbers in a file. Prints of each list the quickest of so many runs of both, with how much more the program's may take at most. Status 1
   if one takes more, if the two write other lines, or if one does not use every number. */
#include "memory.h"
#include "timing.h"
#include <string.h>
#include <sys/wait.h>
#include <unistd.h>

enum { USES = 1000000, SKEW = 6, MAX_ROUNDS = 1000, LINE = 80, PATIENCE = 60 };
static const double MOST = 0.1; /* seconds */

enum kind { SKEWED, UNIFORM, LOOP };
static const struct list {
    const char *words;
    enum kind kind;
    uint32_t buffers, blocks;
} lists[] = {
    {"skewed, N = 256", SKEWED, 256, 65536},
    {"uniform, N = 1,024", UNIFORM, 1024, 65536},
    {"hits only, N = 1,024", LOOP, 1024, 1024},
};
enum { LISTS = sizeof lists / sizeof *lists };

static void stop(const char *why)
{
    fprintf(stderr, "cost: %s\n", why);
    exit(1);
}

static uint32_t block_at(const struct list *l, uint32_t k)
{
    uint32_t end = l->blocks;
    if (l->kind == LOOP) return k % end;
    if (l->kind == SKEWED)
        for (int times = 0; times < SKEW; times++) end = random_below(end) + 1;
    return random_below(end);
}

/* A file with the list. */
static int written(const struct list *l)
{
    FILE *f = tmpfile();
    if (f == NULL) stop("no temporary file");
    fprintf(f, "%u\n%u\n", l->buffers, l->blocks);
    for (uint32_t k = 0; k < USES; k++) fprintf(f, "%u\n", block_at(l, k));
    if (fflush(f) != 0) stop("the list is not written");
    return fileno(f);
}

static void become(const char *program, int list, int out)
{
    if (dup2(list, 0) < 0 || dup2(out, 1) < 0) _exit(126);
    alarm(PATIENCE);
    execl(program, program, (char *)NULL);
    _exit(127);
}

/* Seconds of one run, and the line that it writes. */
static double time_of(const char *program, int list, char line[static LINE])
{
    int ends[2], status;
    size_t many = 0;
    ssize_t got;
    if (lseek(list, 0, SEEK_SET) != 0 || pipe(ends) != 0) stop("no pipe");
    double began = now();
    pid_t child = fork();
    if (child == 0) become(program, list, ends[1]);
    close(ends[1]);
    while (many < LINE - 1 && (got = read(ends[0], line + many, LINE - 1 - many)) > 0) many += (size_t)got;
    line[many] = 0;
    if (child < 0 || waitpid(child, &status, 0) != child || status != 0) stop("a program fails");
    close(ends[0]);
    return (now() - began) / 1e9;
}

/* Whether a line has three numbers, and every number of the list is a hit or a load. */
static int is_whole(const char *line)
{
    unsigned long hits, loads, probes;
    return sscanf(line, "%lu %lu %lu\n", &hits, &loads, &probes) == 3 && hits + loads == USES;
}

/* whether the program takes too long */
static int bench(const struct list *l, const char *program, const char *plain, int rounds)
{
    static double proved[MAX_ROUNDS], other[MAX_ROUNDS];
    char line[LINE], plain_line[LINE];
    int list = written(l);
    for (int k = 0; k < rounds; k++) {
        proved[k] = time_of(program, list, line);
        other[k] = time_of(plain, list, plain_line);
        if (strcmp(line, plain_line) != 0 || !is_whole(line)) stop("the programs differ, or do not use each number");
    }
    close(list);
    qsort(proved, (size_t)rounds, sizeof *proved, rising);
    qsort(other, (size_t)rounds, sizeof *other, rising);
    double more = proved[0] - other[0];
    int above = !(more <= MOST);
    printf("cost of a list, %s: %.3f s, plain C %.3f s, ratio %.2f, %.3f s more, at most %.2f%s; it is %s", l->words, proved[0], other[0],
           proved[0] / other[0], more, MOST, above ? " ABOVE" : "", line);
    fflush(stdout);
    return above;
}

int main(int argc, char **argv)
{
    int rounds = argc == 4 ? atoi(argv[3]) : 0, above = 0;
    if (rounds < 1 || rounds > MAX_ROUNDS) stop("usage: bench PROGRAM PLAIN ROUNDS");
    seed_random(1);
    for (size_t k = 0; k < LISTS; k++) above |= bench(&lists[k], argv[1], argv[2], rounds);
    return above;
}
