/* What the programs of cases share: numbers that are expected, a line for each case, and at the end the counts. */
#ifndef EXPECT_H
#define EXPECT_H

#include <inttypes.h>
#include <stdio.h>

static const char *current;
static unsigned wrong, passed, failed;

static void expect(const char *what, uint64_t got, uint64_t wanted)
{
    if (got == wanted) return;
    printf("%s: %s is %" PRIu64 " (0x%" PRIX64 "), not %" PRIu64 " (0x%" PRIX64 ")\n", current, what, got, got, wanted, wanted);
    wrong++;
}

static void begin(const char *name)
{
    current = name;
    wrong = 0;
}

static void end(void)
{
    printf("%s: %s\n", wrong == 0 ? "passed" : "FAILED", current);
    if (wrong == 0) passed++;
    else failed++;
}

/* Runs the cases one after the other; the status of the program. */
static int run_cases(void (*const *cases)(void), size_t many)
{
    for (size_t k = 0; k < many; k++) cases[k]();
    printf("%u %u\n", passed, failed);
    return failed != 0;
}

#endif
