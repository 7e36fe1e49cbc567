/* compare SEED CALLS [SLIP]: pools of two sizes get one list of calls after the other, and their receipts are compared call by call until
   the smaller pool answers 6. Prints how often what came up; on the first difference prints what it is and ends with status 1. With a slip
   (slip.h) there has to be one. */
#include "choice.h"
#include "print.h"
#include "slip.h"
#include "tally.h"
#include <inttypes.h>
#include <signal.h>
#include <stdio.h>
#include <stdlib.h>
#include <unistd.h>

enum { GREAT = 10000 }; /* for each so many calls one list more, for great pools */

/* where we are, for what is said of a difference */
static unsigned long seed, list;
static size_t call, barred; /* barred: the calls of the list that it may not have */
static struct sizes sizes[POOLS];
static struct asked asked;
static struct receipt got[POOLS];

static void say_where(void)
{
    const struct sizes *a = &sizes[SMALLER], *b = &sizes[LARGER];
    struct request q = resolved(&asked, &pins[SMALLER]);
    printf("seed %lu, list %lu (%zu buffers, %zu buckets, cap %" PRIu32 "; %zu, %zu, cap %" PRIu32 "), call %zu: ", seed, list, a->n,
           a->buckets, a->cap, b->n, b->buckets, b->cap, call);
    if (ON_BUFFER(asked.call)) printf("on the pin of call %zu: ", asked.pin);
    print_request(&q);
}

static void say(const char *what)
{
    say_where();
    printf("%s\n", what);
}

/* Status 1 for a difference, 3 for a fault of the comparison itself. */
static void stop(int status)
{
    fflush(stdout);
    _exit(status);
}

static void on_fault(int signal_number)
{
    (void)signal_number;
    say(pool_at_work ? "a pool touched memory that it was not lent, or wrote to a slice that is const in the header"
                     : "a fault of the comparison");
    stop(pool_at_work ? 1 : 3);
}

/* Without a slip the list is one that the theorem is about. */
static void see_permitted(void)
{
    barred += !is_permitted(&asked, &pins[SMALLER]);
    if (barred == 0 || slip == GIVEN_BACK || slip == OTHERS_PIN) return;
    say("the list names a pin that it may not name");
    stop(3);
}

static void compare_receipts(void)
{
    const char *what = receipts_differ(&got[SMALLER], &got[LARGER]);
    if (what == NULL) {
        tally_compared(sizes);
        return;
    }
    say(what);
    printf("refusal %" PRIu32 " in the smaller pool, %" PRIu32 " in the larger; calls that the list may not have: %zu\n",
           got[SMALLER].refusal, got[LARGER].refusal, barred);
    stop(1);
}

/* Asks both pools; whether the list goes on. */
static bool goes_on(void)
{
    call = pins[SMALLER].made;
    see_permitted();
    tally_before(&asked);
    pools_ask(&asked, got);
    tally_call(&asked, got);
    if (got[SMALLER].refusal == 6 && slip != AFTER_SIX) return false;
    compare_receipts();
    return true;
}

static void begin_list(void)
{
    uint64_t position = some_log();
    call = barred = 0;
    pools_end();
    fill_unset(&sizes[SMALLER], position);
    if (!pools_set_up(sizes, position)) {
        printf("seed %lu, list %lu: a set up of permitted sizes was refused\n", seed, list);
        stop(3);
    }
    tally_list(sizes, position);
    choice_begin();
}

static void run_list(void)
{
    unsigned many = 20 + random_below(200), k = 0;
    some_two_sizes(sizes);
    begin_list();
    do some_asked(&asked);
    while (goes_on() && ++k < many);
    tally_end(got);
}

/* Great pools: first so many pins, of one page after the other, that nearly every buffer of the smaller one is taken. */
static void run_great(void)
{
    unsigned many, k = 0;
    two_great_sizes(sizes);
    begin_list();
    many = (unsigned)sizes[SMALLER].n + random_below(60);
    do {
        if (k < many) next_pin(&asked);
        else some_asked(&asked);
    } while (goes_on() && ++k < many + 100);
    tally_end(got);
}

int main(int argc, char **argv)
{
    unsigned long enough = argc == 3 || argc == 4 ? strtoul(argv[2], NULL, 10) : 0;
    if (enough == 0 || (argc == 4 && !slip_set(argv[3]))) return fprintf(stderr, "usage: compare SEED CALLS [SLIP]\n"), 2;
    seed = strtoul(argv[1], NULL, 10);
    seed_random(seed);
    pools_new();
    signal(SIGSEGV, on_fault);
    signal(SIGBUS, on_fault);
    for (; tally_calls() < enough; list++) run_list();
    for (unsigned long k = 0; k < enough / GREAT && planted == 0; k++, list++) run_great();
    tally_print();
    return 0;
}
