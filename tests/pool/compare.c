/* compare SEED CALLS [WAY PART]: the library and the model make the same calls on the same memory, and after each their results and all
   that was lent are compared; holders' pins are looked at, and over lists of calls the plain shelf is compared too. Prints how often each
   number and each event came up; on the first difference prints what it is and ends with status 1. With WAY and PART each call touches a
   slice wrongly, which must be noticed. */
#define _GNU_SOURCE
#include "events.h"
#include "generate.h"
#include "isolation.h"
#include "model.h"
#include "print.h"
#include "shelf.h"
#include <signal.h>
#include <stdio.h>
#include <stdlib.h>
#include <string.h>
#include <unistd.h>

/* where we are, for what is said of a difference */
static const char *work;
static unsigned long seed, item, step;
static const struct request *current;
/* who is at work: a fault of the comparison itself is no difference */
enum { COMPARISON, LIBRARY, MODEL };
static volatile sig_atomic_t at_work;

static void say_where(void)
{
    printf("seed %lu, item %lu (%s), call %lu: ", seed, item, work, step);
    print_request(current);
}

static void end_different(void)
{
    print_before();
    fflush(stdout);
    _exit(1);
}

/* The library touched a page beside its slices, or wrote to a slice that is const; or the model went on with memory that is unsound. */
static void on_fault(int signal_number)
{
    (void)signal_number;
    say_where();
    printf(at_work == LIBRARY ? "the library touched memory that it was not lent, or wrote to a slice that is const in the header\n"
           : at_work == MODEL ? "a fault in the model\n"
                              : "a fault of the comparison\n");
    if (at_work != COMPARISON) end_different();
    fflush(stdout);
    _exit(3);
}

/* How many parts differ after a call; each is said. */
static int parts_differ(const struct request *q)
{
    int many = 0;
    for (int k = 0; k < PARTS; k++) {
        enum part part = (enum part)k;
        if (memcmp(library_part(part), twin_part(part), part_length(part, q) * part_sizes[k]) == 0) continue;
        if (many++ == 0) say_where();
        print_part(part, q);
    }
    return many;
}

/* The model makes the call too, and everything is compared. */
static void compare_model(const struct request *q, uint32_t result)
{
    at_work = MODEL;
    uint32_t expected = model_call(&twin, q);
    at_work = COMPARISON;
    if (result != expected) {
        say_where();
        printf("the result differs: library %u, model %u\n", (unsigned)result, (unsigned)expected);
    }
    if (result != expected || parts_differ(q) > 0) end_different();
}

static void see_isolation(const struct request *q)
{
    struct memory after = library_memory();
    const char *wrong = isolation_after(q, &after);
    if (wrong == NULL) return;
    say_where();
    printf("another holder's pins are not as before: %s\n", wrong);
    end_different();
}

static uint32_t make(const struct request *q)
{
    current = q;
    step++;
    events_before();
    isolation_before();
    keep_before();
    random_fill(twin.answer, twin.answer_len * sizeof *twin.answer);
    lent_copy_part(ANSWER, twin.answer_len, random_below(4) != 0);
    lent_copy_part(OWN, q->own_len, random_below(4) != 0);
    at_work = LIBRARY;
    uint32_t result = library_call(q);
    at_work = COMPARISON;
    if (judges != EVERY) twin_copy();
    else compare_model(q, result);
    if (result == 0 && judges != SHELF) see_isolation(q);
    events_count(q, result);
    return result;
}

static void follow(const struct request *q, uint32_t result)
{
    struct memory after = library_memory();
    const char *wrong = judges == ISOLATION ? NULL : shelf_follow(q, library_part(OWN), result, &after);
    if (wrong == NULL) return;
    say_where();
    printf("result %u; the shelf says otherwise: %s\n", (unsigned)result, wrong);
    end_different();
}

/* A set up of these sizes on memory with any contents; whether it was accepted. */
static int set_up(const struct sizes *s)
{
    struct request q = {.call = SET_UP, .page_size = s->page_size, .position = some_log(), .cap = s->cap, .own = twin_own};
    fill_unset(s, q.position);
    lent_copy();
    if (make(&q) != 0) return 0;
    struct memory after = library_memory();
    if (twin.store_len <= MOST_SHELF) shelf_begin(&after, s->page_size, q.position, q.cap);
    return 1;
}

static void set_up_must(const struct sizes *s)
{
    if (set_up(s)) return;
    printf("a set up of permitted sizes was refused\n");
    end_different();
}

/* A list of calls after a set up, followed by the shelf. */
static void run_list(void)
{
    struct sizes s = some_sizes();
    struct request q;
    unsigned many = 20 + random_below(200);
    work = "list";
    set_up_must(&s);
    new_mood();
    for (unsigned k = 0; k < many; k++) {
        if (random_below(30) == 0) new_mood();
        some_request(&q);
        follow(&q, make(&q));
    }
}

/* A few calls on memory that was built, sound or damaged. */
static void run_built(int damaged, unsigned many)
{
    struct sizes s = some_sizes();
    struct request q;
    work = damaged ? "damaged memory" : "sound memory";
    fill_sound(&s);
    if (damaged) some_damage();
    lent_copy();
    even_mood();
    for (unsigned k = 0; k < many; k++) {
        if (random_below(12) == 0) request_of(&q, SET_UP);
        else some_request(&q);
        make(&q);
    }
}

/* The greatest sizes, and those just beyond. */
static void run_great(int built, unsigned kind)
{
    struct sizes s = great_sizes(kind);
    struct request q;
    work = built ? "great sound memory" : "great list";
    if (built) {
        fill_sound(&s);
        lent_copy();
    } else if (!set_up(&s)) {
        return;
    }
    new_mood();
    for (unsigned k = 0; k < 6; k++) {
        some_request(&q);
        make(&q);
    }
}

static void follow_by(enum call call, uint64_t holder)
{
    struct request q = {.call = call, .holder = holder, .own = twin_own};
    memcpy(q.name, twin.rows, FILE_WORDS * sizeof *q.name);
    follow(&q, make(&q));
}

/* One page pinned by one holder as often as can be, and once more, while another holder's pins pass; and by all 64. */
static void run_pins(void)
{
    struct sizes s = {.n = 1, .buckets = 1, .page_size = 1024, .files = 1, .blocks = {1}, .capacity = {1}, .cap = MOST_CAP,
                      .all_pass = true};
    static const struct { enum call call; uint64_t holder; } after[] = {
        {PIN, 6}, {PIN, 5}, {PIN, 6}, {UNPIN, 5}, {PIN, 5}, {PIN, 5}, {UNPIN, 6}, {UNPIN, 6}, {UNPIN, 6}, {PIN, 5}, {PIN, 63},
        {GIVE_BACK, 5}, {UNPIN, 5}, {PIN, 5}, {GIVE_BACK, 63}, {UNPIN, 63}, {UNPIN, 5}, {UNPIN, 5}};
    work = "pins up to the greatest count";
    set_up_must(&s);
    for (unsigned k = 0; k <= MOST_COUNT; k++) follow_by(PIN, 5);
    for (size_t k = 0; k < sizeof after / sizeof *after; k++) follow_by(after[k].call, after[k].holder);
    for (uint64_t h = 0; h <= HOLDERS; h++) follow_by(PIN, h);
    for (uint64_t h = 0; h <= HOLDERS; h++) follow_by(h % 2 == 0 ? UNPIN : GIVE_BACK, h);
}

static void run_item(unsigned long kind)
{
    if (kind == 0 || judges != EVERY) run_list();
    else if (kind <= 10) run_built(0, 1 + random_below(6));
    else run_built(1, 1 + random_below(2));
}

int main(int argc, char **argv)
{
    unsigned long enough = argc == 3 || argc == 5 ? strtoul(argv[2], NULL, 10) : 0;
    if (enough == 0) return fprintf(stderr, "usage: compare SEED CALLS [WAY PART]\n"), 2;
    touch_way = argc == 5 ? (unsigned)strtoul(argv[3], NULL, 10) : 0;
    touch_part = argc == 5 ? (unsigned)strtoul(argv[4], NULL, 10) % PARTS : 0;
    seed = strtoul(argv[1], NULL, 10);
    seed_random(seed);
    lent_new();
    signal(SIGSEGV, on_fault);
    signal(SIGBUS, on_fault);
    for (; events_calls() < enough; item++, step = 0) run_item(item % 31);
    for (unsigned k = 0; k < 2 * GREAT_KINDS && judges == EVERY; k++, item++, step = 0) run_great(k % 2, k / 2);
    run_pins();
    events_print();
    return 0;
}
