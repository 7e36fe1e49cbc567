/* A bakery's training morning: four tills over one pool, a checkpoint, and a second start that reads the day back from the card. Before it
   the class's till dies with a page pinned, and another gives back what it had.

   Takeaway food that is sold cold has no tax in it, hot food has 20 % (as in the United Kingdom). At till 1 somebody learns: a pie
   that is warmed is pressed as cold, made void, and pressed as hot. The others sell bread, with lines on the same pages. With --mornings
   the day has several such mornings, and more pages.

   Each till does a step of its morning in its turn. One that is refused a page with 6 stays at its step and asks again in its next
   turn, after others have given pages back. Any other refusal is a mistake in this program or a damaged card, of which 17 says that a page
   has changed on it since it was written back: it stops with the reason. */
#define _DEFAULT_SOURCE
#include <stdlib.h>
#include <string.h>
#include <sys/resource.h>
#include <time.h>

#include "day.h"
#include "sale.h"
#include "trail.h"

static const struct product pie_cold = {"meat pie, cold", 360, 0}, pie_hot = {"meat pie, hot", 360, 20}, coffee = {"coffee", 250, 20},
                            loaf = {"white loaf", 160, 0}, wholemeal = {"wholemeal loaf", 185, 0}, roll = {"roll", 45, 0};

enum action { HOME = 0, SELL, VOID, CASH, CARD, WAIT };

struct step {
    enum action action;
    uint32_t count;
    const struct product *product;
};

enum { STEPS = 12 };

/* A till that has done its last step goes home: the places that are not filled say so. */
static const struct step morning[TILLS][STEPS] = {
    {{SELL, 1, &pie_cold}, {VOID, 0, 0}, {SELL, 1, &pie_hot}, {WAIT, 0, 0}, {WAIT, 0, 0}, {CASH, 0, 0}, {SELL, 2, &coffee}, {CASH, 0, 0}},
    {{SELL, 4, &loaf}, {CASH, 0, 0}, {SELL, 6, &loaf}, {WAIT, 0, 0}, {CASH, 0, 0}, {SELL, 1, &pie_cold}, {CARD, 0, 0}},
    {{SELL, 3, &wholemeal}, {CASH, 0, 0}, {SELL, 12, &roll}, {SELL, 12, &wholemeal}, {WAIT, 0, 0}, {WAIT, 0, 0}, {CARD, 0, 0},
     {SELL, 1, &loaf}, {CASH, 0, 0}},
    {{SELL, 2, &roll}, {SELL, 1, &coffee}, {CASH, 0, 0}, {SELL, 5, &roll}, {CASH, 0, 0}},
};

struct options {
    struct sizes sizes;
    uint32_t look_back, mornings, pause;
    int read_only, memory;
    const char *trail, *card;
};

/* Presses what is left of a step's lines. */
static uint32_t sell(struct shop *shop, struct till *till, const struct step *step)
{
    for (; till->pressed < step->count; till->pressed++) {
        uint32_t refusal = sale_press(shop, till, step->product);
        if (refusal != BUFPOOL_DONE) return refusal;
    }
    till->pressed = 0;
    printf("till %u  receipt %2u  %2u x %-18s" MONEY " each  %2u %%\n", till->number, till->receipt, step->count, step->product->name,
           POUNDS(step->product->pence), step->product->rate);
    return BUFPOOL_DONE;
}

static void pay(struct shop *shop, struct till *till, int by_card)
{
    uint32_t receipt = till->receipt;
    sale_pay(shop, till, by_card);
    printf("till %u  receipt %2u  paid" MONEY " %s\n", till->number, receipt, POUNDS(till->pence), by_card ? "by card" : "in cash");
}

static uint32_t do_step(struct shop *shop, struct till *till, const struct step *step)
{
    switch (step->action) {
    case SELL:
        return sell(shop, till, step);
    case VOID:
        sale_void(shop, till);
        printf("till %u  receipt %2u  void: %s, %u %%\n", till->number, till->receipt, till->last.item, till->last.rate);
        break;
    case CASH:
    case CARD:
        pay(shop, till, step->action == CARD);
        break;
    case WAIT:
    case HOME:
        break;
    }
    return BUFPOOL_DONE;
}

/* A till's turn: 1 if it is a step further. */
static int turn(struct shop *shop, struct till *till)
{
    const struct step *step = &morning[till->number - 1][till->step];
    uint32_t refusal;
    if (step->action == HOME) return 0;
    refusal = do_step(shop, till, step);
    if (refusal == BUFPOOL_DONE) {
        till->step++;
        return 1;
    }
    printf("till %u              page %u: refused, %u: %s; asks again later\n", till->number, receipts_blocks(shop) - 1,
           refusal, bufpool_refusal_words(refusal));
    return 0;
}

static void sleep_for(uint32_t milliseconds)
{
    struct timespec time = {milliseconds / 1000, (long)(milliseconds % 1000) * 1000000};
    fflush(stdout);
    nanosleep(&time, NULL);
}

static void work_morning(struct shop *shop, uint32_t pause)
{
    struct till tills[TILLS];
    uint32_t k;
    int further;
    memset(tills, 0, sizeof tills);
    for (k = 0; k < TILLS; k++) tills[k].number = k + 1;
    do {
        for (further = 0, k = 0; k < TILLS; k++) further += turn(shop, &tills[k]);
        if (pause > 0) sleep_for(pause);
    } while (further > 0);
    for (k = 0; k < TILLS; k++) {
        if (morning[k][tills[k].step].action != HOME) stop("till %u waits for a page, and no till can give one back", k + 1);
    }
}

static uint32_t number(const char *option, const char *text)
{
    char *end = NULL;
    unsigned long value = text != NULL && *text >= '0' && *text <= '9' ? strtoul(text, &end, 10) : 0;
    if (end == NULL || *end != '\0' || value > BUFPOOL_MAX_BLOCKS) {
        fprintf(stderr, "till: %s takes a number from 0 to %d\n", option, BUFPOOL_MAX_BLOCKS);
        exit(2);
    }
    return (uint32_t)value;
}

static void usage(void)
{
    fputs("usage: till [--buffers N] [--cap N] [--page P] [--blocks N] [--used N] [--look-back N] [--mornings N]\n"
          "            [--pause MS] [--memory] [--trail FILE] [CARD]\n"
          "                                       a new card; a temporary one if no name is given\n"
          "       till --read CARD                reads back the day of a card made before\n", stderr);
    exit(2);
}

static struct options options_of(char **arg)
{
    struct options o = {{3, BUFPOOL_DEFAULT_CAP, 1024, 8, 0}, 0, 1, 0, 0, 0, NULL, NULL};
    struct { const char *name; uint32_t *value; } numbers[] = {
        {"--buffers", &o.sizes.buffers}, {"--cap", &o.sizes.cap}, {"--page", &o.sizes.page}, {"--blocks", &o.sizes.blocks},
        {"--used", &o.sizes.used}, {"--look-back", &o.look_back}, {"--mornings", &o.mornings}, {"--pause", &o.pause}};
    size_t k, count = sizeof numbers / sizeof *numbers;
    while (*++arg != NULL) {
        for (k = 0; k < count && strcmp(*arg, numbers[k].name) != 0; k++) continue;
        if (k < count) {
            *numbers[k].value = number(arg[0], arg[1]);
            arg++;
        } else if (strcmp(*arg, "--read") == 0) {
            o.read_only = 1;
        } else if (strcmp(*arg, "--memory") == 0) {
            o.memory = 1;
        } else if (strcmp(*arg, "--trail") == 0 && arg[1] != NULL) {
            o.trail = *++arg;
        } else if (**arg == '-' || o.card != NULL) {
            usage();
        } else {
            o.card = *arg;
        }
    }
    if (o.read_only && o.card == NULL) usage();
    return o;
}

static void first_start(struct shop *shop, int fd, const struct options *o)
{
    uint32_t k;
    shop_start(shop, fd, &o->sizes);
    printf("first start: %u buffers, %u blocks of %u bytes on the card, %u lines on a page\n",
           o->sizes.buffers, o->sizes.blocks, o->sizes.page, shop->page_lines);
    day_look_back(shop, o->look_back);
    sale_practice(shop, &pie_cold);
    for (k = 0; k < o->mornings; k++) work_morning(shop, o->pause);
    day_peek(shop);
    shop_checkpoint(shop);
    shop_end(shop);
}

int main(int argc, char **argv)
{
    struct options o = options_of(argv);
    struct shop shop;
    struct rusage use;
    int fd = o.read_only ? card_open(o.card) : card_new(o.card, &o.sizes);
    (void)argc;
    memset(&shop, 0, sizeof shop);
    if (o.trail != NULL) shop.trail = trail_new(o.trail);
    if (!o.read_only) first_start(&shop, fd, &o);
    shop_start(&shop, fd, &o.sizes);
    printf("second start: fresh memory, log position %llu\n", (unsigned long long)shop.card->position);
    day_read_back(&shop);
    trail_end(&shop);
    shop_end(&shop);
    card_close(fd);
    if (o.memory && getrusage(RUSAGE_SELF, &use) == 0) fprintf(stderr, "resident at most %ld KiB\n", use.ru_maxrss);
    return 0;
}
