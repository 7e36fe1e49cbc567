#define _DEFAULT_SOURCE
#include "shop.h"

#include <errno.h>
#include <fcntl.h>
#include <stdarg.h>
#include <stdlib.h>
#include <string.h>
#include <sys/mman.h>
#include <sys/stat.h>
#include <unistd.h>

#include "bufpool_why.h"
#include "sale.h"
#include "trail.h"

static const char card_mark[8] = "tillcard";

const struct bufpool_file receipts_file = {1663, 5, 16384, 0}, practice_file = {1663, 5, 16385, 0};

void stop(const char *format, ...)
{
    va_list rest;
    fflush(stdout);
    fputs("till: ", stderr);
    va_start(rest, format);
    vfprintf(stderr, format, rest);
    va_end(rest);
    fputc('\n', stderr);
    exit(1);
}

static void stop_refused(const char *call, uint32_t refusal, const char *why)
{
    stop("%s: refused, %u, %s: %s", call, refusal, bufpool_refusal_name(refusal), why);
}

void must(const struct shop *shop, const char *call, uint32_t refusal)
{
    char why[BUFPOOL_WHY_BYTES];
    if (refusal == BUFPOOL_DONE) return;
    if (bufpool_refusal_kind(refusal) == BUFPOOL_KIND_DAMAGE && bufpool_why(&shop->pool, why, sizeof why) == refusal) {
        stop_refused(call, refusal, why);
    }
    stop_refused(call, refusal, bufpool_refusal_words(refusal));
}

/* The memory that it is lent has no books yet: what is wrong with it is asked in another way than after other calls. */
static void set_up(struct shop *shop, uint64_t page, uint64_t cap)
{
    char why[BUFPOOL_WHY_BYTES];
    uint32_t refusal = bufpool_set_up_pool(&shop->pool, page, shop->card->position, cap);
    if (refusal != BUFPOOL_DONE && bufpool_why_set_up(&shop->pool, page, cap, why, sizeof why) == refusal) {
        stop_refused("set up", refusal, why);
    }
    must(shop, "set up", refusal);
}

uint32_t receipts_blocks(const struct shop *shop)
{
    return shop->card->rows[BUFPOOL_ROW_AT_BLOCKS];
}

int card_new(const char *path, const struct sizes *sizes)
{
    struct card card;
    FILE *temporary;
    off_t length = (off_t)sizes->page * (1 + (off_t)sizes->blocks);
    int fd = -1;
    if (sizes->page < 1024 || sizes->blocks < 2) stop("a card has at least 2 blocks, of at least 1024 bytes");
    if (path != NULL) {
        fd = open(path, O_RDWR | O_CREAT | O_EXCL, 0600);
    } else if ((temporary = tmpfile()) != NULL) {
        fd = dup(fileno(temporary)); /* the file is there as long as this is open */
        if (fclose(temporary) != 0) stop("no temporary card: %s", strerror(errno));
    }
    if (fd < 0) stop("no new card at %s: %s", path != NULL ? path : "a temporary place", strerror(errno));
    memset(&card, 0, sizeof card);
    memcpy(card.mark, card_mark, sizeof card_mark);
    card.page_size = sizes->page;
    card.day_block = sizes->used;
    /* one block is kept for the class; the file stays full of holes until its blocks are written */
    bufpool_fill_row(card.rows, receipts_file, sizes->used, sizes->blocks - 1);
    bufpool_fill_row(card.rows + BUFPOOL_ROW_WORDS, practice_file, 0, 1);
    if (ftruncate(fd, length) != 0 || pwrite(fd, &card, sizeof card, 0) != (ssize_t)sizeof card) {
        stop("the card cannot be written: %s", strerror(errno));
    }
    return fd;
}

int card_open(const char *path)
{
    int fd = open(path, O_RDWR);
    if (fd < 0) stop("%s: %s", path, strerror(errno));
    return fd;
}

void card_close(int fd)
{
    if (close(fd) != 0) stop("the card cannot be closed: %s", strerror(errno));
}

static void map_card(struct shop *shop, int fd)
{
    struct stat file;
    void *all;
    if (fstat(fd, &file) != 0 || (size_t)file.st_size < sizeof *shop->card) stop("this file is not a card");
    shop->card_len = (size_t)file.st_size;
    all = mmap(NULL, shop->card_len, PROT_READ | PROT_WRITE, MAP_SHARED, fd, 0);
    if (all == MAP_FAILED) stop("the card cannot be mapped: %s", strerror(errno));
    madvise(all, shop->card_len, MADV_RANDOM); /* a block is asked for by itself: reading ahead only fills memory */
    shop->card = all;
    if (memcmp(shop->card->mark, card_mark, sizeof card_mark) != 0) stop("this file is not a card");
}

/* Memory as it may come, not cleared: set up needs none that is. A byte more, so that sizes that no pool has are left to lend. */
static void *fresh(uint64_t bytes)
{
    void *memory = malloc(bytes + 1);
    if (memory == NULL) stop("no memory");
    return memset(memory, 0xA5, bytes + 1);
}

/* The power of two from twice the buffers on. */
static uint64_t buckets_for(uint32_t buffers)
{
    uint64_t buckets = 1;
    while (buckets < 2 * (uint64_t)buffers) buckets *= 2;
    return buckets;
}

void shop_start(struct shop *shop, int fd, const struct sizes *sizes)
{
    struct bufpool *m = &shop->pool;
    uint32_t buffers = sizes->buffers;
    uint64_t page, bytes, buckets = buckets_for(buffers);
    map_card(shop, fd);
    page = shop->card->page_size;
    bytes = bufpool_bytes(buffers, buckets, page);
    shop->memory = fresh(bytes);
    if (bufpool_lend(m, shop->memory, bytes, buffers, buckets, page, shop->card->rows, FILES) != BUFPOOL_DONE) {
        stop("there is no pool of %u buffers with blocks of %llu bytes", buffers, (unsigned long long)page);
    }
    m->store = (uint8_t *)shop->card + page;
    if (shop->card_len != page + m->store_len) stop("the card is not as long as its file rows say");
    if (shop->card->day_block > receipts_blocks(shop)) stop("the card's day begins behind its last block");
    shop->page_lines = shop->last_lines = (uint32_t)page / LINE_BYTES - 1;
    shop->receipts = 0;
    set_up(shop, page, sizes->cap);
    trail_note(shop, "set up at log position %llu", (unsigned long long)shop->card->position);
}

static void settle(struct card *card, size_t bytes)
{
    if (msync(card, bytes, MS_SYNC) != 0) stop("the card cannot be written: %s", strerror(errno));
}

void card_settle(const struct shop *shop)
{
    settle(shop->card, shop->card_len);
}

void card_let_go(const struct shop *shop)
{
    if (madvise(shop->card, shop->card_len, MADV_DONTNEED) != 0) stop("the card cannot be let go: %s", strerror(errno));
}

/* Of a log this example keeps only the end, among the notes: a line more, a position more. A till with a real log writes its records
   out here. */
void shop_force_log(struct shop *shop)
{
    uint64_t inserted = bufpool_inserted(&shop->pool);
    if (bufpool_flushed(&shop->pool) == inserted) return;
    shop->card->position = inserted;
    settle(shop->card, sizeof *shop->card);
    must(shop, "log flushed", bufpool_log_flushed_to(&shop->pool, inserted));
    trail_note(shop, "the log is on the card up to %llu", (unsigned long long)inserted);
}

uint32_t shop_pin(struct shop *shop, struct bufpool_holder holder, const char *who, struct bufpool_name name,
                  struct bufpool_pinned *pinned)
{
    uint32_t refusal;
    if (!bufpool_has_free(&shop->pool)) shop_force_log(shop);
    refusal = bufpool_pin_page(&shop->pool, holder, name, pinned);
    trail_pin(shop, who, name, refusal, pinned);
    return refusal;
}

void shop_checkpoint(struct shop *shop)
{
    uint64_t written;
    shop_force_log(shop);
    must(shop, "checkpoint", bufpool_checkpoint_pool(&shop->pool, &written));
    card_settle(shop);
    card_let_go(shop);
    trail_note(shop, "checkpoint: %llu pages written", (unsigned long long)written);
    printf("checkpoint: log flushed to %llu, pages written: %llu\n", (unsigned long long)bufpool_flushed(&shop->pool),
           (unsigned long long)written);
}

void shop_end(struct shop *shop)
{
    if (munmap(shop->card, shop->card_len) != 0) stop("the card cannot be unmapped: %s", strerror(errno));
    shop->card = NULL;
    free(shop->memory);
    shop->memory = NULL;
}
