/* bufpool-show: prints pools from the snapshots that tills write with bufpool_dump. --help says how. */
#define _DEFAULT_SOURCE
#include <errno.h>
#include <time.h>

#include "options.h"
#include "steps.h"

enum { ROUNDS_A_SECOND = 50, MOST_POOLS = 64 };

/* The two latest snapshots of each pool in the file. */
struct pool {
    struct snapshot *before, *last;
    char told[BUFPOOL_WHY_BYTES]; /* see print_step */
};

struct reader {
    FILE *dump;
    uint64_t count, shown; /* snapshots so far, but for ends */
    int ended;             /* the one read last was an end */
    struct snapshot *next; /* where the next one is read to */
    struct pool pools[MOST_POOLS];
    size_t pools_len;
    char why[BUFPOOL_PAGE_TEXT];
};

static struct pool *pool_of(struct reader *r, uint32_t number)
{
    size_t k;
    for (k = 0; k < r->pools_len; k++) {
        if (r->pools[k].last->head.event.pool == number) return &r->pools[k];
    }
    return k < MOST_POOLS ? &r->pools[r->pools_len++] : NULL;
}

/* Files the snapshot just read with its pool; the pool's last but one makes room for the next. */
static struct pool *file_snapshot(struct reader *r, const struct options *o)
{
    struct pool *pool = pool_of(r, r->next->head.event.pool);
    struct snapshot *oldest;
    if (pool == NULL) return NULL;
    r->next->number = ++r->count;
    r->next->view.files = o->files;
    r->next->view.files_len = o->files_len;
    oldest = pool->before;
    pool->before = pool->last;
    pool->last = r->next;
    r->next = oldest != NULL ? oldest : memory(1, sizeof *r->next);
    return pool;
}

/* Reads one, waited for if the file may still grow. */
static enum reading read_or_wait(struct reader *r, int wait, uint64_t seconds)
{
    const struct timespec time = {0, 1000000000L / ROUNDS_A_SECOND};
    uint64_t round;
    enum reading found = dump_read(r->dump, r->next, r->why);
    for (round = 0; wait && !r->ended && (found == READ_END || found == READ_CUT) && round < seconds * ROUNDS_A_SECOND; round++) {
        nanosleep(&time, NULL);
        found = dump_read(r->dump, r->next, r->why);
    }
    return found;
}

/* The next snapshot that is not an end, with its pool. */
static enum reading next(struct reader *r, const struct options *o, struct pool **pool)
{
    enum reading found;
    do {
        found = read_or_wait(r, o->watching, o->wait);
        r->ended = found == READ_ONE && r->next->head.event.kind == BUFPOOL_EVENT_END;
    } while (r->ended);
    if (found != READ_ONE) return found;
    *pool = file_snapshot(r, o);
    if (*pool != NULL) return READ_ONE;
    snprintf(r->why, sizeof r->why, "of a pool too many: a file has those of at most %d", MOST_POOLS);
    return READ_BAD;
}

static int wanted(const struct options *o, const struct snapshot *s)
{
    return s->number >= o->from && (o->pool == UINT64_MAX || o->pool == s->head.event.pool) && (!o->sweeps || step_swept(s));
}

/* Several steps, or only the last one. */
static enum reading show(struct reader *r, const struct options *o)
{
    const int each = o->watching || o->from > 0 || o->sweeps;
    struct pool *pool = NULL, *last = NULL;
    enum reading found = READ_END;
    while ((!o->watching || r->shown < o->watch) && (found = next(r, o, &pool)) == READ_ONE) {
        if (!wanted(o, pool->last)) continue;
        if (each) print_step(pool->before, pool->last, o->full, pool->told);
        last = pool;
        r->shown++;
    }
    if (!each && last != NULL) print_step(last->before, last->last, 1, last->told);
    return found;
}

/* What stopped the reading, or that there was nothing to show, on standard error. Answers the program's status. */
static int say_end(const struct reader *r, const struct options *o, enum reading found)
{
    const int asked = !o->watching || o->watch > 0;
    if (found == READ_FAILED) {
        fprintf(stderr, "bufpool-show: %s: %s\n", o->path, r->why);
    } else if (found == READ_CUT || found == READ_BAD) {
        fprintf(stderr, "bufpool-show: %s: snapshot %llu is %s\n", o->path, (bufpool_shown)r->count + 1, r->why);
    } else if (asked && r->count == 0) {
        fprintf(stderr, "bufpool-show: %s: no snapshot in it\n", o->path);
    } else if (asked && r->shown == 0) {
        fprintf(stderr, "bufpool-show: %s: none of %llu snapshots is of those asked for\n", o->path, (bufpool_shown)r->count);
    } else {
        return 0;
    }
    return 1;
}

int main(int argc, char **argv)
{
    const struct options o = options_of(argv);
    static struct reader reader;
    int status;
    (void)argc;
    reader.dump = fopen(o.path, "rb");
    if (reader.dump == NULL) {
        fprintf(stderr, "bufpool-show: %s: %s\n", o.path, strerror(errno));
        return 1;
    }
    reader.next = memory(1, sizeof *reader.next);
    status = say_end(&reader, &o, show(&reader, &o));
    fclose(reader.dump);
    return fflush(stdout) != 0 || ferror(stdout) ? 1 : status;
}
