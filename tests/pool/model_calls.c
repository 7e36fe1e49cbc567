/* The thirteen calls on the model's pool, sentence by sentence, and the checksum of a page. What a holder does with a buffer is in
   model_buffer.c, a page and its block in model_pages.c. */
#include "model_parts.h"
#include "sum.h"
#include <string.h>

check_fn judge;

/* The buffer that has the page, or n. */
static size_t held(struct pool *p, const uint32_t *name)
{
    for (size_t i = 0; i < p->n; i++)
        if (p->buffers[i].used && same(p->buffers[i].name, name, NAME_WORDS)) return i;
    return p->n;
}

/* Whoever has the pin; slip 95 goes by the holder that asks. */
static bool is_pinned(const struct buffer *b, size_t holder)
{
    return SLIP == 95 ? b->counts[holder] > 0 : b->pins > 0;
}

/* The sweep: the buffer taken, or n after N probes in a row that found pinned ones. */
static size_t sweep(struct pool *p, size_t holder, uint64_t *probes)
{
    size_t in_a_row = 0, enough = SLIP == 6 && p->n > 1 ? p->n - 1 : p->n;
    while (in_a_row < enough && (SLIP != 61 || *probes < (DEFAULT_CAP + 1) * p->n)) {
        size_t i = p->hand;
        struct buffer *b = &p->buffers[i];
        bool pinned = is_pinned(b, holder);
        p->hand = i + 1 < p->n ? i + 1 : SLIP == 12 ? i : 0;
        ++*probes;
        if (SLIP == 4 && pinned && b->usage > 0) b->usage--;
        if (SLIP == 1 && !pinned && b->usage > 0) b->usage--;
        if (SLIP == 1 && *probes > p->n) return p->n;
        in_a_row = pinned ? in_a_row + 1 : 0;
        if (!pinned && b->usage == 0) return i;
        if (!pinned && SLIP != 1) b->usage--;
    }
    return p->n;
}

/* The buffer gets the page: pin and usage counts 1, the holder's count too, clean. */
static void load(struct pool *p, size_t i, const uint32_t *name, size_t holder)
{
    struct buffer *b = &p->buffers[i];
    memcpy(b->page, block_of(p, name), SLIP == 37 ? p->page_size - 1 : p->page_size);
    memcpy(b->name, name, sizeof b->name);
    b->used = true;
    b->dirty = b->just_dirtied = false;
    b->pins = 1;
    b->usage = SLIP == 24 ? 0 : 1;
    b->counts[SLIP == 82 ? 0 : holder] = SLIP != 83;
    if (SLIP == 11) list_add(&p->table, i);
    else list_put_first(&p->table, i);
}

/* Slip 5: the victim's buffer is filled before its page is written back. */
static uint64_t write_back_late(struct pool *p, struct buffer *b, const uint32_t *name)
{
    if (b->dirty) memcpy(b->page, block_of(p, name), p->page_size);
    return write_back(p, b);
}

static uint32_t pin_miss(struct pool *p, const uint32_t *name, size_t holder, uint64_t *answer)
{
    size_t i;
    if (p->free.many > 0) {
        i = p->free.at[SLIP == 25 ? p->free.many - 1 : 0];
        list_remove(&p->free, i);
        answer[3] = SLIP == 14;
    } else {
        i = sweep(p, holder, &answer[3]);
        if (i == p->n) return 6;
        if (SLIP == 43 && !passes(p, name)) return 17;
        answer[2] = SLIP == 5 ? write_back_late(p, &p->buffers[i], name) : write_back(p, &p->buffers[i]);
        if (SLIP == 13) answer[2] = 0;
        list_remove(&p->table, i);
    }
    load(p, i, name, holder);
    answer[0] = i;
    return 0;
}

static uint32_t name_places(struct pool *p, const uint32_t *name)
{
    uint32_t *row = row_of(p, name);
    if (row == NULL) return 3;
    return name[NAME_BLOCK] >= row[ROW_BLOCKS] ? 4 : 0;
}

static uint32_t pin(struct pool *p, const struct request *q, uint64_t *answer)
{
    uint32_t holder = holder_place(q), refusal = name_places(p, q->name);
    size_t i = held(p, q->name);
    if (holder != 0 && (SLIP != 77 || refusal != 3)) return holder;
    if (refusal != 0) return refusal;
    if ((i == p->n || SLIP == 42) && (SLIP != 43 || p->free.many > 0) && !passes(p, q->name)) return 17;
    return i == p->n ? pin_miss(p, q->name, holder_of(q), answer) : pin_held(p, i, q, answer);
}

static uint32_t checkpoint(struct pool *p, uint64_t *answer)
{
    for (size_t i = 0; i < p->n; i++) {
        if (SLIP == 32 && p->buffers[i].pins > 0) continue;
        answer[0] += write_back(p, &p->buffers[i]);
        if (SLIP == 33 && answer[0] == 1) return 0;
    }
    return 0;
}

static uint32_t peek(struct pool *p, const struct request *q, uint64_t *answer)
{
    uint32_t refusal = name_places(p, q->name);
    size_t i = held(p, q->name);
    if (refusal != 0) return refusal;
    if ((i == p->n || SLIP == 42) && SLIP != 46 && !passes(p, q->name)) return 17;
    answer[0] = i < p->n && SLIP != 22;
    answer[1] = answer[0] ? i * p->page_size : (uint64_t)(block_of(p, q->name) - p->store);
    return 0;
}

static uint32_t extend(struct pool *p, const struct request *q, uint64_t *answer)
{
    uint32_t *row = row_of(p, q->name);
    if (row == NULL) return 3;
    if (row[ROW_BLOCKS] == row[ROW_CAPACITY]) return 13;
    uint32_t name[NAME_WORDS];
    memcpy(name, row, FILE_WORDS * sizeof *name);
    name[NAME_BLOCK] = row[ROW_BLOCKS];
    if (SLIP != 9) memset(block_of(p, name), 0, p->page_size);
    answer[0] = row[ROW_BLOCKS]++;
    return 0;
}

/* The buffer is emptied and put on top of the free list. */
static void release(struct pool *p, size_t i)
{
    struct buffer *b = &p->buffers[i];
    if (SLIP == 28) memset(b->page, 0, p->page_size);
    if (SLIP == 34) write_back(p, b);
    list_remove(&p->table, i);
    list_put_first(&p->free, i);
    b->used = false;
    memset(b->name, 0, sizeof b->name);
}

static uint32_t drop(struct pool *p, const struct request *q)
{
    uint32_t *row = row_of(p, q->name);
    if (row == NULL) return 3;
    for (size_t i = 0; i < p->n; i++) {
        bool pinned = SLIP == 96 ? p->buffers[i].counts[0] > 0 : p->buffers[i].pins > 0;
        if (p->buffers[i].used && same(p->buffers[i].name, row, FILE_WORDS) && pinned) return 14;
    }
    for (size_t k = 0; k < p->n; k++) {
        size_t i = SLIP == 8 ? p->n - 1 - k : k;
        if (p->buffers[i].used && same(p->buffers[i].name, row, FILE_WORDS)) release(p, i);
    }
    if (SLIP == 30) p->hand = 0;
    if (SLIP != 15) row[ROW_BLOCKS] = 0;
    return 0;
}

static uint32_t log_inserted(struct pool *p, const struct request *q)
{
    if (q->position < p->inserted) return 15;
    p->inserted = q->position;
    return 0;
}

static uint32_t log_flushed(struct pool *p, const struct request *q)
{
    if (q->position > p->inserted) return 16;
    if (q->position > p->flushed || SLIP == 20) p->flushed = q->position;
    return 0;
}

static void set_up(struct memory *m, const struct request *q)
{
    static struct pool p;
    memset(&p, 0, sizeof p);
    p.n = m->states_len;
    p.buckets = m->heads_len;
    p.page_size = q->page_size;
    p.inserted = p.flushed = q->position;
    p.cap = SLIP == 59 ? m->control[CONTROL_CAP] : SLIP == 60 ? DEFAULT_CAP : q->cap;
    for (size_t i = 0; i < p.n; i++) {
        list_add(&p.free, SLIP == 26 ? p.n - 1 - i : i);
        if (SLIP == 94) memcpy(p.buffers[i].counts, m->counts + HOLDERS * i, sizeof p.buffers[i].counts);
    }
    if (SLIP == 27) memset(m->pool, 0, m->pool_len);
    pack(&p, m);
}

static uint32_t act(struct pool *p, const struct request *q, uint64_t *answer)
{
    switch (q->call) {
    case PIN: return pin(p, q, answer);
    case UNPIN: return unpin(p, q);
    case READ: return read_page(p, q);
    case WRITE: return write_page(p, q);
    case FLUSH: return flush(p, q, answer);
    case GIVE_BACK: return give_back(p, q, answer);
    case CHECKPOINT: return checkpoint(p, answer);
    case PEEK: return peek(p, q, answer);
    case EXTEND: return extend(p, q, answer);
    case DROP: return drop(p, q);
    case LOG_INSERTED: return log_inserted(p, q);
    default: return log_flushed(p, q);
    }
}

/* It touches no pool. A refusal's words are zeros; an answer of another length stays untouched. */
static uint32_t checksum(struct memory *m, const struct request *q)
{
    bool good = is_page_size(q->own_len);
    if (m->answer_len != ANSWER_WORDS) return 1;
    if (good || SLIP != 50) memset(m->answer, 0, ANSWER_WORDS * sizeof *m->answer);
    if (good) m->answer[0] = page_sum(q->own, q->own_len, q->name[NAME_BLOCK]);
    return good ? 0 : 1;
}

/* Places 1 and 18. */
static uint32_t set_up_places(struct memory *m, const struct request *q)
{
    uint64_t cap = SLIP == 56 ? (uint32_t)q->cap : SLIP == 57 ? (uint8_t)q->cap : SLIP == 64 ? q->cap & INT64_MAX : q->cap;
    bool permitted = (cap > (SLIP == 65) || SLIP == 53) && cap <= MOST_CAP + (SLIP == 54) - (SLIP == 66);
    if (SLIP == 55 && !permitted) return 18;
    if (!sizes_hold_for(m, q->page_size)) return 1;
    if (SLIP == 63) m->control[CONTROL_CAP] = cap;
    return permitted ? 0 : 18;
}

/* Places 1, and 18 or 2. */
static uint32_t memory_places(struct memory *m, const struct request *q)
{
    return q->call == SET_UP ? set_up_places(m, q) : judge(LENT(m));
}

uint32_t model_call(struct memory *m, const struct request *q)
{
    static struct pool p;
    uint64_t answer[ANSWER_WORDS] = {0};
    if (q->call == CHECKSUM) return checksum(m, q);
    uint32_t refusal = memory_places(m, q);
    if (m->answer_len != ANSWER_WORDS && SLIP != 35) return 1;
    if (refusal == 0 && q->call == SET_UP) {
        set_up(m, q);
    } else if (refusal == 0) {
        unpack(m, &p);
        refusal = act(&p, q, answer);
        if (refusal == 0) pack(&p, m);
    }
    if (SLIP == 36 && refusal != 0) return refusal;
    for (size_t k = 0; k < ANSWER_WORDS && k < m->answer_len; k++) m->answer[k] = refusal == 0 ? answer[k] : 0;
    return refusal;
}
