/* What a holder does with a buffer of the model's pool: another pin, unpin, read, write, flush, and give back, sentence by sentence. */
#include "model_parts.h"
#include <string.h>

uint32_t holder_place(const struct request *q)
{
    if (SLIP == 79) return 0;
    if (SLIP == 80) return (int64_t)q->holder >= HOLDERS ? 19 : 0;
    if (SLIP == 81) return (uint32_t)q->holder >= HOLDERS ? 19 : 0;
    return q->holder >= HOLDERS - (SLIP == 76) ? 19 : 0;
}

/* below 64 by place 19; a slip there takes the low bits */
size_t holder_of(const struct request *q)
{
    return q->holder % HOLDERS;
}

/* Whether a first pin raises a usage count. */
static bool is_raised(struct pool *p, uint64_t usage)
{
    uint64_t cap = SLIP == 52 ? DEFAULT_CAP : SLIP == 58 ? p->flushed : p->cap;
    if (SLIP == 62 && usage == cap) p->cap++;
    return usage < cap || (SLIP == 51 && usage == cap) || SLIP == 3;
}

/* Whether the page has as many pins as it may have, of this holder. */
static bool is_full(const struct buffer *b, size_t holder)
{
    uint32_t count = b->counts[holder];
    for (size_t h = 0; h < HOLDERS && SLIP == 71; h++)
        if (b->counts[h] == MOST_COUNT) return true;
    if (SLIP == 70) return count == 262143;
    return count >= (SLIP == 100 ? 255 : MOST_COUNT - (SLIP == 31));
}

uint32_t pin_held(struct pool *p, size_t i, const struct request *q, uint64_t *answer)
{
    struct buffer *b = &p->buffers[i];
    size_t h = holder_of(q);
    bool first = b->counts[h] == 0, alone = b->pins == 0;
    if (is_full(b, h)) return 5;
    if (SLIP == 84 ? alone : first || SLIP == 68) {
        if (is_raised(p, b->usage)) b->usage++;
    }
    if (SLIP == 85 ? alone : first) b->pins++;
    b->counts[h] = SLIP == 86 ? 1 : (uint16_t)(b->counts[h] + 1);
    answer[0] = i;
    answer[1] = 1;
    return 0;
}

/* Places 19, 7 and 8. */
static uint32_t buffer_places(struct pool *p, const struct request *q)
{
    uint32_t place = holder_place(q);
    if (place != 0 && SLIP != 78) return place;
    if (q->buffer >= p->n) return 7;
    const struct buffer *b = &p->buffers[q->buffer];
    bool by_word = SLIP == 69 || SLIP == 97 || (SLIP == 98 && q->call != UNPIN);
    if (by_word ? b->pins == 0 : b->counts[holder_of(q)] == 0) return 8;
    return place;
}

/* Slip 97: the first holder that has a pin. */
static size_t first_holder(const struct buffer *b)
{
    size_t h = 0;
    while (b->counts[h] == 0) h++;
    return h;
}

uint32_t unpin(struct pool *p, const struct request *q)
{
    uint32_t refusal = buffer_places(p, q);
    if (refusal != 0) return refusal;
    struct buffer *b = &p->buffers[q->buffer];
    uint16_t *count = &b->counts[SLIP == 97 ? first_holder(b) : holder_of(q)];
    *count = SLIP == 87 ? 0 : (uint16_t)(*count - 1);
    if (*count == 0 || SLIP == 67) b->pins--;
    if (SLIP == 29 && b->pins == 0 && b->usage > 0) b->usage--;
    return 0;
}

/* from + length above P, as an exact sum */
static bool beyond(struct pool *p, const struct request *q)
{
    if (SLIP == 17 && q->call == READ) return q->from + q->own_len > p->page_size;
    return q->own_len > p->page_size || q->from > p->page_size - q->own_len;
}

uint32_t read_page(struct pool *p, const struct request *q)
{
    uint32_t refusal = buffer_places(p, q);
    if (refusal != 0) return refusal;
    if (beyond(p, q)) return 9;
    if (q->from < p->page_size) memcpy(q->own, p->buffers[q->buffer].page + q->from, q->own_len);
    return 0;
}

static uint32_t write_places(struct pool *p, const struct request *q)
{
    uint32_t refusal = buffer_places(p, q);
    if (refusal != 0) return refusal;
    const struct buffer *b = &p->buffers[q->buffer];
    if (SLIP == 18 && q->own_len == 0) return 10;
    if (beyond(p, q) || q->from < 8) return 9;
    if (q->own_len == 0) return 10;
    if (q->position > p->inserted) return 11;
    if (SLIP == 16 || (SLIP == 23 && !b->dirty)) return 0;
    return q->position < position_of(b->page) ? 12 : 0;
}

uint32_t write_page(struct pool *p, const struct request *q)
{
    uint32_t refusal = write_places(p, q);
    if (refusal != 0) return refusal;
    struct buffer *b = &p->buffers[q->buffer];
    memcpy(b->page + q->from, q->own, q->own_len);
    set_position(b->page, q->position);
    b->dirty = b->just_dirtied = true;
    return 0;
}

uint32_t flush(struct pool *p, const struct request *q, uint64_t *answer)
{
    uint32_t refusal = buffer_places(p, q);
    if (refusal == 0) answer[0] = write_back(p, &p->buffers[q->buffer]);
    return refusal;
}

/* All that the holder has on one buffer. */
static void give_one(struct pool *p, struct buffer *b, size_t h)
{
    if (SLIP == 88 && b->usage > 0) b->usage--;
    if (SLIP == 93) write_back(p, b);
    if (SLIP != 73) b->pins -= SLIP == 99 ? b->counts[h] : SLIP == 74 ? b->pins : 1;
    if (SLIP == 74) memset(b->counts, 0, sizeof b->counts);
    b->counts[h] = 0;
}

uint32_t give_back(struct pool *p, const struct request *q, uint64_t *answer)
{
    size_t h = (holder_of(q) + (SLIP == 72)) % HOLDERS, many = 0;
    if (holder_place(q) != 0) return SLIP == 101 ? 0 : 19;
    for (size_t i = 0; i + (SLIP == 90) < p->n && (many == 0 || SLIP != 89); i++) {
        if (p->buffers[i].counts[h] == 0) continue;
        give_one(p, &p->buffers[i], h);
        many++;
    }
    if (SLIP == 92) answer[0] = many;
    return SLIP == 91 && many == 0 ? 8 : 0;
}
