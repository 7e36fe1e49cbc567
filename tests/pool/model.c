/* Between lent words and the model's buffers and lists. */
#include "model.h"
#include <string.h>

check_fn judge;

void list_add(struct list *l, size_t i)
{
    l->at[l->many++] = i;
}

void list_put_first(struct list *l, size_t i)
{
    memmove(l->at + 1, l->at, l->many++ * sizeof *l->at);
    l->at[0] = i;
}

void list_remove(struct list *l, size_t i)
{
    size_t k = 0;
    while (l->at[k] != i) k++;
    memmove(l->at + k, l->at + k + 1, (--l->many - k) * sizeof *l->at);
}

/* document 01's bits of the state word */
static void unpack_word(uint32_t word, struct buffer *b)
{
    b->used = word != 0;
    b->pins = word & 0x3FFFF;
    b->usage = word >> 18 & 15;
    b->dirty = word >> 23 & 1;
    b->just_dirtied = word >> 28 & 1;
}

static uint32_t pack_word(const struct buffer *b)
{
    uint32_t flags = 1u << 24 | 1u << 25 | 1u << 31 | (uint32_t)b->dirty << 23 | (uint32_t)b->just_dirtied << 28;
    return b->used ? flags | b->usage << 18 | b->pins : 0;
}

/* a sound list of links leads through buffers alone and ends at -1 */
static void unpack_list(int64_t link, const int32_t *links, struct list *l)
{
    for (; link != -1; link = links[link]) list_add(l, (size_t)link);
}

/* Where the private counts have a holder's of a buffer. */
static size_t count_at(size_t n, size_t i, size_t holder)
{
    return SLIP == 75 ? holder * n + i : i * HOLDERS + holder;
}

void unpack(const struct memory *m, struct pool *p)
{
    p->n = m->states_len;
    p->buckets = m->heads_len;
    p->page_size = m->control[CONTROL_SIZE];
    p->files = m->rows_len / ROW_WORDS;
    p->hand = m->control[CONTROL_HAND];
    p->inserted = m->control[CONTROL_INSERTED];
    p->flushed = m->control[CONTROL_FLUSHED];
    p->cap = m->control[CONTROL_CAP];
    p->rows = m->rows;
    p->store = m->store;
    p->free.many = p->table.many = 0;
    unpack_list(m->control[CONTROL_TOP] == UINT64_MAX ? -1 : (int64_t)m->control[CONTROL_TOP], m->free, &p->free);
    for (size_t k = 0; k < p->buckets; k++) unpack_list(m->heads[k], m->chain, &p->table);
    for (size_t i = 0; i < p->n; i++) {
        unpack_word(m->states[i], &p->buffers[i]);
        memcpy(p->buffers[i].name, m->names + NAME_WORDS * i, sizeof p->buffers[i].name);
        p->buffers[i].page = m->pool + i * p->page_size;
        for (size_t h = 0; h < HOLDERS; h++) p->buffers[i].counts[h] = m->counts[count_at(p->n, i, h)];
    }
}

static void pack_free(const struct pool *p, struct memory *m)
{
    for (size_t i = 0; i < p->n; i++) m->free[i] = -2;
    for (size_t k = 0; k < p->free.many; k++)
        m->free[p->free.at[k]] = k + 1 < p->free.many ? (int32_t)p->free.at[k + 1] : -1;
}

/* from the table's end on, so that each chain has the table's order */
static void pack_chains(const struct pool *p, struct memory *m)
{
    for (size_t k = 0; k < p->buckets; k++) m->heads[k] = -1;
    for (size_t i = 0; i < p->n; i++) m->chain[i] = -1;
    for (size_t k = p->table.many; k-- > 0;) {
        size_t i = p->table.at[k];
        int32_t *head = &m->heads[name_hash(p->buffers[i].name) % p->buckets];
        m->chain[i] = *head;
        *head = (int32_t)i;
    }
}

void pack(const struct pool *p, struct memory *m)
{
    m->control[CONTROL_SIZE] = p->page_size;
    m->control[CONTROL_HAND] = p->hand;
    m->control[CONTROL_TOP] = p->free.many > 0 ? p->free.at[0] : UINT64_MAX;
    m->control[CONTROL_INSERTED] = p->inserted;
    m->control[CONTROL_FLUSHED] = p->flushed;
    m->control[CONTROL_CAP] = p->cap;
    for (size_t i = 0; i < p->n; i++) {
        m->states[i] = pack_word(&p->buffers[i]);
        memcpy(m->names + NAME_WORDS * i, p->buffers[i].name, sizeof p->buffers[i].name);
        for (size_t h = 0; h < HOLDERS; h++) m->counts[count_at(p->n, i, h)] = p->buffers[i].counts[h];
    }
    pack_free(p, m);
    pack_chains(p, m);
}

bool is_page_size(uint64_t bytes)
{
    return bytes == 1024 || bytes == 2048 || bytes == 4096 || bytes == 8192 || bytes == 16384 || bytes == 32768;
}

/* The judge takes the block size from a control record: it is given one that has nothing else, as long as the lent one. */
bool sizes_hold_for(const struct memory *m, uint64_t page_size)
{
    uint64_t control[MOST_CONTROL] = {[CONTROL_SIZE] = page_size, [CONTROL_TOP] = UINT64_MAX};
    struct memory sized = *m;
    sized.control = control;
    return judge(LENT(&sized)) != 1;
}
