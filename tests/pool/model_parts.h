/* What the files of the model share. */
#ifndef MODEL_PARTS_H
#define MODEL_PARTS_H

#include "model.h"

/* Whether so many words are equal. */
bool same(const uint32_t *a, const uint32_t *b, size_t words);

/* The row of the file with which a name begins, or a null pointer. */
uint32_t *row_of(struct pool *p, const uint32_t *name);

/* The store's block: files lie in row order, each with its full capacity. */
uint8_t *block_of(struct pool *p, const uint32_t *name);

/* Whether the store's block may become a page: it has its checksum, or is zeros. */
bool passes(struct pool *p, const uint32_t *name);

/* Writes a page back if it is dirty, and answers how many it wrote. */
uint64_t write_back(struct pool *p, struct buffer *b);

/* The log position at the beginning of a page. */
uint64_t position_of(const uint8_t *page);
void set_position(uint8_t *page, uint64_t position);

/* Place 19; and the holder that a request names where it is passed. */
uint32_t holder_place(const struct request *q);
size_t holder_of(const struct request *q);

/* A pin of a page that is held, and a holder's calls on a buffer, with their places. */
uint32_t pin_held(struct pool *p, size_t i, const struct request *q, uint64_t *answer);
uint32_t unpin(struct pool *p, const struct request *q);
uint32_t read_page(struct pool *p, const struct request *q);
uint32_t write_page(struct pool *p, const struct request *q);
uint32_t flush(struct pool *p, const struct request *q, uint64_t *answer);

/* Gives back everything that a holder has. */
uint32_t give_back(struct pool *p, const struct request *q, uint64_t *answer);

#endif
