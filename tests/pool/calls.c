/* A request as a call with all its arguments: of the library, or of other code that takes the same ones. */
#include "calls.h"
#include "named.h"

uint32_t made_call(struct memory *m, const struct request *q)
{
    uint64_t *answer = m->answer;
    size_t words = m->answer_len;
    switch (q->call) {
    case SET_UP: return DO(set_up)(BUFPOOL_LENT(m), q->page_size, q->position, q->cap, answer, words);
    case PIN: return DO(pin)(BUFPOOL_LENT(m), q->holder, NAME_OF(q->name), answer, words);
    case UNPIN: return DO(unpin)(BUFPOOL_LENT(m), q->holder, q->buffer, answer, words);
    case READ: return DO(read)(BUFPOOL_LENT(m), q->holder, q->buffer, q->from, q->own, q->own_len, answer, words);
    case WRITE:
        return DO(write)(BUFPOOL_LENT(m), q->holder, q->buffer, q->from, q->own, q->own_len, q->position, answer, words);
    case FLUSH: return DO(flush)(BUFPOOL_LENT(m), q->holder, q->buffer, answer, words);
    case GIVE_BACK: return DO(give_back)(BUFPOOL_LENT(m), q->holder, answer, words);
    case CHECKPOINT: return DO(checkpoint)(BUFPOOL_LENT(m), answer, words);
    case PEEK: return DO(peek)(BUFPOOL_LENT(m), NAME_OF(q->name), answer, words);
    case EXTEND: return DO(extend)(BUFPOOL_LENT(m), FILE_OF(q->name), answer, words);
    case DROP: return DO(drop)(BUFPOOL_LENT(m), FILE_OF(q->name), answer, words);
    case LOG_INSERTED: return DO(log_inserted)(BUFPOOL_LENT(m), q->position, answer, words);
    case LOG_FLUSHED: return DO(log_flushed)(BUFPOOL_LENT(m), q->position, answer, words);
    default: return DO(checksum)(q->own, q->own_len, q->name[NAME_BLOCK], answer, words);
    }
}
