/* One of the thirteen calls, or the checksum of a page, with its own arguments, as the library, the model and the shelf are asked it. */
#ifndef REQUEST_H
#define REQUEST_H

#include "../layout.h"
#include <stddef.h>
#include <stdint.h>

enum call {
    SET_UP, PIN, UNPIN, READ, WRITE, FLUSH, GIVE_BACK, CHECKPOINT, PEEK, EXTEND, DROP, LOG_INSERTED, LOG_FLUSHED, CHECKSUM, CALLS
};

struct request {
    enum call call;
    uint32_t name[NAME_WORDS]; /* pin, peek; of an extend and a drop the file's words, of a checksum the block */
    uint64_t page_size, cap;   /* set up */
    uint64_t holder;           /* pin, unpin, read, write, flush, give back */
    uint64_t buffer;           /* unpin, read, write, flush */
    uint64_t from;             /* read, write */
    uint64_t position;         /* set up, write, log inserted, log flushed */
    uint8_t *own;              /* a read's out, a write's bytes, the page of a checksum */
    size_t own_len;
};

/* Whether a call names a holder. */
#define NAMES_HOLDER(call) ((call) >= PIN && (call) <= GIVE_BACK)

#endif
