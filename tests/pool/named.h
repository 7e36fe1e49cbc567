/* The library's thirteen calls and its checksum, or with another PREFIX those of other code that takes the same arguments: DO(pin)(..). */
#ifndef NAMED_H
#define NAMED_H

#include "bufpool.h"

#ifndef PREFIX
#define PREFIX bufpool_
#endif
#define JOIN(a, b) a##b
#define NAMED(a, b) JOIN(a, b)
#define DO(call) NAMED(PREFIX, call)
#define DECLARE(call) __typeof__(bufpool_##call) DO(call)

DECLARE(set_up);
DECLARE(pin);
DECLARE(unpin);
DECLARE(read);
DECLARE(write);
DECLARE(flush);
DECLARE(give_back);
DECLARE(checkpoint);
DECLARE(peek);
DECLARE(extend);
DECLARE(drop);
DECLARE(log_inserted);
DECLARE(log_flushed);
DECLARE(checksum);

#endif
