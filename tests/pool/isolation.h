/* While a holder has a pin on a page, no call that names another holder, or none, moves the page to another buffer or changes that
   holder's count of it. Looked at after each accepted call but set up, and the checksum, which takes no pool. */
#ifndef ISOLATION_H
#define ISOLATION_H

#include "lent.h"

/* Keeps the twin's words, names and counts before a call. */
void isolation_before(void);

/* Gives a null pointer, or the sentence that does not hold of the memory after the call. */
const char *isolation_after(const struct request *q, const struct memory *after);

#endif
