/* What is said of a call that differs. */
#ifndef PRINT_H
#define PRINT_H

#include "lent.h"

/* Keeps what is said of the memory before a call. */
void keep_before(void);

void print_request(const struct request *q);
void print_before(void);

/* The first element of a part in which the library and the model differ. */
void print_part(enum part k, const struct request *q);

#endif
