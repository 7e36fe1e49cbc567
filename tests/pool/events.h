/* How often each refusal number and each event came up in a comparison. */
#ifndef EVENTS_H
#define EVENTS_H

#include "request.h"

/* Keeps what the twin's memory has before a call. */
void events_before(void);

/* The call made, with its result; the twin's memory and answer are those after it. */
void events_count(const struct request *q, uint32_t result);

/* All calls counted by now; and a line for each number and event. */
unsigned long events_calls(void);
void events_print(void);

#endif
