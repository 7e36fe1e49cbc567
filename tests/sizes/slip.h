/* What is done wrong on purpose, so that it is seen that the comparison can fail. In the choice of calls: a pin is named that was given
   back, or that is another holder's. In what is asked of the pools: the smaller one has more buffers, stores differ in a byte, rows in a
   count of blocks, positions by 1. In the judge: it goes on after the smaller pool's 6, compares a page's bytes 8 and 9, or takes a word
   of the answer into the receipt. In place of a wrong pool: a refused read changes the caller's bytes. */
#ifndef SLIP_H
#define SLIP_H

#include <stdbool.h>

enum slip {
    NO_SLIP, GIVEN_BACK, OTHERS_PIN, EXCHANGED, STORE_BYTE, ROW_BLOCK, POSITION, AFTER_SIX, BYTES_8_9, NUMBER, HIT, WROTE, PROBES, FLUSHED,
    WRITTEN, PLACE, OWN_BYTES, SLIPS
};
extern enum slip slip;

/* The slip of the model, if the model stands in the library's place: tests/pool/model.h has it as SLIP. */
extern unsigned planted;

/* A slip by its name, or one of the model by its number; whether there is such a one. */
bool slip_set(const char *word);

#endif
