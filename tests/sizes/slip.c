#include "slip.h"
#include <stdlib.h>
#include <string.h>

enum slip slip;
unsigned planted;

static const char *const slip_names[SLIPS] = {"none", "given-back", "others-pin", "exchanged", "store-byte", "row-block", "position",
                                              "after-six", "bytes-8-9", "number", "hit", "wrote", "probes", "flushed", "written", "place",
                                              "own-bytes"};

bool slip_set(const char *word)
{
    int k = 0;
    planted = (unsigned)strtoul(word, NULL, 10);
    if (planted != 0) return true;
    while (k < SLIPS && strcmp(word, slip_names[k]) != 0) k++;
    slip = k < SLIPS ? (enum slip)k : NO_SLIP;
    return k < SLIPS;
}
