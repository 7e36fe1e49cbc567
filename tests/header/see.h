/* What the programs of this folder say when something is not as it should be. */
#ifndef SEE_H
#define SEE_H

#include <stdio.h>

#define SEE(test)                                                   \
    do {                                                            \
        if (!(test)) {                                              \
            fprintf(stderr, "line %d does not hold\n", __LINE__);   \
            return 1;                                               \
        }                                                           \
    } while (0)

#endif
