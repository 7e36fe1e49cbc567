#ifndef OPTIONS_H
#define OPTIONS_H

#include "bufpool_show.h"

struct options {
    const char *path;
    uint64_t watch, from, pool, wait; /* pool: UINT64_MAX for every one; wait: seconds */
    int watching, sweeps, full;
    struct bufpool_file_name files[BUFPOOL_MAX_FILES];
    uint64_t files_len;
};

/* Ends the program with status 2 at a wrong option, and with 0 after --help. */
struct options options_of(char **arg);

#endif
