/* Reading what bufpool_dump wrote. */
#ifndef DUMP_H
#define DUMP_H

#include "bufpool_show.h"

/* A snapshot in memory. It stays where it was read: its view points into it. */
struct snapshot {
    struct bufpool_dump_head head;
    struct bufpool_view view;
    uint64_t number; /* of the file's snapshots, from 1 */
    uint64_t control[BUFPOOL_CONTROL_WORDS];
    uint32_t states[BUFPOOL_MAX_BUFFERS];
    uint32_t names[BUFPOOL_NAME_WORDS * BUFPOOL_MAX_BUFFERS];
    int32_t free[BUFPOOL_MAX_BUFFERS];
    int32_t heads[BUFPOOL_MAX_BUCKETS];
    int32_t chain[BUFPOOL_MAX_BUFFERS];
    uint32_t rows[BUFPOOL_ROW_WORDS * BUFPOOL_MAX_FILES];
    uint16_t counts[BUFPOOL_MAX_HOLDERS * BUFPOOL_MAX_BUFFERS];
    uint64_t positions[BUFPOOL_MAX_BUFFERS];
};

enum reading {
    READ_ONE,
    READ_END,   /* the file ends here, for now */
    READ_CUT,   /* the file ends within a snapshot, for now */
    READ_BAD,   /* what stands here is no snapshot that this program can read */
    READ_FAILED /* the system does not let it be read */
};

/* Reads the next snapshot. Where there is none the file stands as it stood, and why says what is wrong. */
enum reading dump_read(FILE *dump, struct snapshot *out, char why[BUFPOOL_PAGE_TEXT]);

/* What bufpool_why results in for the pool as it was lent, and its words. */
uint32_t snapshot_why(const struct snapshot *s, char words[BUFPOOL_WHY_BYTES]);

/* Zeros. Ends the program if there is no memory. */
void *memory(size_t count, size_t size);

#endif
