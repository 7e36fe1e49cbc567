/* Prints page names as the pool keeps them: their bytes, their hash, and their bucket among so many.
   The first page is document 01's case A; the others are given as tablespace,database,relation,fork,block. */
#include <errno.h>
#include <inttypes.h>
#include <stdbool.h>
#include <stdio.h>
#include <stdlib.h>

#include "buftag.h"

struct page {
    uint32_t tablespace, database, relation, fork, block;
};

/* A number of 32 bits in decimal digits, from *text on to the mark that ends it. Moves *text past the mark. */
static bool number(const char **text, char mark, uint32_t *out)
{
    char *end;
    unsigned long long value;
    if (**text < '0' || **text > '9') {
        return false;
    }
    errno = 0;
    value = strtoull(*text, &end, 10);
    if (errno != 0 || value > UINT32_MAX || *end != mark) {
        return false;
    }
    *out = (uint32_t)value;
    *text = end + 1;
    return true;
}

static bool page_of(const char *text, struct page *p)
{
    return number(&text, ',', &p->tablespace) && number(&text, ',', &p->database)
        && number(&text, ',', &p->relation) && number(&text, ',', &p->fork) && number(&text, '\0', &p->block);
}

static void show(struct page p, uint32_t buckets)
{
    uint8_t bytes[BUFTAG_NAME_BYTES];
    uint32_t hash = buftag_hash(p.tablespace, p.database, p.relation, p.fork, p.block);
    if (buftag_bytes(p.tablespace, p.database, p.relation, p.fork, p.block, bytes, sizeof bytes) != 0) abort(); /* the length is right */
    printf("page   %" PRIu32 " %" PRIu32 " %" PRIu32 " %" PRIu32 " %" PRIu32 "\n",
           p.tablespace, p.database, p.relation, p.fork, p.block);
    printf("bytes ");
    for (size_t i = 0; i < sizeof bytes; i++) {
        printf(" %02X", bytes[i]);
    }
    printf("\nhash   %" PRIu32 "\nbucket %" PRIu32 " of %" PRIu32 "\n\n", hash, hash % buckets, buckets);
}

int main(int argc, char **argv)
{
    static const struct page case_a = { 16821, 16384, 37721, 0, 7 };
    uint32_t buckets = 0;
    const char *first = argc > 1 ? argv[1] : "";
    if (!number(&first, '\0', &buckets) || buckets == 0) {
        fprintf(stderr, "usage: names BUCKETS [TABLESPACE,DATABASE,RELATION,FORK,BLOCK ..]\n");
        return 2;
    }
    show(case_a, buckets);
    for (int i = 2; i < argc; i++) {
        struct page p;
        if (!page_of(argv[i], &p)) {
            fprintf(stderr, "names: not a page: %s\n", argv[i]);
            return 2;
        }
        show(p, buckets);
    }
    return 0;
}
