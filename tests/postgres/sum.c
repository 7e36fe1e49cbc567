/* PostgreSQL's checksum of a page, from its own checksum_impl.h compiled for blocks of SIZE bytes, as published_sum_SIZE. */
#include "postgres.h"

#undef BLCKSZ
#define BLCKSZ SIZE
#define NAMED(size) published_sum_##size
#define NAME(size) NAMED(size)
#define pg_checksum_page NAME(SIZE)

#include "storage/checksum.h"
#include "storage/checksum_impl.h"
