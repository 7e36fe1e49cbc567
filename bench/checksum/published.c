/* PostgreSQL's own checksum of a page, by its public header, for blocks of PAGE bytes: published_PAGE. */
#include "postgres.h"
#undef BLCKSZ
#define BLCKSZ PAGE
#define JOIN(a, b) a##b
#define NAMED(size) JOIN(published_, size)
#define pg_checksum_page NAMED(PAGE)
#include "storage/checksum_impl.h"
