/* Page checksums in plain C: what the benchmarks compare with. */
#ifndef CHECKSUM_PLAIN_H
#define CHECKSUM_PLAIN_H

#include "bufpool_calls.h"
#include <stdbool.h>
#include <stddef.h>

/* Takes and answers what the library's does. */
__typeof__(bufpool_checksum) plain_checksum;

/* Gives the page of a block its checksum, unless it is zeros. */
void plain_seal(uint8_t *page, size_t size, uint32_t block);

/* Whether a block of the store has its checksum or is zeros. */
bool plain_passes(const uint8_t *page, size_t size, uint32_t block);

#endif
