/* Plain C's hash of a page name, and the same with the library's short cuts. */
#ifndef PLAIN_HASH_H
#define PLAIN_HASH_H

#include <stdint.h>

uint32_t plain_hash(uint32_t tablespace, uint32_t database, uint32_t relation, uint32_t fork, uint32_t block);
uint32_t short_hash(uint32_t tablespace, uint32_t database, uint32_t relation, uint32_t fork, uint32_t block);

#endif
