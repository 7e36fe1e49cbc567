/* Page names for programs in C: their 20 bytes, there and back, and their hash. Link with libbuftag.a (x86-64 Linux). */
#ifndef BUFTAG_H
#define BUFTAG_H

#include <stdint.h>

#ifdef __cplusplus
extern "C" {
#endif

/* The compiler warns where a result is not used. */
#ifdef __GNUC__
#define BUFTAG_RESULT __attribute__((warn_unused_result))
#else
#define BUFTAG_RESULT
#endif

/* The number of bytes of a page name, and of words: tablespace, database, relation, fork, block. */
#define BUFTAG_NAME_BYTES 20
#define BUFTAG_NAME_WORDS 5

/* The hash of a page name: 32-bit FNV-1a over its 20 bytes. Its bucket among B is the hash modulo B. */
BUFTAG_RESULT uint32_t buftag_hash(uint32_t tablespace, uint32_t database, uint32_t relation, uint32_t fork, uint32_t block);

/* A page name as bytes: the five numbers in this order, each little-endian. With an out_len of 20 it fills out and
   answers 0; with any other it leaves out as it is and answers 1. out is never a null pointer. */
BUFTAG_RESULT uint32_t buftag_bytes(uint32_t tablespace, uint32_t database, uint32_t relation, uint32_t fork, uint32_t block,
                                    uint8_t *out, uint64_t out_len);

/* The page name that has these bytes, as its five words in the same order: what buftag_bytes wrote, this reads back. With a
   bytes_len of 20 and a words_len of 5 it fills words and answers 0; with any other it leaves words as they are and answers 1.
   No pointer is null, and words does not overlap bytes. */
BUFTAG_RESULT uint32_t buftag_name(const uint8_t *bytes, uint64_t bytes_len, uint32_t *words, uint64_t words_len);

#ifdef __cplusplus
}
#endif

#endif
