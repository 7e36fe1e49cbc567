/* The three calls with one slip each, chosen by -DSLIP=.., to see that the comparison notices it. With NONE they are right. */
#include <stdbool.h>
#include <stddef.h>

#include "../layout.h"
#include "buftag.h"

enum {
    NONE,
    FORK_AFTER_BLOCK,
    BIG_ENDIAN_WORDS,
    LAST_BYTE_LEFT_OUT,
    FNV_1_ORDER,
    START_FROM_ZERO,
    SIGNED_BYTES,
    FORK_OF_ONE_BYTE,
    BLOCK_OF_TWO_BYTES,
    FORK_256_SMALL,
    BLOCK_65536_SHORT,
    OTHER_LENGTH_FILLED,
    OTHER_LENGTH_ACCEPTED,
    READ_FORK_AFTER_BLOCK,
    READ_BIG_ENDIAN,
    READ_SIGNED_BYTES,
    LAST_WORD_LEFT_OUT,
    MORE_BYTES_ACCEPTED,
    FEWER_BYTES_ACCEPTED,
    OTHER_WORDS_FILLED,
    OTHER_WORDS_ACCEPTED
};

static void spread(uint8_t *out, uint32_t w)
{
    for (int i = 0; i < WORD_BYTES; i++) {
        out[SLIP == BIG_ENDIAN_WORDS ? WORD_BYTES - 1 - i : i] = (uint8_t)(w >> (8 * i));
    }
}

static void spread_all(uint8_t *out, uint32_t t, uint32_t d, uint32_t r, uint32_t f, uint32_t b)
{
    spread(out + WORD_BYTES * FILE_TABLESPACE, t);
    spread(out + WORD_BYTES * FILE_DATABASE, d);
    spread(out + WORD_BYTES * FILE_RELATION, r);
    spread(out + WORD_BYTES * (SLIP == FORK_AFTER_BLOCK ? NAME_BLOCK : FILE_FORK), f);
    spread(out + WORD_BYTES * (SLIP == FORK_AFTER_BLOCK ? FILE_FORK : NAME_BLOCK), b);
}

/* A byte as the hash takes it: also where a fork or a block is taken for one with fewer bytes than it has, cut or uncut. */
static uint32_t hashed(const uint8_t *bytes, int i, uint32_t fork, uint32_t block)
{
    int in_fork = i - WORD_BYTES * FILE_FORK, in_block = i - WORD_BYTES * NAME_BLOCK;
    if (SLIP == FORK_OF_ONE_BYTE && in_fork > 0 && in_block < 0) return 0;
    if (SLIP == BLOCK_OF_TWO_BYTES && in_block > 1) return 0;
    if (SLIP == FORK_256_SMALL && fork == 256 && in_fork >= 0 && in_block < 0) return in_fork == 0 ? fork : 0;
    if (SLIP == BLOCK_65536_SHORT && block == 65536 && in_block > 0) return in_block == 1 ? block / 256 : 0;
    return SLIP == SIGNED_BYTES ? (uint32_t)(int8_t)bytes[i] : bytes[i];
}

uint32_t buftag_hash(uint32_t tablespace, uint32_t database, uint32_t relation, uint32_t fork, uint32_t block)
{
    uint8_t bytes[BUFTAG_NAME_BYTES];
    uint32_t h = SLIP == START_FROM_ZERO ? 0 : 2166136261u;
    spread_all(bytes, tablespace, database, relation, fork, block);
    for (int i = 0; i < BUFTAG_NAME_BYTES; i++) {
        uint32_t byte = hashed(bytes, i, fork, block);
        h = SLIP == FNV_1_ORDER ? (h * 16777619u) ^ byte : (h ^ byte) * 16777619u;
    }
    return h;
}

uint32_t buftag_bytes(uint32_t tablespace, uint32_t database, uint32_t relation, uint32_t fork, uint32_t block,
                      uint8_t *out, uint64_t out_len)
{
    uint8_t bytes[BUFTAG_NAME_BYTES];
    size_t filled = SLIP == LAST_BYTE_LEFT_OUT ? BUFTAG_NAME_BYTES - 1 : BUFTAG_NAME_BYTES;
    uint32_t answer = 0;
    if (out_len != BUFTAG_NAME_BYTES) {
        filled = SLIP == OTHER_LENGTH_FILLED && out_len < filled ? out_len : 0;
        answer = SLIP == OTHER_LENGTH_ACCEPTED ? 0 : 1;
    }
    spread_all(bytes, tablespace, database, relation, fork, block);
    for (size_t i = 0; i < filled; i++) {
        out[i] = bytes[i];
    }
    return answer;
}

static uint32_t gather(const uint8_t *from)
{
    uint32_t w = 0;
    for (int i = 0; i < WORD_BYTES; i++) {
        uint32_t byte = SLIP == READ_SIGNED_BYTES ? (uint32_t)(int8_t)from[i] : from[i];
        w |= byte << (8 * (SLIP == READ_BIG_ENDIAN ? WORD_BYTES - 1 - i : i));
    }
    return w;
}

static bool bytes_fit(uint64_t bytes_len)
{
    return bytes_len == BUFTAG_NAME_BYTES || (SLIP == MORE_BYTES_ACCEPTED && bytes_len > BUFTAG_NAME_BYTES)
        || (SLIP == FEWER_BYTES_ACCEPTED && bytes_len < BUFTAG_NAME_BYTES);
}

uint32_t buftag_name(const uint8_t *bytes, uint64_t bytes_len, uint32_t *words, uint64_t words_len)
{
    size_t filled = SLIP == LAST_WORD_LEFT_OUT ? BUFTAG_NAME_WORDS - 1 : BUFTAG_NAME_WORDS;
    uint32_t answer = 0;
    if (!bytes_fit(bytes_len)) {
        return 1;
    }
    if (words_len != BUFTAG_NAME_WORDS) {
        filled = SLIP == OTHER_WORDS_FILLED && words_len < filled ? words_len : 0;
        answer = SLIP == OTHER_WORDS_ACCEPTED ? 0 : 1;
    }
    for (size_t i = 0; i < filled; i++) {
        size_t place = SLIP == READ_FORK_AFTER_BLOCK && i >= FILE_FORK ? FILE_FORK + NAME_BLOCK - i : i;
        words[i] = gather(bytes + WORD_BYTES * place);
    }
    return answer;
}
