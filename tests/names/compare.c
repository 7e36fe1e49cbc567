/* Reads names with their bytes and hash, and compares them with what buftag_bytes, buftag_hash and buftag_name give.
   Prints six numbers: the names read; those whose bytes differ; those whose hash differs; those for which another length than a
   name's is not refused with 1, or is refused with a byte changed; those whose words, read from the bytes, differ; those for which
   other lengths of bytes or words are not refused with 1, or are refused with a word changed. Status 0 if the input could be read. */
#include <inttypes.h>
#include <stdbool.h>
#include <stdio.h>
#include <string.h>

#include "../layout.h"
#include "buftag.h"

enum { ROOM = 64, BEFORE = 8, FILL = 0xA5 };
enum { WORDS_ROOM = ROOM / WORD_BYTES, WORDS_BEFORE = BEFORE / WORD_BYTES };

/* The digits of a name's bytes, and the same in a scanf format. */
#define DIGITS 40
#define TEXT(number) #number
#define WIDTH(number) TEXT(number)
_Static_assert(DIGITS == 2 * NAME_BYTES, "two digits for each byte");

struct name {
    uint32_t w[NAME_WORDS];
};

/* Lengths of a slice that a name does not have. */
static const size_t other_bytes[] = { 0, 1, NAME_BYTES - 1, NAME_BYTES + 1, 2 * NAME_BYTES };
static const size_t other_words[] = { 0, 1, NAME_WORDS - 1, NAME_WORDS + 1, 2 * NAME_WORDS };
enum { OTHERS = sizeof other_bytes / sizeof other_bytes[0] };
_Static_assert(OTHERS == sizeof other_words / sizeof other_words[0], "as many of words");

/* Calls buftag_bytes with a part of a filled room, which is left for the caller to look at. */
static uint32_t bytes_into(uint8_t room[ROOM], struct name n, size_t len)
{
    memset(room, FILL, ROOM);
    return buftag_bytes(NAME_OF(n.w), room + BEFORE, len);
}

/* The same for buftag_name. */
static uint32_t words_into(uint32_t room[WORDS_ROOM], const uint8_t *bytes, size_t bytes_len, size_t words_len)
{
    memset(room, FILL, ROOM);
    return buftag_name(bytes, bytes_len, room + WORDS_BEFORE, words_len);
}

static bool untouched(const void *from, size_t len)
{
    for (size_t i = 0; i < len; i++) {
        if (((const uint8_t *)from)[i] != FILL) {
            return false;
        }
    }
    return true;
}

/* Whether a room holds a name's bytes or words, and is untouched before and behind them. */
static bool holds(const void *room, const void *want)
{
    const uint8_t *from = room;
    return memcmp(from + BEFORE, want, NAME_BYTES) == 0
        && untouched(from, BEFORE)
        && untouched(from + BEFORE + NAME_BYTES, ROOM - BEFORE - NAME_BYTES);
}

static bool bytes_agree(struct name n, const uint8_t want[NAME_BYTES])
{
    uint8_t room[ROOM];
    return bytes_into(room, n, NAME_BYTES) == 0 && holds(room, want);
}

static bool words_agree(const uint8_t bytes[NAME_BYTES], struct name want)
{
    uint32_t room[WORDS_ROOM];
    return words_into(room, bytes, NAME_BYTES, NAME_WORDS) == 0 && holds(room, want.w);
}

static bool lengths_refused(struct name n)
{
    uint8_t room[ROOM];
    for (size_t i = 0; i < OTHERS; i++) {
        if (bytes_into(room, n, other_bytes[i]) != 1 || !untouched(room, ROOM)) {
            return false;
        }
    }
    return true;
}

/* The bytes wrong, the words wrong, and both. Behind a name's bytes stand the same again, so that a longer slice can be read. */
static bool both_lengths_refused(const uint8_t bytes[NAME_BYTES])
{
    uint8_t twice[2 * NAME_BYTES];
    uint32_t room[WORDS_ROOM];
    memcpy(twice, bytes, NAME_BYTES);
    memcpy(twice + NAME_BYTES, bytes, NAME_BYTES);
    for (size_t i = 0; i < OTHERS; i++) {
        if (words_into(room, twice, other_bytes[i], NAME_WORDS) != 1 || !untouched(room, ROOM)
            || words_into(room, twice, NAME_BYTES, other_words[i]) != 1 || !untouched(room, ROOM)
            || words_into(room, twice, other_bytes[i], other_words[i]) != 1 || !untouched(room, ROOM)) {
            return false;
        }
    }
    return true;
}

/* One line of the input. */
static bool next(struct name *n, uint8_t want[NAME_BYTES], uint32_t *hash)
{
    char digits[DIGITS + 1];
    for (size_t k = 0; k < NAME_WORDS; k++) {
        if (scanf("%" SCNu32, &n->w[k]) != 1) {
            return false;
        }
    }
    if (scanf("%" WIDTH(DIGITS) "s%" SCNu32, digits, hash) != 2 || strlen(digits) != DIGITS) {
        return false;
    }
    for (size_t i = 0; i < NAME_BYTES; i++) {
        if (sscanf(digits + 2 * i, "%2" SCNx8, &want[i]) != 1) {
            return false;
        }
    }
    return true;
}

int main(void)
{
    struct name n;
    uint8_t want[NAME_BYTES];
    uint32_t hash;
    long names = 0, bytes = 0, hashes = 0, lengths = 0, words = 0, both = 0;
    while (next(&n, want, &hash)) {
        names++;
        bytes += !bytes_agree(n, want);
        hashes += buftag_hash(NAME_OF(n.w)) != hash;
        lengths += !lengths_refused(n);
        words += !words_agree(want, n);
        both += !both_lengths_refused(want);
    }
    printf("%ld %ld %ld %ld %ld %ld\n", names, bytes, hashes, lengths, words, both);
    return feof(stdin) && !ferror(stdin) ? 0 : 1;
}
