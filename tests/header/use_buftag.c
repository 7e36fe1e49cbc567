/* A program in C or C++ that includes the header first, and twice, and calls each function. Status 0 if they answer right. */
#include "buftag.h"
#include "buftag.h"
#include "../layout.h"

int main(void)
{
    uint8_t out[BUFTAG_NAME_BYTES];
    uint32_t words[BUFTAG_NAME_WORDS];
    if (buftag_bytes(0, 0, 0, 0, 7, out, sizeof out) != 0 || out[BUFTAG_NAME_BYTES - WORD_BYTES] != 7) {
        return 1;
    }
    if (buftag_name(out, sizeof out, words, BUFTAG_NAME_WORDS) != 0 || words[NAME_BLOCK] != 7) {
        return 1;
    }
    return buftag_hash(16821, 16384, 37721, 0, 7) == 2095929920u ? 0 : 1;
}
