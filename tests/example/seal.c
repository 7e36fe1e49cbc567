/* seal CARD PAGE..: gives pages of the till example's receipts, of 1024 bytes, the checksums of what they are now: what head office's tool
   does to a file. The receipts are the store's first file, which begins behind one block of notes. */
#include "bufpool.h"
#include <stdio.h>
#include <stdlib.h>

enum { PAGE = 1024 };

static int seal(FILE *card, uint32_t block)
{
    uint8_t page[PAGE];
    uint64_t sum[BUFPOOL_ANSWER_WORDS];
    long at = PAGE * (1 + (long)block);
    if (fseek(card, at, SEEK_SET) != 0 || fread(page, PAGE, 1, card) != 1) return 0;
    if (bufpool_checksum(page, PAGE, block, sum, BUFPOOL_ANSWER_WORDS) != BUFPOOL_DONE) return 0;
    page[BUFPOOL_POSITION_BYTES] = (uint8_t)(sum[0] & 255);
    page[BUFPOOL_POSITION_BYTES + 1] = (uint8_t)(sum[0] >> 8);
    return fseek(card, at, SEEK_SET) == 0 && fwrite(page, PAGE, 1, card) == 1;
}

int main(int argc, char **argv)
{
    FILE *card = argc > 1 ? fopen(argv[1], "r+b") : NULL;
    int k;
    if (card == NULL) return 2;
    for (k = 2; k < argc; k++) {
        if (!seal(card, (uint32_t)strtoul(argv[k], NULL, 10))) return 1;
    }
    return fclose(card) == 0 ? 0 : 1;
}
