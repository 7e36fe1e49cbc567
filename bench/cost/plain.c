/* What a list of used pages costs, as a good C programmer would write it at first: standard input in pieces, a byte for each usage count, a
   table from blocks to buffers. */
#include <inttypes.h>
#include <stdbool.h>
#include <stdio.h>
#include <unistd.h>

enum { PIECE = 65536, MAX_BUFFERS = 1024, MAX_BLOCKS = 65536, MAX_LINES = 1000002, CAP = 5 };

static uint8_t usage[MAX_BUFFERS];
static uint16_t held[MAX_BUFFERS], place[MAX_BLOCKS]; /* of a block its buffer's number + 1, 0 for none */
static uint32_t buffers, blocks, used, hand;          /* the free list has given the buffers below used */
static uint64_t hits, loads, probes;

static uint32_t sweep(void)
{
    for (;;) {
        uint32_t v = hand;
        hand = v + 1 == buffers ? 0 : v + 1;
        probes++;
        if (usage[v] == 0) return v;
        usage[v]--;
    }
}

static uint32_t victim(void)
{
    uint32_t v = sweep();
    place[held[v]] = 0;
    return v;
}

static void use_block(uint32_t block)
{
    uint32_t at = place[block];
    if (at != 0) {
        hits++;
        if (usage[at - 1] < CAP) usage[at - 1]++;
        return;
    }
    uint32_t i = used < buffers ? used++ : victim();
    loads++;
    usage[i] = 1;
    held[i] = (uint16_t)block;
    place[block] = (uint16_t)(i + 1);
}

/* A line ends; whether its number is in range. */
static bool end_line(uint64_t line, uint32_t value)
{
    if (line == 1) {
        buffers = value;
        return value >= 1 && value <= MAX_BUFFERS;
    }
    if (line == 2) {
        blocks = value;
        return true;
    }
    if (value >= blocks) return false;
    use_block(value);
    return true;
}

static int bad(uint64_t line)
{
    printf("bad line %" PRIu64 "\n", line);
    return 0;
}

int main(void)
{
    static uint8_t piece[PIECE];
    uint64_t line = 1; /* the one begun */
    uint32_t value = 0;
    bool digits = false;
    ssize_t got;
    while ((got = read(0, piece, sizeof piece)) > 0) {
        for (ssize_t k = 0; k < got; k++) {
            if (line > MAX_LINES) return bad(line);
            if (piece[k] == '\n') {
                if (!digits || !end_line(line, value)) return bad(line);
                line++;
                value = 0;
                digits = false;
                continue;
            }
            if (piece[k] < '0' || piece[k] > '9') return bad(line);
            value = value * 10 + (piece[k] - '0');
            digits = true;
            if (value > MAX_BLOCKS) return bad(line);
        }
    }
    if (got < 0) return bad(line);
    if (digits) {
        if (!end_line(line, value)) return bad(line);
        line++;
    }
    if (line <= 2) return bad(line);
    printf("%" PRIu64 " %" PRIu64 " %" PRIu64 "\n", hits, loads, probes);
    return 0;
}
