/* cases <messages.txt: a small pool for each line of changes, as "states[1]=0x83180001 free[1]=-1", and below it what bufpool_why says of
   it, indented, with its result first. Indented lines of the input are passed over, so that the output is the input if every message is
   as it stands there; all other lines are repeated. "set_up=2048" asks bufpool_why_set_up with that block size and, unless "cap=16" says
   another, cap 5.
   Status 1 if a result is not the library's, or if a message is longer than the header says or is not cut as it should be. */
#include "bufbooks.h"
#include "why.h"
#include <stdio.h>
#include <stdlib.h>
#include <string.h>

enum { BUFFERS = 4, BUCKETS = 5, FILES = 2, PAGE = 1024, BLOCKS = 7, MOST_WORDS = 400, MOST_LINE = 400, FENCE = 0x5A };

static uint64_t control[8];
static uint32_t states[8], names[40], rows[6 * 66];
static int32_t free_links[8], heads[8], chain[8];
static uint8_t pool[BUFFERS * PAGE], store[BLOCKS * PAGE];
static uint16_t counts[BUFPOOL_MAX_HOLDERS * BUFFERS + 1];

/* What set up is given; a page of 0 where it is not set up that is asked about. */
struct given {
    uint64_t page, cap;
};

/* Pages in the buffers 0, 1 and 2, each pinned by another holder, 1 dirty; 3 is empty. */
static int make_pool(struct bufpool *m)
{
    static const struct bufpool_file table = {1663, 5, 16384, 0}, map = {1663, 5, 16384, 2};
    static const struct bufpool_buffer second = {1};
    static const struct bufpool_holder low = {0}, high = {BUFPOOL_MAX_HOLDERS - 1}, some = {7};
    struct bufpool_pinned pinned;
    *m = (struct bufpool){.control = control, .states = states, .names = names, .pool = pool, .free = free_links, .heads = heads,
                          .chain = chain, .rows = rows, .store = store, .counts = counts};
    bufpool_fill_row(rows, table, 4, 5);
    bufpool_fill_row(rows + BUFPOOL_ROW_WORDS, map, 1, 2);
    bufpool_fit(m, BUFFERS, BUCKETS, FILES, PAGE);
    return bufpool_set_up_pool(m, PAGE, 100, BUFPOOL_DEFAULT_CAP) == 0 &&
           bufpool_pin_page(m, low, bufpool_name_of(table, 0), &pinned) == 0 &&
           bufpool_pin_page(m, high, bufpool_name_of(table, 1), &pinned) == 0 &&
           bufpool_pin_page(m, some, bufpool_name_of(map, 0), &pinned) == 0 &&
           bufpool_write_buffer(m, high, second, 8, (const uint8_t *)"till", 4, 100) == 0;
}

/* A slice of the pool: where its pointer and its length stand in struct bufpool, and how many bytes an element has. */
struct part {
    const char *name;
    size_t pointer, length, bytes;
};

#define PART(name, bytes) {#name, offsetof(struct bufpool, name), offsetof(struct bufpool, name##_len), bytes}

static const struct part *part_of(const char *name)
{
    static const struct part parts[] = {PART(control, 8), PART(states, 4), PART(names, 4), PART(pool, 1), PART(free, 4),
                                        PART(heads, 4), PART(chain, 4), PART(rows, 4), PART(store, 1), PART(counts, 2)};
    for (size_t k = 0; k < sizeof parts / sizeof *parts; k++)
        if (strcmp(parts[k].name, name) == 0) return &parts[k];
    fprintf(stderr, "no slice is called %s\n", name);
    exit(2);
}

/* One change: an element "free[3]=-1", a length "free_len=3", or "free=null". */
static void change(struct bufpool *m, const char *text)
{
    char name[16] = "";
    unsigned at = 0;
    const char *is = strchr(text, '=');
    if (is == NULL || sscanf(text, "%15[a-z]", name) != 1) {
        fprintf(stderr, "not a change: %s\n", text);
        exit(2);
    }
    const struct part *part = part_of(name);
    uint64_t to = strtoull(is + 1, NULL, 0);
    char *record = (char *)m, *slice;
    memcpy(&slice, record + part->pointer, sizeof slice);
    if (sscanf(text + strlen(name), "[%u]", &at) == 1) memcpy(slice + at * part->bytes, &to, part->bytes);
    else memcpy(record + (text[strlen(name)] == '_' ? part->length : part->pointer), &to, sizeof to);
}

/* What the library results in. It is not asked where a pointer is null. */
static uint32_t library(struct bufpool *m, struct given given)
{
    uint64_t answer[BUFPOOL_ANSWER_WORDS] = {0};
    if (m->control == NULL || m->states == NULL || m->names == NULL || m->pool == NULL || m->free == NULL || m->heads == NULL ||
        m->chain == NULL || m->rows == NULL || m->store == NULL || m->counts == NULL) return 1;
    if (given.page != 0) return bufpool_set_up(BUFPOOL_LENT(m), given.page, 100, given.cap, answer, BUFPOOL_ANSWER_WORDS);
    return bufbooks_check(BUFPOOL_LENT(m), answer, BUFPOOL_ANSWER_WORDS);
}

static uint32_t ask(const struct bufpool *m, struct given given, char *words, size_t words_len)
{
    return given.page != 0 ? why_set_up(m, given.page, given.cap, words, words_len) : why(m, words, words_len);
}

/* Whether the words in so many bytes are the beginning of the whole message, ended, with nothing written behind these bytes. */
static int cut_well(const struct bufpool *m, struct given given, const char *whole, size_t words_len)
{
    char words[MOST_WORDS];
    size_t length = strlen(whole) < words_len ? strlen(whole) : words_len - (words_len > 0);
    memset(words, FENCE, sizeof words);
    uint32_t result = ask(m, given, words, words_len);
    for (size_t k = words_len; k < sizeof words; k++)
        if (words[k] != FENCE) return 0;
    if (words_len > 0 && (memcmp(words, whole, length) != 0 || words[length] != 0)) return 0;
    return result == ask(m, given, NULL, 0);
}

/* Makes a line's changes, and says what bufpool_why does. */
static int one_case(char *line)
{
    struct bufpool m;
    struct given given = {0, BUFPOOL_DEFAULT_CAP};
    char whole[MOST_WORDS];
    if (!make_pool(&m)) return fprintf(stderr, "the pool is not made\n"), 0;
    for (char *text = strtok(line, " \n"); text != NULL; text = strtok(NULL, " \n")) {
        if (strncmp(text, "set_up=", 7) == 0) given.page = strtoull(text + 7, NULL, 0);
        else if (strncmp(text, "cap=", 4) == 0) given.cap = strtoull(text + 4, NULL, 0);
        else change(&m, text);
    }
    uint32_t result = ask(&m, given, whole, sizeof whole);
    printf("    %u %s\n", result, whole);
    if (strlen(whole) >= why_bytes) return fprintf(stderr, "longer than there is room: %s\n", whole), 0;
    for (size_t words_len = 0; words_len <= why_bytes; words_len++)
        if (!cut_well(&m, given, whole, words_len)) return fprintf(stderr, "cut at %zu bytes: %s\n", words_len, whole), 0;
    uint32_t wanted = library(&m, given);
    return result == wanted || (fprintf(stderr, "the library results in %u: %s\n", wanted, whole), 0);
}

int main(void)
{
    char line[MOST_LINE];
    int good = 1;
    while (fgets(line, sizeof line, stdin) != NULL) {
        if (line[0] == ' ') continue;
        fputs(line, stdout);
        if (line[0] != '#' && line[0] != '\n' && !one_case(line)) good = 0;
    }
    return good ? 0 : 1;
}
