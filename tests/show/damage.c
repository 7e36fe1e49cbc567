/* damage each FILE           prints a pool with each damage, and writes each to FILE, as a pool of its own: both as bufpool-show prints it
   damage counts FILE         the same of damage to private counts
   damage random FILE COUNT   prints pools with random damage, and writes them to FILE, one after the other
   damage bytes FILE COUNT    copies of FILE with random bytes changed: FILE.1, FILE.2 and so on
   damage beyond              lends a slice with a length that its memory does not have: the sanitizer has to stop this one */
#include <stdlib.h>

#include "lend.h"

#define LENGTH(m, slice, to) ((m)->slice = other_length((m)->slice, sizeof *(m)->slice, (m)->slice##_len, to), (m)->slice##_len = (to))

static uint64_t state = 0x2545F4914F6CDD1Du;

static uint32_t random_below(uint32_t n)
{
    state ^= state << 13;
    state ^= state >> 7;
    state ^= state << 17;
    return (uint32_t)(state >> 32) % n;
}

/* Four buffers: a dirty page of holder 1, a clean one of holder 2, and two empty buffers. */
static struct bufpool some_pool(void)
{
    static const uint8_t line[] = "2 loaves, 5.40";
    struct bufpool m = lend(4, 6, 6, 5);
    const struct bufpool_holder one = bufpool_holder_of(1), two = bufpool_holder_of(2);
    struct bufpool_pinned p;
    see(bufpool_log_inserted_to(&m, 147) == BUFPOOL_DONE, "log inserted");
    see(bufpool_pin_page(&m, one, bufpool_name_of(table_file, 5), &p) == BUFPOOL_DONE, "pin");
    see(bufpool_write_buffer(&m, one, p.buffer, 24, line, sizeof line, 147) == BUFPOOL_DONE, "write");
    see(bufpool_pin_page(&m, two, bufpool_name_of(map_file, 0), &p) == BUFPOOL_DONE, "pin");
    return m;
}

static void nothing(struct bufpool *m) { (void)m; }
static void hand(struct bufpool *m) { m->control[BUFPOOL_CONTROL_AT_HAND] = 4; }
static void far_hand(struct bufpool *m) { m->control[BUFPOOL_CONTROL_AT_HAND] = UINT64_MAX; }
static void top(struct bufpool *m) { m->control[BUFPOOL_CONTROL_AT_FREE_TOP] = 4; }
static void top_off(struct bufpool *m) { m->control[BUFPOOL_CONTROL_AT_FREE_TOP] = UINT64_MAX - 1; }
static void top_used(struct bufpool *m) { m->control[BUFPOOL_CONTROL_AT_FREE_TOP] = 1; }
static void link_far(struct bufpool *m) { m->free[2] = INT32_MAX; }
static void link_low(struct bufpool *m) { m->free[2] = INT32_MIN; }
static void link_back(struct bufpool *m) { m->free[3] = 2; }
static void link_early(struct bufpool *m) { m->free[2] = -1; }
static void small_blocks(struct bufpool *m) { m->control[BUFPOOL_CONTROL_AT_PAGE_SIZE] = 3; }
static void far_blocks(struct bufpool *m) { m->control[BUFPOOL_CONTROL_AT_PAGE_SIZE] = (uint64_t)1 << 63; }
static void words(struct bufpool *m) { m->states[1] = 1, m->states[3] = UINT32_MAX; }
static void no_cap(struct bufpool *m) { m->control[BUFPOOL_CONTROL_AT_CAP] = 0; }
static void far_cap(struct bufpool *m) { m->control[BUFPOOL_CONTROL_AT_CAP] = UINT64_MAX; }
static void used_more(struct bufpool *m) { m->states[1] = 0x83180001u; }
static void flushed(struct bufpool *m) { m->control[BUFPOOL_CONTROL_AT_FLUSHED] = 148; }
static void empty_name(struct bufpool *m) { m->names[BUFPOOL_NAME_WORDS * 2 + BUFPOOL_NAME_AT_BLOCK] = 7; }
static void no_row(struct bufpool *m) { m->names[BUFPOOL_FILE_AT_FORK] = 2; }
static void far_head(struct bufpool *m) { m->heads[5] = 4; }
static void far_page(struct bufpool *m) { m->pool[0] = 1; } /* the log position's high word */
static void short_control(struct bufpool *m) { LENGTH(m, control, 2); }
static void no_control(struct bufpool *m) { LENGTH(m, control, 0); }
static void short_states(struct bufpool *m) { LENGTH(m, states, 1); }
static void no_states(struct bufpool *m) { LENGTH(m, states, 0); }
static void short_names(struct bufpool *m) { LENGTH(m, names, 9); }
static void short_pool(struct bufpool *m) { LENGTH(m, pool, 2047); }
static void short_free(struct bufpool *m) { LENGTH(m, free, 3); }
static void short_links(struct bufpool *m) { LENGTH(m, heads, 3), LENGTH(m, chain, 3); }
static void short_rows(struct bufpool *m) { LENGTH(m, rows, 11); }
static void short_counts(struct bufpool *m) { LENGTH(m, counts, 2 * BUFPOOL_MAX_HOLDERS - 1); }
static void long_counts(struct bufpool *m) { LENGTH(m, counts, BUFPOOL_MAX_HOLDERS * BUFPOOL_MAX_BUFFERS + 1); }
static void count_more(struct bufpool *m) { m->counts[BUFPOOL_MAX_HOLDERS - 1] = 65535; }
static void count_gone(struct bufpool *m) { m->counts[1] = 0; }
static void count_moved(struct bufpool *m) { m->counts[1] = 0, m->counts[BUFPOOL_MAX_HOLDERS + 1] = 1; }
static void count_of_none(struct bufpool *m) { m->counts[2 * BUFPOOL_MAX_HOLDERS] = 1; }
static void pins_more(struct bufpool *m) { m->states[1]++; }
static void pins_none(struct bufpool *m) { m->states[1]--; }

static void long_control(struct bufpool *m) { LENGTH(m, control, BUFPOOL_CONTROL_WORDS + 1); }
static void long_names(struct bufpool *m) { LENGTH(m, names, BUFPOOL_NAME_WORDS * BUFPOOL_MAX_BUFFERS + 1); }
static void long_free(struct bufpool *m) { LENGTH(m, free, BUFPOOL_MAX_BUFFERS + 1); }
static void long_heads(struct bufpool *m) { LENGTH(m, heads, BUFPOOL_MAX_BUCKETS + 1); }
static void long_chain(struct bufpool *m) { LENGTH(m, chain, BUFPOOL_MAX_BUFFERS + 1); }

static void long_rows(struct bufpool *m)
{
    LENGTH(m, rows, BUFPOOL_ROW_WORDS * (BUFPOOL_MAX_FILES + 1));
    memset(m->rows + BUFPOOL_ROW_WORDS, 0, BUFPOOL_ROW_WORDS * BUFPOOL_MAX_FILES * sizeof *m->rows);
}

static void long_states(struct bufpool *m)
{
    LENGTH(m, states, BUFPOOL_MAX_BUFFERS + 1);
    memset(m->states + 4, 0, (BUFPOOL_MAX_BUFFERS + 1 - 4) * sizeof *m->states);
}

static void null_pointers(struct bufpool *m)
{
    struct bufpool lengths = *m;
    give_back(m);
    *m = lengths;
    m->control = NULL;
    m->states = m->names = m->rows = NULL;
    m->free = m->heads = m->chain = NULL;
    m->pool = m->store = NULL;
    m->counts = NULL;
}

static void null_counts(struct bufpool *m)
{
    free(m->counts);
    m->counts = NULL;
}

static void null_pages(struct bufpool *m)
{
    free(m->pool);
    m->pool = NULL;
}

static void null_store(struct bufpool *m)
{
    free(m->store);
    m->store = NULL;
}

static void null_rows(struct bufpool *m)
{
    free(m->rows);
    m->rows = NULL;
    m->rows_len = 0;
}

static void all_ones(struct bufpool *m)
{
    memset(m->states, 0xFF, m->states_len * sizeof *m->states);
    memset(m->names, 0xFF, m->names_len * sizeof *m->names);
    memset(m->rows, 0xFF, m->rows_len * sizeof *m->rows);
    memset(m->pool, 0xFF, m->pool_len);
}

struct damage {
    const char *text;
    void (*damage)(struct bufpool *m);
};

static const struct damage cases[] = {
    {"sound", nothing}, {"the hand is beyond", hand}, {"the hand is far beyond", far_hand}, {"the free list begins beyond", top},
    {"the free list begins with -2", top_off}, {"the free list begins with a page", top_used}, {"a free link leads far", link_far},
    {"a free link is low", link_low}, {"a free link leads back", link_back}, {"the free list ends early", link_early},
    {"blocks of 3 bytes", small_blocks}, {"blocks of 2 to the 63 bytes", far_blocks}, {"two state words", words},
    {"flushed is beyond inserted", flushed}, {"a short control record", short_control}, {"no control record", no_control},
    {"one state word", short_states}, {"no state word", no_states}, {"names of nine words", short_names}, {"a short pool", short_pool},
    {"three free links", short_free}, {"three heads and chain links", short_links}, {"a row of five words", short_rows},
    {"1025 state words", long_states}, {"null pointers", null_pointers}, {"no pages", null_pages}, {"all ones", all_ones},
    {"no store", null_store}, {"no rows, and no pointer", null_rows}, {"an empty buffer has a name", empty_name},
    {"a page has no row", no_row}, {"a bucket leads far", far_head}, {"a dirty page is beyond the log", far_page},
    {"seven words of the control record", long_control}, {"5121 words of names", long_names}, {"1025 free links", long_free},
    {"4097 heads", long_heads}, {"1025 chain links", long_chain}, {"a cap of 0", no_cap}, {"the cap is far beyond", far_cap},
    {"a usage count above the cap", used_more}, {NULL, NULL}};

static const struct damage count_cases[] = {
    {"one count is missing", short_counts}, {"65537 counts", long_counts}, {"no counts", null_counts}, {"a count more", count_more},
    {"a count is gone", count_gone}, {"a count is another buffer's", count_moved}, {"an empty buffer has a count", count_of_none},
    {"a pin more in the word", pins_more}, {"a pin fewer in the word", pins_none}, {NULL, NULL}};

static void dump(FILE *out, const struct bufpool *m, const char *text, uint32_t pool)
{
    struct bufpool_event event = bufpool_event_of_call(text, BUFPOOL_DONE);
    event.pool = pool;
    see(bufpool_dump(out, m, &event) == 0, "dump");
}

static void each(FILE *out, const struct damage *of)
{
    unsigned k;
    for (k = 0; of[k].text != NULL; k++) {
        struct bufpool m = some_pool();
        of[k].damage(&m);
        printf("%u. pool %u: %s\n  ", k + 1, k + 1, of[k].text);
        bufpool_print(stdout, &m);
        putchar('\n');
        dump(out, &m, of[k].text, k + 1);
        give_back(&m);
    }
}

/* One word of one of the slices becomes another: a small number, one near a limit of its width, or any. */
static void damage_word(struct bufpool *m)
{
    const uint64_t values[] = {random_below(8), UINT64_MAX - random_below(3), INT32_MAX - (uint64_t)random_below(2), 1024, state};
    uint64_t value = values[random_below(5)];
    switch (random_below(9)) {
    case 0: m->control[random_below(BUFPOOL_CONTROL_WORDS)] = value; break;
    case 1: m->states[random_below((uint32_t)m->states_len)] = (uint32_t)value; break;
    case 2: m->names[random_below((uint32_t)m->names_len)] = (uint32_t)value; break;
    case 3: m->free[random_below((uint32_t)m->free_len)] = (int32_t)value; break;
    case 4: m->rows[random_below((uint32_t)m->rows_len)] = (uint32_t)value; break;
    case 5: m->heads[random_below((uint32_t)m->heads_len)] = (int32_t)value; break;
    case 6: m->chain[random_below((uint32_t)m->chain_len)] = (int32_t)value; break;
    case 7: m->counts[random_below((uint32_t)m->counts_len)] = (uint16_t)value; break;
    default: m->pool[random_below((uint32_t)m->pool_len)] = (uint8_t)value;
    }
}

/* The last but one has too many rows, and the last has blocks of 0 bytes. */
static void random_damage(FILE *out, unsigned count)
{
    struct bufpool_pinned pinned;
    for (; count > 0; count--) {
        struct bufpool m = some_pool();
        struct bufpool_event event;
        unsigned words = count > 2 ? random_below(6) : 0;
        for (; words > 0; words--) damage_word(&m);
        if (count == 2) long_rows(&m);
        if (count == 1) m.control[BUFPOOL_CONTROL_AT_PAGE_SIZE] = 0;
        pinned.buffer.number = random_below(6);
        pinned.hit = 0;
        pinned.wrote = (int)random_below(2);
        pinned.probes = random_below(30);
        event = bufpool_event_of_pin("", bufpool_name_of(table_file, 5), random_below(8), &pinned);
        bufpool_print(stdout, &m);
        see(bufpool_dump(out, &m, &event) == 0, "dump");
        give_back(&m);
    }
}

static void other_bytes(const char *path, unsigned count)
{
    static char bytes[1 << 20], other[256];
    FILE *in = fopen(path, "rb"), *out;
    size_t length = in != NULL ? fread(bytes, 1, sizeof bytes, in) : 0;
    see(length > 0 && length < sizeof bytes, "a file of less than a MiB");
    fclose(in);
    for (; count > 0; count--) {
        size_t at = random_below((uint32_t)length);
        char was = bytes[at];
        bytes[at] = (char)random_below(256);
        snprintf(other, sizeof other, "%s.%u", path, count);
        out = fopen(other, "wb");
        see(out != NULL && fwrite(bytes, 1, length, out) == length && fclose(out) == 0, "a copy");
        bytes[at] = was;
    }
}

int main(int argc, char **argv)
{
    FILE *out;
    struct bufpool m = some_pool();
    if (argc == 2 && strcmp(argv[1], "beyond") == 0) {
        m.states_len++;
        bufpool_print(stdout, &m);
    } else if (argc == 4 && strcmp(argv[1], "bytes") == 0) {
        other_bytes(argv[2], (unsigned)atoi(argv[3]));
    } else if (argc > 2) {
        out = fopen(argv[2], "wb");
        see(out != NULL, "a file for the dump");
        if (argc == 3) each(out, strcmp(argv[1], "counts") == 0 ? count_cases : cases);
        if (argc == 4) random_damage(out, (unsigned)atoi(argv[3]));
        see(fclose(out) == 0, "the dump is closed");
    }
    give_back(&m);
    return 0;
}
