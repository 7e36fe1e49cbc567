#include "steps.h"

enum {
    USAGE_LINES = 8,                              /* of buffers of which the usage alone changed, as in a long sweep */
    DIRTY_FLAGS = 1 << (23 - 22) | 1 << (28 - 22) /* of a state word's flags, those that a write sets */
};

/* ", pins 1 -> 2". The first part of a line has a space for the comma. */
static void part(const char *comma, const char *what, uint64_t from, uint64_t to)
{
    printf("%s%s %llu -> %llu", comma, what, (bufpool_shown)from, (bufpool_shown)to);
}

/* ---- Buffers ---- */

static uint64_t position_of(const struct snapshot *s, uint64_t b)
{
    return b < s->view.kept[BUFPOOL_KEPT_POSITIONS] ? s->positions[b] : 0;
}

static const uint32_t *name_of(const struct snapshot *s, uint64_t b)
{
    static const uint32_t none[BUFPOOL_NAME_WORDS];
    return b < s->view.kept[BUFPOOL_KEPT_NAMES] / BUFPOOL_NAME_WORDS ? s->names + BUFPOOL_NAME_WORDS * b : none;
}

static int same_name(const struct snapshot *before, const struct snapshot *s, uint64_t b)
{
    return memcmp(name_of(before, b), name_of(s, b), BUFPOOL_NAME_WORDS * sizeof(uint32_t)) == 0;
}

/* A buffer's private counts; zeros where they are not there. */
static const uint16_t *counts_of(const struct snapshot *s, uint64_t b)
{
    static const uint16_t none[BUFPOOL_MAX_HOLDERS];
    const uint16_t *counts = bufpool_view_counts(&s->view, b);
    return counts != NULL ? counts : none;
}

static int same_counts(const struct snapshot *before, const struct snapshot *s, uint64_t b)
{
    return memcmp(counts_of(before, b), counts_of(s, b), BUFPOOL_MAX_HOLDERS * sizeof(uint16_t)) == 0;
}

/* Whose pins on a buffer are others than before: "holder 2: 0 -> 1". */
static void print_holders_change(const char *comma, const struct snapshot *before, const struct snapshot *s, uint64_t b)
{
    const uint16_t *was = counts_of(before, b), *is = counts_of(s, b);
    uint32_t h;
    for (h = 0; h < BUFPOOL_MAX_HOLDERS; h++) {
        if (was[h] == is[h]) continue;
        printf("%sholder %u: %u -> %u", comma, h, was[h], is[h]);
        comma = ", ";
    }
}

/* The page stayed: what else of it changed. */
static void print_same_page(const struct snapshot *before, const struct snapshot *s, uint64_t b)
{
    uint32_t was = before->states[b], is = s->states[b];
    const char *comma = " ";
    if (bufpool_state_pins(was) != bufpool_state_pins(is)) {
        part(comma, "pins", bufpool_state_pins(was), bufpool_state_pins(is));
        comma = ", ";
    }
    if (bufpool_state_usage(was) != bufpool_state_usage(is)) {
        part(comma, "usage", bufpool_state_usage(was), bufpool_state_usage(is));
        comma = ", ";
    }
    if (bufpool_state_dirty(was) != bufpool_state_dirty(is)) {
        printf("%s%s", comma, bufpool_state_dirty(is) ? "clean -> dirty" : "dirty -> clean");
        comma = ", ";
    }
    if (position_of(before, b) != position_of(s, b)) {
        part(comma, "log position", position_of(before, b), position_of(s, b));
        comma = ", ";
    }
    if ((was ^ is) >> 22 != 0 && (was ^ is) >> 22 != DIRTY_FLAGS) {
        printf("%sstate word 0x%08X -> 0x%08X", comma, was, is);
        comma = ", ";
    }
    print_holders_change(comma, before, s, b);
}

/* What became of a page that is not in the buffer any more. Snapshots have it only of a page that this step's sweep took the buffer from:
   any other may have been evicted, written back or not, or dropped, or forgotten by a set up. */
static const char *end_of_page(const struct snapshot *before, const struct snapshot *s, uint64_t b)
{
    const int dirty = bufpool_state_dirty(before->states[b]);
    if (bufpool_state_empty(s->states[b])) return dirty ? "gone, was dirty; empty now" : "gone; empty now";
    if (step_took(before, s, b)) return s->head.event.pinned.wrote ? "evicted (written back)," : "evicted,";
    return dirty ? "replaced, was dirty," : "replaced,";
}

/* Another page, or none. */
static void print_other_page(const struct snapshot *before, const struct snapshot *s, uint64_t b)
{
    uint32_t was = before->states[b], is = s->states[b];
    char text[BUFPOOL_PAGE_TEXT], usage[BUFPOOL_PAGE_TEXT];
    if (!bufpool_state_empty(was)) printf(" page %s %s", bufpool_page_text(&before->view, b, text), end_of_page(before, s, b));
    if (bufpool_state_empty(was) && bufpool_state_empty(is)) printf(" empty, and its name, position or private counts are others");
    if (bufpool_state_empty(is)) return;
    printf(" page %s loaded: pins %u, usage %s, %s, log position %llu", bufpool_page_text(&s->view, b, text), bufpool_state_pins(is),
           bufpool_usage_text(&s->view, is, usage), bufpool_state_dirty(is) ? "dirty" : "clean", (bufpool_shown)position_of(s, b));
}

enum change { SAME, USAGE_ALONE, MORE };

static enum change change_of(const struct snapshot *before, const struct snapshot *s, uint64_t b)
{
    uint32_t differ = before->states[b] ^ s->states[b];
    if (!same_name(before, s, b) || position_of(before, b) != position_of(s, b) || !same_counts(before, s, b)) return MORE;
    if (differ == 0) return SAME;
    return bufpool_state_usage(differ) << 18 == differ ? USAGE_ALONE : MORE;
}

static void print_buffer_change(const struct snapshot *before, const struct snapshot *s, uint64_t b)
{
    uint32_t was = before->states[b], is = s->states[b];
    char text[BUFPOOL_PAGE_TEXT];
    if (!bufpool_state_empty(was) && !bufpool_state_empty(is) && same_name(before, s, b)) {
        printf("  buffer %llu, page %s:", (bufpool_shown)b, bufpool_page_text(&s->view, b, text));
        print_same_page(before, s, b);
    } else {
        printf("  buffer %llu:", (bufpool_shown)b);
        print_other_page(before, s, b);
        print_holders_change("\n    ", before, s, b);
    }
    putchar('\n');
}

/* A line for each buffer that changed. Answers 1 if there is one. */
static int print_buffer_changes(const struct snapshot *before, const struct snapshot *s, int full)
{
    uint64_t b, usages = 0;
    int changed = 0;
    for (b = 0; b < s->view.kept[BUFPOOL_KEPT_STATES]; b++) {
        enum change change = change_of(before, s, b);
        usages += change == USAGE_ALONE;
        changed |= change != SAME;
        if (change == MORE || (change == USAGE_ALONE && (full || usages <= USAGE_LINES))) print_buffer_change(before, s, b);
    }
    if (!full && usages > USAGE_LINES) printf("  usage alone changed in %llu buffers more\n", (bufpool_shown)(usages - USAGE_LINES));
    return changed;
}

/* ---- The control record and the files ---- */

/* Where the hand stands, whether it moved or not, how far the log moved, and what a set up changed. Answers 1 if something did. */
static int print_control_change(const struct snapshot *before, const struct snapshot *s)
{
    static const struct { const char *what; uint64_t at; } words[] = {
        {"hand", BUFPOOL_CONTROL_AT_HAND}, {"log inserted", BUFPOOL_CONTROL_AT_INSERTED}, {"log flushed", BUFPOOL_CONTROL_AT_FLUSHED},
        {"block size", BUFPOOL_CONTROL_AT_PAGE_SIZE}, {"cap", BUFPOOL_CONTROL_AT_CAP}};
    uint64_t was, is;
    size_t k;
    int changed = 0;
    for (k = 0; k < sizeof words / sizeof *words; k++) {
        was = bufpool_view_control(&before->view, words[k].at);
        is = bufpool_view_control(&s->view, words[k].at);
        if (was != is) part(k == 0 ? "  " : ", ", words[k].what, was, is);
        if (was == is && k == 0) bufpool_print_control(stdout, &s->view, "  hand at", words[k].at);
        changed |= was != is;
    }
    return changed;
}

static void print_row_change(const struct snapshot *s, const uint32_t *was, const uint32_t *is)
{
    const char *comma = " ";
    char text[BUFPOOL_PAGE_TEXT];
    printf("  file %s:", bufpool_file_text(&s->view, is, text));
    if (was[BUFPOOL_ROW_AT_BLOCKS] != is[BUFPOOL_ROW_AT_BLOCKS]) {
        part(comma, "blocks", was[BUFPOOL_ROW_AT_BLOCKS], is[BUFPOOL_ROW_AT_BLOCKS]);
        comma = ", ";
    }
    if (was[BUFPOOL_ROW_AT_CAPACITY] != is[BUFPOOL_ROW_AT_CAPACITY]) {
        part(comma, "capacity", was[BUFPOOL_ROW_AT_CAPACITY], is[BUFPOOL_ROW_AT_CAPACITY]);
        comma = ", ";
    }
    if (memcmp(was, is, BUFPOOL_FILE_WORDS * sizeof *is) != 0) {
        printf("%sthe row was that of file %s", comma, bufpool_file_text(&s->view, was, text));
    }
    putchar('\n');
}

static int print_file_changes(const struct snapshot *before, const struct snapshot *s)
{
    uint64_t files = s->view.kept[BUFPOOL_KEPT_ROWS] / BUFPOOL_ROW_WORDS, r;
    int changed = 0;
    for (r = 0; r < files; r++) {
        const uint32_t *was = before->rows + BUFPOOL_ROW_WORDS * r, *is = s->rows + BUFPOOL_ROW_WORDS * r;
        if (memcmp(was, is, BUFPOOL_ROW_WORDS * sizeof *is) == 0) continue;
        print_row_change(s, was, is);
        changed = 1;
    }
    return changed;
}

/* ---- A step ---- */

/* Both are of one pool as it was lent, so that buffer by buffer can be compared. */
static int comparable(const struct snapshot *before, const struct snapshot *s)
{
    return before != NULL && memcmp(before->head.lengths, s->head.lengths, sizeof s->head.lengths) == 0
        && memcmp(before->head.kept, s->head.kept, sizeof s->head.kept) == 0 && before->head.nulls == s->head.nulls
        && bufpool_view_page_size(&before->view) == bufpool_view_page_size(&s->view);
}

static int same_links(const struct snapshot *before, const struct snapshot *s)
{
    const uint64_t *kept = s->view.kept;
    return memcmp(before->control, s->control, kept[BUFPOOL_KEPT_CONTROL] * sizeof *s->control) == 0
        && memcmp(before->free, s->free, kept[BUFPOOL_KEPT_FREE] * sizeof *s->free) == 0
        && memcmp(before->heads, s->heads, kept[BUFPOOL_KEPT_HEADS] * sizeof *s->heads) == 0
        && memcmp(before->chain, s->chain, kept[BUFPOOL_KEPT_CHAIN] * sizeof *s->chain) == 0;
}

static void print_changes(const struct snapshot *before, const struct snapshot *s, int full)
{
    int changed = print_buffer_changes(before, s, full);
    changed |= print_file_changes(before, s);
    changed |= print_control_change(before, s);
    printf("%s\n", changed ? "" : same_links(before, s) ? "; no word changed" : "; links alone changed");
}

/* The till's text. A control character, which would move the terminal, is a dot. */
static void print_text(const char *text)
{
    for (; *text != '\0'; text++) putchar((unsigned char)*text >= ' ' && *text != 127 ? *text : '.');
}

static void print_event(const struct snapshot *s)
{
    const struct bufpool_event *event = &s->head.event;
    const struct bufpool_file *file = &event->name.file;
    const uint32_t words[BUFPOOL_NAME_WORDS] = {file->tablespace, file->database, file->relation, file->fork, event->name.block};
    char text[BUFPOOL_PAGE_TEXT];
    printf("%llu.", (bufpool_shown)s->number);
    if (event->pool != 0) printf(" pool %u:", event->pool);
    if (event->text[0] != '\0') putchar(' ');
    print_text(event->text);
    if (event->kind == BUFPOOL_EVENT_NONE && event->text[0] == '\0') printf(" a snapshot");
    if (event->kind == BUFPOOL_EVENT_PIN) {
        printf(" %s page %s", event->text[0] != '\0' ? "pins" : "pin of", bufpool_name_text(&s->view, words, text));
    }
    if (event->refusal != BUFPOOL_DONE) {
        printf(": refused, %u: %s", event->refusal, bufpool_refusal_words(event->refusal));
    } else if (event->kind == BUFPOOL_EVENT_PIN) {
        printf(": buffer %llu, %s", (bufpool_shown)event->pinned.buffer.number, event->pinned.hit ? "held already" : "loaded");
    }
    putchar('\n');
}

static void print_reason(const struct snapshot *s, int always, char *told)
{
    char words[BUFPOOL_WHY_BYTES] = "";
    if (snapshot_why(s, words) == BUFPOOL_DONE) {
        if (told[0] != '\0' && !always) printf("  sound again\n");
        words[0] = '\0';
    } else if (always || strcmp(told, words) != 0) {
        printf("  damaged: %s\n", words);
    }
    memcpy(told, words, sizeof words);
}

void print_step(const struct snapshot *before, const struct snapshot *s, int full, char told[BUFPOOL_WHY_BYTES])
{
    int compared = comparable(before, s);
    print_event(s);
    if (step_swept(s)) print_sweep(compared ? before : NULL, s, full);
    if (compared) print_changes(before, s, full);
    if (full || !compared) {
        printf("  ");
        bufpool_print_view(stdout, &s->view);
    }
    print_reason(s, full || !compared, told);
    putchar('\n');
    fflush(stdout);
}
