/* A pool as text, for somebody who looks at a till, and (bufpool_dump.h) as snapshots in a file for bufpool-show. No call of the library
   is made. The pool's words are not trusted: lengths decide what is read, and a link or a number is compared with them before it is
   followed. What cannot be read or followed is "?". If a rule is broken the last line begins with "damaged:" and is bufpool_why's. */
#ifndef BUFPOOL_SHOW_H
#define BUFPOOL_SHOW_H

#include <stdio.h>

#include "bufpool_dump.h"
#include "bufpool_why.h"

#ifdef __cplusplus
extern "C" {
#endif

#define BUFPOOL_PAGE_TEXT 128 /* bytes that hold the text of any page or file */
#define BUFPOOL_FREE_RUNS 8   /* runs of the free list that are printed */

typedef unsigned long long bufpool_shown; /* what %llu prints */

/* ---- Names ---- */

/* A file's name, or its four numbers. */
BUFPOOL_INLINE const char *bufpool_file_text(const struct bufpool_view *v, const uint32_t *words, char *text)
{
    const struct bufpool_file_name *known = v->files;
    uint64_t k;
    for (k = 0; k < v->files_len; k++, known++) {
        if (known->file.tablespace == words[BUFPOOL_FILE_AT_TABLESPACE] && known->file.database == words[BUFPOOL_FILE_AT_DATABASE]
            && known->file.relation == words[BUFPOOL_FILE_AT_RELATION] && known->file.fork == words[BUFPOOL_FILE_AT_FORK]) {
            snprintf(text, BUFPOOL_PAGE_TEXT, "%.64s", known->name);
            return text;
        }
    }
    snprintf(text, BUFPOOL_PAGE_TEXT, "%u %u %u %u", words[BUFPOOL_FILE_AT_TABLESPACE], words[BUFPOOL_FILE_AT_DATABASE],
             words[BUFPOOL_FILE_AT_RELATION], words[BUFPOOL_FILE_AT_FORK]);
    return text;
}

/* The page that five words name, as "3 of receipts". */
BUFPOOL_INLINE const char *bufpool_name_text(const struct bufpool_view *v, const uint32_t *words, char *text)
{
    char file[BUFPOOL_PAGE_TEXT];
    snprintf(text, BUFPOOL_PAGE_TEXT, "%u of %.64s", words[BUFPOOL_NAME_AT_BLOCK], bufpool_file_text(v, words, file));
    return text;
}

/* The page that a buffer's name says it has; "?" where there are no such words. */
BUFPOOL_INLINE const char *bufpool_page_text(const struct bufpool_view *v, uint64_t buffer, char *text)
{
    if (buffer >= v->kept[BUFPOOL_KEPT_NAMES] / BUFPOOL_NAME_WORDS) return "?";
    return bufpool_name_text(v, v->lent.names + BUFPOOL_NAME_WORDS * buffer, text);
}

/* ---- The summary ---- */

/* A word of the control record; all one bits where it is not there. */
BUFPOOL_INLINE uint64_t bufpool_view_control(const struct bufpool_view *v, uint64_t at)
{
    return at < v->kept[BUFPOOL_KEPT_CONTROL] ? v->lent.control[at] : UINT64_MAX;
}

static inline void bufpool_print_control(FILE *out, const struct bufpool_view *v, const char *before, uint64_t at)
{
    if (at < v->kept[BUFPOOL_KEPT_CONTROL]) {
        fprintf(out, "%s %llu", before, (bufpool_shown)v->lent.control[at]);
    } else {
        fprintf(out, "%s ?", before);
    }
}

BUFPOOL_INLINE uint64_t bufpool_view_empty(const struct bufpool_view *v)
{
    uint64_t b, empty = 0;
    for (b = 0; b < v->kept[BUFPOOL_KEPT_STATES]; b++) empty += (uint64_t)bufpool_state_empty(v->lent.states[b]);
    return empty;
}

static inline void bufpool_print_summary(FILE *out, const struct bufpool_view *v)
{
    uint64_t buffers = v->kept[BUFPOOL_KEPT_STATES], empty = bufpool_view_empty(v), pinned = 0, dirty = 0, b;
    uint64_t hand = bufpool_view_control(v, BUFPOOL_CONTROL_AT_HAND);
    for (b = 0; b < buffers; b++) {
        pinned += bufpool_state_pins(v->lent.states[b]) > 0;
        dirty += (uint64_t)bufpool_state_dirty(v->lent.states[b]);
    }
    fprintf(out, "%llu buffer%s: %llu in use, %llu pinned, %llu dirty, %llu empty;", (bufpool_shown)buffers, buffers == 1 ? "" : "s",
            (bufpool_shown)(buffers - empty), (bufpool_shown)pinned, (bufpool_shown)dirty, (bufpool_shown)empty);
    bufpool_print_control(out, v, " hand at", BUFPOOL_CONTROL_AT_HAND);
    if (hand >= buffers && v->kept[BUFPOOL_KEPT_CONTROL] > BUFPOOL_CONTROL_AT_HAND) fputs(" ?", out);
    bufpool_print_control(out, v, "; cap", BUFPOOL_CONTROL_AT_CAP);
    if (bufpool_view_cap(v) == 0 && v->kept[BUFPOOL_KEPT_CONTROL] > BUFPOOL_CONTROL_AT_CAP) fputs(" ?", out);
    bufpool_print_control(out, v, "; log inserted to", BUFPOOL_CONTROL_AT_INSERTED);
    bufpool_print_control(out, v, ", flushed to", BUFPOOL_CONTROL_AT_FLUSHED);
    fputc('\n', out);
}

/* ---- Buffers ---- */

/* A usage count, of the cap: "3 of 5". */
BUFPOOL_INLINE const char *bufpool_usage_text(const struct bufpool_view *v, uint32_t state, char *text)
{
    uint64_t cap = bufpool_view_cap(v);
    if (cap == 0) snprintf(text, BUFPOOL_PAGE_TEXT, "%u of ?", bufpool_state_usage(state));
    else snprintf(text, BUFPOOL_PAGE_TEXT, "%u of %llu", bufpool_state_usage(state), (bufpool_shown)cap);
    return text;
}

/* Who holds a buffer, each holder with its pins: "1: 1, 2: 3". Nothing where nobody does, if the state word says so too. */
static inline void bufpool_print_holders(FILE *out, const struct bufpool_view *v, uint64_t b)
{
    const uint16_t *counts = bufpool_view_counts(v, b);
    const char *comma = "  ";
    uint32_t h;
    for (h = 0; counts != NULL && h < BUFPOOL_MAX_HOLDERS; h++) {
        if (counts[h] == 0) continue;
        fprintf(out, "%s%u: %u", comma, h, (unsigned)counts[h]);
        comma = ", ";
    }
    if (counts == NULL) fputs("  ?", out);
    else if (comma[0] == ' ' && bufpool_state_pins(v->lent.states[b]) > 0) fputs("  none", out);
}

static inline void bufpool_print_buffer(FILE *out, const struct bufpool_view *v, uint64_t b)
{
    uint32_t state = v->lent.states[b];
    char page[BUFPOOL_PAGE_TEXT], usage[BUFPOOL_PAGE_TEXT];
    fprintf(out, "%c %6llu  %-24s  %4u  %8s  %-5s", bufpool_view_control(v, BUFPOOL_CONTROL_AT_HAND) == b ? '>' : ' ', (bufpool_shown)b,
            bufpool_page_text(v, b, page), bufpool_state_pins(state), bufpool_usage_text(v, state, usage),
            bufpool_state_dirty(state) ? "dirty" : "clean");
    if (b < v->kept[BUFPOOL_KEPT_POSITIONS]) {
        fprintf(out, "  %12llu", (bufpool_shown)bufpool_view_position(v, b));
    } else {
        fprintf(out, "  %12s", "?");
    }
    bufpool_print_holders(out, v, b);
    fputc('\n', out);
}

/* A row for each buffer in use; '>' is the hand. */
static inline void bufpool_print_buffers(FILE *out, const struct bufpool_view *v)
{
    uint64_t buffers = v->kept[BUFPOOL_KEPT_STATES], b;
    if (bufpool_view_empty(v) == buffers) return;
    fprintf(out, "  buffer  %-24s  pins     usage  %-5s  log position  holder: its pins\n", "page", "");
    for (b = 0; b < buffers; b++) {
        if (!bufpool_state_empty(v->lent.states[b])) bufpool_print_buffer(out, v, b);
    }
}

/* ---- The free list ---- */

/* The link of a buffer that has one; -1 is 64 one bits, as for the top. */
BUFPOOL_INLINE uint64_t bufpool_free_next(const struct bufpool_view *v, uint64_t at)
{
    return (uint64_t)(int64_t)v->lent.free[at];
}

/* Goes from a buffer to the end of its run of rising numbers, and marks what it passes. */
BUFPOOL_INLINE uint64_t bufpool_free_run(const struct bufpool_view *v, uint64_t at, uint64_t links, uint8_t *seen)
{
    seen[at] = 1;
    while (bufpool_free_next(v, at) == at + 1 && at + 1 < links && !seen[at + 1]) seen[++at] = 1;
    return at;
}

static inline void bufpool_print_run(FILE *out, uint64_t first, uint64_t last)
{
    fprintf(out, " %llu", (bufpool_shown)first);
    if (last > first) fprintf(out, last > first + 1 ? " to %llu" : " %llu", (bufpool_shown)last);
}

/* Where the list stops: at a buffer that it has been to, with "..", or at what has no link. The top is unsigned, a link is not. */
static inline void bufpool_print_free_end(FILE *out, uint64_t at, uint64_t links, uint64_t passed)
{
    if (at < links) {
        fputs(" ..", out);
    } else if (at != BUFPOOL_BUFFER_NONE && passed == 0) {
        fprintf(out, " %llu ?", (bufpool_shown)at);
    } else if (at != BUFPOOL_BUFFER_NONE) {
        fprintf(out, " %lld ?", (long long)at);
    }
    fputc('\n', out);
}

static inline void bufpool_print_free(FILE *out, const struct bufpool_view *v)
{
    uint64_t buffers = v->kept[BUFPOOL_KEPT_STATES], links = v->kept[BUFPOOL_KEPT_FREE];
    uint64_t at = bufpool_view_control(v, BUFPOOL_CONTROL_AT_FREE_TOP), last, passed = 0, shown = 0;
    uint8_t seen[BUFPOOL_MAX_BUFFERS] = {0};
    int runs = 0;
    if (v->kept[BUFPOOL_KEPT_CONTROL] <= BUFPOOL_CONTROL_AT_FREE_TOP) return;
    if (links > buffers) links = buffers;
    fprintf(out, "  free list:%s", at == BUFPOOL_BUFFER_NONE ? " none" : "");
    while (at < links && !seen[at]) {
        last = bufpool_free_run(v, at, links, seen);
        passed += last - at + 1;
        if (runs++ < BUFPOOL_FREE_RUNS) {
            bufpool_print_run(out, at, last);
            shown = passed;
        }
        at = bufpool_free_next(v, last);
    }
    if (passed > shown) fprintf(out, " and %llu more", (bufpool_shown)(passed - shown));
    bufpool_print_free_end(out, at, links, passed);
}

/* ---- Files ---- */

static inline void bufpool_print_files(FILE *out, const struct bufpool_view *v)
{
    const uint32_t *row = v->lent.rows;
    uint64_t files = v->kept[BUFPOOL_KEPT_ROWS] / BUFPOOL_ROW_WORDS;
    char text[BUFPOOL_PAGE_TEXT];
    for (; files > 0; files--, row += BUFPOOL_ROW_WORDS) {
        fprintf(out, "  file %s: %u of %u blocks\n", bufpool_file_text(v, row, text), row[BUFPOOL_ROW_AT_BLOCKS],
                row[BUFPOOL_ROW_AT_CAPACITY]);
    }
}

/* ---- All of it ---- */

/* All but the reason, which a view does not always have the pages for. */
static inline void bufpool_print_view(FILE *out, const struct bufpool_view *v)
{
    bufpool_print_summary(out, v);
    bufpool_print_buffers(out, v);
    bufpool_print_free(out, v);
    bufpool_print_files(out, v);
}

/* Prints a pool: a summary, a row for each buffer in use, the free list, the files, and the first rule that is broken, if one is. Some of
   the files have names. */
static inline void bufpool_print_named(FILE *out, const struct bufpool *m, const struct bufpool_file_name *files, uint64_t files_len)
{
    struct bufpool_view v = bufpool_view_of(m);
    char words[BUFPOOL_WHY_BYTES];
    v.files = files;
    v.files_len = files_len;
    bufpool_print_view(out, &v);
    if (bufpool_why(m, words, sizeof words) != BUFPOOL_DONE) fprintf(out, "  damaged: %s\n", words);
}

/* The same with no names. */
static inline void bufpool_print(FILE *out, const struct bufpool *m) { bufpool_print_named(out, m, NULL, 0); }

#ifdef __cplusplus
}
#endif

#endif
