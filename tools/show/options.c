#include "options.h"

#include <stdarg.h>
#include <stdlib.h>

static const char usage[] =
    "usage: bufpool-show DUMP [--watch N] [--from N] [--sweeps] [--full] [--pool N] [--wait S] [--file T,D,R,F=NAME].. [--help]\n";

static const char help[] =
    "Prints what a till's pool was like, from the snapshots that bufpool_dump (bufpool_show.h) has written to a file.\n"
    "Without options: the last snapshot.\n"
    "  --watch N            N snapshots from the first on, each as soon as it is written\n"
    "  --from N             the snapshots from number N on; with --watch, as many as it says\n"
    "  --sweeps             only pins that had to sweep; with --watch, as many as it says\n"
    "  --full               each with the whole pool and the whole sweep, not only with what changed\n"
    "  --pool N             only those of pool N, where the file has several pools\n"
    "  --wait S             a watch ends after S seconds, else 10, in which nothing was written\n"
    "  --file T,D,R,F=NAME  prints NAME for the file with these four numbers; once for each file\n"
    "A step is a snapshot beside the one before it: what happened, the buffers that the hand came to, what changed. A page is\n"
    "evicted if the pin's sweep took its buffer, else replaced or gone. Of the pages a snapshot has only the log positions.\n"
    "A buffer's pins are the holders that have some; which they are, and how many each has, stands behind the log position.\n"
    "'damaged:' is followed by the first rule that the pool breaks; a step has it if it was not said of the one shown before.\n"
    "Status: 0; 1 if no snapshot is of those asked for, or if the file cannot be read as snapshots to its end; 2 for a wrong option.\n";

static _Noreturn void refuse(const char *format, ...)
{
    va_list rest;
    fputs("bufpool-show: ", stderr);
    va_start(rest, format);
    vfprintf(stderr, format, rest);
    va_end(rest);
    fprintf(stderr, "\n%s", usage);
    exit(2);
}

/* A decimal number of 32 bits. Answers where it ends, or a null pointer. */
static const char *number(const char *text, uint64_t *value)
{
    char *end;
    unsigned long read;
    if (text == NULL || *text < '0' || *text > '9') return NULL;
    read = strtoul(text, &end, 10);
    *value = read;
    return read <= UINT32_MAX ? end : NULL;
}

static uint64_t whole_number(const char *option, const char *text, uint64_t least)
{
    uint64_t value = 0;
    const char *end = number(text, &value);
    if (end == NULL || *end != '\0' || value < least) refuse("%s takes a number from %d on", option, (int)least);
    return value;
}

/* T,D,R,F=NAME */
static struct bufpool_file_name file_name(const char *text)
{
    static const char behind[] = ",,,=";
    struct bufpool_file_name named;
    uint64_t words[BUFPOOL_FILE_WORDS] = {0, 0, 0, 0};
    const char *at = text;
    int k;
    for (k = 0; k < BUFPOOL_FILE_WORDS && at != NULL; k++) {
        at = number(at, &words[k]);
        at = at != NULL && *at == behind[k] ? at + 1 : NULL;
    }
    if (at == NULL || *at == '\0') refuse("--file takes T,D,R,F=NAME: a file's four numbers and its name");
    named.file.tablespace = (uint32_t)words[BUFPOOL_FILE_AT_TABLESPACE];
    named.file.database = (uint32_t)words[BUFPOOL_FILE_AT_DATABASE];
    named.file.relation = (uint32_t)words[BUFPOOL_FILE_AT_RELATION];
    named.file.fork = (uint32_t)words[BUFPOOL_FILE_AT_FORK];
    named.name = at;
    return named;
}

/* An option with a value. Answers 0 if it is none of these. */
static int take_value(struct options *o, const char *option, const char *value)
{
    if (strcmp(option, "--watch") == 0) {
        o->watching = 1;
        o->watch = whole_number(option, value, 0);
    } else if (strcmp(option, "--from") == 0) {
        o->from = whole_number(option, value, 1);
    } else if (strcmp(option, "--pool") == 0) {
        o->pool = whole_number(option, value, 0);
    } else if (strcmp(option, "--wait") == 0) {
        o->wait = whole_number(option, value, 0);
    } else if (strcmp(option, "--file") == 0) {
        if (o->files_len == BUFPOOL_MAX_FILES) refuse("--file names at most %d files", BUFPOOL_MAX_FILES);
        o->files[o->files_len++] = file_name(value);
    } else {
        return 0;
    }
    return 1;
}

struct options options_of(char **arg)
{
    struct options o;
    memset(&o, 0, sizeof o);
    o.pool = UINT64_MAX;
    o.wait = 10;
    while (*++arg != NULL) {
        if (take_value(&o, arg[0], arg[1])) {
            arg++;
        } else if (strcmp(*arg, "--sweeps") == 0) {
            o.sweeps = 1;
        } else if (strcmp(*arg, "--full") == 0) {
            o.full = 1;
        } else if (strcmp(*arg, "--help") == 0) {
            printf("%s%s", usage, help);
            exit(0);
        } else if (**arg == '-') {
            refuse("there is no option %s", *arg);
        } else if (o.path != NULL) {
            refuse("one file at a time: %s", *arg);
        } else {
            o.path = *arg;
        }
    }
    if (o.path == NULL) refuse("which file?");
    return o;
}
