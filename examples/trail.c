#include "trail.h"

#include <errno.h>
#include <stdarg.h>
#include <string.h>

#include "bufpool_show.h"
#include "shop.h"

FILE *trail_new(const char *path)
{
    FILE *trail = fopen(path, "wb");
    if (trail == NULL) stop("no trail at %s: %s", path, strerror(errno));
    return trail;
}

static void put(struct shop *shop, const struct bufpool_event *event)
{
    if (bufpool_dump(shop->trail, &shop->pool, event) != 0) stop("the trail cannot be written");
}

void trail_note(struct shop *shop, const char *format, ...)
{
    char text[BUFPOOL_EVENT_TEXT + 1];
    va_list rest;
    va_start(rest, format);
    vsnprintf(text, sizeof text, format, rest);
    va_end(rest);
    trail_call(shop, text, BUFPOOL_DONE);
}

void trail_call(struct shop *shop, const char *text, uint32_t refusal)
{
    struct bufpool_event event;
    if (shop->trail == NULL) return;
    event = bufpool_event_of_call(text, refusal);
    put(shop, &event);
}

void trail_pin(struct shop *shop, const char *who, struct bufpool_name name, uint32_t refusal, const struct bufpool_pinned *pinned)
{
    struct bufpool_event event;
    if (shop->trail == NULL) return;
    event = bufpool_event_of_pin(who, name, refusal, pinned);
    put(shop, &event);
}

void trail_end(struct shop *shop)
{
    struct bufpool_event event;
    if (shop->trail == NULL) return;
    event = bufpool_event_of(BUFPOOL_EVENT_END, "");
    put(shop, &event);
    if (fclose(shop->trail) != 0) stop("the trail cannot be written");
    shop->trail = NULL;
}
