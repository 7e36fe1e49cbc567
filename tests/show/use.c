/* Each function of bufpool_show.h that a till calls, in C and C++, included first and twice. It links without the library. */
#include "bufpool_show.h"
#include "bufpool_show.h"

int main(void)
{
    static struct bufpool m;
    static const struct bufpool_file file = {1663, 5, 16384, 0};
    static const struct bufpool_file_name names[] = {{{1663, 5, 16384, 0}, "receipts"}};
    static const struct bufpool_pinned pinned = {{BUFPOOL_BUFFER_NONE}, 0, 0, 0};
    static const char long_text[] = "longer than the eighty characters that there is room for: it has to be cut, and no compiler warns";
    struct bufpool_event pin = bufpool_event_of_pin(long_text, bufpool_name_of(file, 3), BUFPOOL_ALL_PINNED, &pinned);
    struct bufpool_event call = bufpool_event_of_call(NULL, BUFPOOL_DONE), end = bufpool_event_of(BUFPOOL_EVENT_END, "");
    bufpool_print(stderr, &m);
    bufpool_print_named(stderr, &m, names, 1);
    if (pin.text[BUFPOOL_EVENT_TEXT - 1] == '\0' || pin.text[BUFPOOL_EVENT_TEXT] != '\0') return 1;
    if (bufpool_dump(stdout, &m, &pin) != 0 || bufpool_dump(stdout, &m, &call) != 0) return 1;
    return bufpool_dump(stdout, &m, &end) != 0 || bufpool_dump(stdout, &m, NULL) != 0;
}
