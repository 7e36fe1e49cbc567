/* For LD_PRELOAD: an msync that counts its calls of at least MSYNC_LEAST bytes and says their number at the end; with MSYNC_FAILS these
   fail. */
#define _GNU_SOURCE
#include <errno.h>
#include <stdio.h>
#include <stdlib.h>
#include <sys/mman.h>

static int calls;

int msync(void *at, size_t length, int flags)
{
    const char *least = getenv("MSYNC_LEAST");
    (void)at;
    (void)flags;
    if (length < (least != NULL ? strtoull(least, NULL, 10) : 0)) return 0;
    calls++;
    if (getenv("MSYNC_FAILS") == NULL) return 0;
    errno = EIO;
    return -1;
}

__attribute__((destructor)) static void say(void)
{
    fprintf(stderr, "msync: %d\n", calls);
}
