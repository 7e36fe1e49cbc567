/* The till's own memory damaged between two calls, as by a stray write: the next call is refused, and the till says why. */
#include <string.h>

#include "shop.h"

int main(void)
{
    const struct sizes sizes = {3, BUFPOOL_DEFAULT_CAP, 1024, 8, 0};
    struct shop shop;
    int fd = card_new(NULL, &sizes);
    memset(&shop, 0, sizeof shop);
    shop_start(&shop, fd, &sizes);
    shop.pool.free[2] = 1;
    must(&shop, "log inserted", bufpool_log_inserted_to(&shop.pool, 100));
    return 0;
}
