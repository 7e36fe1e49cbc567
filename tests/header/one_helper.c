/* One call and no other, which CALL has: what an object needs that a till links with the library. */
#include "bufpool.h"

struct given {
    struct bufpool *m;
    struct bufpool_file file;
    struct bufpool_name name;
    struct bufpool_buffer buffer;
    struct bufpool_holder holder;
    struct bufpool_pinned pinned;
    struct bufpool_part part;
    uint64_t number, answer[BUFPOOL_ANSWER_WORDS];
    uint32_t block;
    uint8_t bytes[8];
};

uint32_t one_call(struct given *g);

uint32_t one_call(struct given *g)
{
    return CALL;
}

int main(void)
{
    return 0;
}
