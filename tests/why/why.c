#include "why.h"
#include "bufpool_why.h"

const size_t why_bytes = BUFPOOL_WHY_BYTES;

uint32_t why(const struct bufpool *m, char *words, size_t words_len)
{
    return bufpool_why(m, words, words_len);
}

uint32_t why_set_up(const struct bufpool *m, uint64_t page_size, uint64_t cap, char *words, size_t words_len)
{
    return bufpool_why_set_up(m, page_size, cap, words, words_len);
}
