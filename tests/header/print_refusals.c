/* Prints what the header says of each refusal, and of two numbers that are none. */
#include "bufpool.h"
#include <stdio.h>

int main(void)
{
    for (uint32_t k = 0; k <= BUFPOOL_NO_HOLDER + 2; k++) {
        printf("%u %s: %s;\n    %s\n", k, bufpool_refusal_name(k), bufpool_refusal_words(k), bufpool_refusal_advice(k));
    }
    return 0;
}
