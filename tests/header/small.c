/* For a compiler whose pointers and size_t have 32 bits: the lengths in the prototypes have 64. */
#include "bufpool.h"
#include "bufbooks.h"
#include "buftag.h"

_Static_assert(sizeof(size_t) == 4, "pointers of 32 bits");

/* A checkpoint, and names from bytes, by their types. */
typedef uint32_t checkpoint(uint64_t *, uint64_t, uint32_t *, uint64_t, const uint32_t *, uint64_t, const uint8_t *, uint64_t,
                            const int32_t *, uint64_t, const int32_t *, uint64_t, const int32_t *, uint64_t, const uint32_t *, uint64_t,
                            uint8_t *, uint64_t, const uint16_t *, uint64_t, uint64_t *, uint64_t);
typedef uint32_t name(const uint8_t *, uint64_t, uint32_t *, uint64_t);

extern checkpoint *const a_checkpoint;
checkpoint *const a_checkpoint = bufpool_checkpoint;
extern name *const a_name;
name *const a_name = buftag_name;

uint32_t write_all(struct bufpool *m, uint64_t *written);
uint32_t write_all(struct bufpool *m, uint64_t *written)
{
    return bufpool_checkpoint_pool(m, written);
}
