/* The check of a rule image written plainly in C, over the same bytes: what the proved check is measured beside. */
#include "check_plain.h"

struct image { const uint8_t *bytes; };

static inline uint32_t word_at(struct image image, size_t at)
{
    const uint8_t *b = image.bytes + 4 * at;
    return (uint32_t)b[0] << 24 | (uint32_t)b[1] << 16 | (uint32_t)b[2] << 8 | b[3];
}

#include "check_walk.h"

uint64_t check_plain(const uint8_t *bytes, size_t length)
{
    size_t words = length / 4;
    if (length % 4) return 6ull << 32 | (words < 131072 ? words : 131072);
    return check_walk((struct image){bytes}, words);
}
