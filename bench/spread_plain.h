#include <stddef.h>
#include <stdint.h>

/* 0 and the count of words written, or the number of the refusal and the position. */
struct plain { uint32_t refusal; size_t value; };

struct plain pack_plain(const uint32_t *list, size_t length, uint32_t *room, size_t size);
struct plain unpack_plain(const uint32_t *image, size_t length, uint32_t *room, size_t size);
