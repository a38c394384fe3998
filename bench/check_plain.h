#include <stddef.h>
#include <stdint.h>

uint64_t check_plain(const uint8_t *bytes, size_t length);
