/* Packing and unpacking written plainly in C: what the proved calls are measured beside. */
#include <string.h>

#include "spread_plain.h"

struct image { const uint32_t *words; };

static inline uint32_t word_at(struct image image, size_t at) { return image.words[at]; }

#include "check_walk.h"

enum { LONGEST = 131071 };

/* The fields of a word that stand in the spread form: how many, and the width and the place of each. */
struct kind { uint32_t size, width[4], shift[4]; };

static const struct kind header = {3, {4, 10, 17}, {28, 18, 0}};
static const struct kind predicate = {4, {4, 1, 10, 17}, {28, 27, 17, 0}};
static const struct kind variable = {2, {4, 6}, {28, 0}};
static const struct kind constant = {2, {4, 28}, {28, 0}};
static const struct kind clause_word = {4, {4, 6, 6, 16}, {28, 22, 16, 0}};
static const struct kind goal = {2, {4, 10}, {28, 18}};

/* NULL where the op is none of the four. */
static inline const struct kind *kind_at(uint32_t count, size_t number, uint32_t op)
{
    if (number == 0) return &header;
    if (number <= count) return &predicate;
    switch (op) {
    case 1: return &variable;
    case 2: return &constant;
    case 8: return &clause_word;
    case 9: return &goal;
    default: return NULL;
    }
}

static struct plain scan(const uint32_t *list, size_t length)
{
    uint32_t count = length > 1 ? list[1] : 0;
    size_t at = 0, number = 0;
    for (; at < length; number++) {
        const struct kind *kind = kind_at(count, number, list[at]);
        if (kind == NULL) return (struct plain){29, at};
        for (uint32_t j = 0; j < kind->size; j++, at++) {
            if (at >= length) return (struct plain){19, at};
            if (list[at] >> kind->width[j]) return (struct plain){18, at};
        }
    }
    return (struct plain){0, number};
}

static inline uint32_t joined(const uint32_t *group, const struct kind *kind)
{
    uint32_t word = 0;
    for (uint32_t j = 0; j < kind->size; j++) word |= group[j] << kind->shift[j];
    return word;
}

struct plain pack_plain(const uint32_t *list, size_t length, uint32_t *room, size_t size)
{
    struct plain scanned = scan(list, length);
    if (scanned.refusal) return scanned;
    size_t words = scanned.value;
    uint32_t image[LONGEST + 1];
    uint32_t count = length > 1 ? list[1] : 0;
    if (words > LONGEST) {
        /* whatever follows, the header decides */
        image[0] = joined(list, &header);
        uint64_t fault = check_walk((struct image){image}, words);
        return (struct plain){(uint32_t)(fault >> 32), 0};
    }
    for (size_t at = 0, number = 0; number < words; number++) {
        const struct kind *kind = kind_at(count, number, list[at]);
        image[number] = joined(list + at, kind);
        at += kind->size;
    }
    uint64_t fault = check_walk((struct image){image}, words);
    if (fault) return (struct plain){(uint32_t)(fault >> 32), (uint32_t)fault};
    if (size < words) return (struct plain){26, 0};
    memcpy(room, image, 4 * words);
    return (struct plain){0, words};
}

struct plain unpack_plain(const uint32_t *image, size_t length, uint32_t *room, size_t size)
{
    uint64_t fault = check_walk((struct image){image}, length);
    if (fault) return (struct plain){(uint32_t)(fault >> 32), (uint32_t)fault};
    uint32_t count = image[0] >> 18 & 0x3ff;
    size_t need = 0, at = 0;
    for (size_t i = 0; i < length; i++) need += kind_at(count, i, image[i] >> 28)->size;
    if (size < need) return (struct plain){26, 0};
    for (size_t i = 0; i < length; i++) {
        const struct kind *kind = kind_at(count, i, image[i] >> 28);
        for (uint32_t j = 0; j < kind->size; j++) room[at++] = image[i] >> kind->shift[j] & ((1u << kind->width[j]) - 1);
    }
    return (struct plain){0, at};
}
