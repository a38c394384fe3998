/* Times packing and unpacking, proved and plain, on a legal image of the greatest length and on a small one, in one run. */
#include <stdio.h>
#include <stdlib.h>
#include <string.h>

#include "../include/cumbwael.h"
#include "rules.h"
#include "spread_plain.h"

static uint32_t image[LONGEST], list[4 * LONGEST], packed[LONGEST], spread[4 * LONGEST];
static size_t words, values;

static void store(size_t at, uint32_t word) { image[at] = word; }

static size_t pack_ours(void) { return cumbwael_pack(list, values, packed, LONGEST).count; }
static size_t unpack_ours(void) { return cumbwael_unpack(image, words, spread, 4 * LONGEST).count; }
static size_t pack_c(void) { return pack_plain(list, values, packed, LONGEST).value; }
static size_t unpack_c(void) { return unpack_plain(image, words, spread, 4 * LONGEST).value; }

static void hold(int right)
{
    if (right) return;
    puts("a call did not give what it must");
    exit(1);
}

int main(void)
{
    size_t sizes[] = {LONGEST, 1024, 32};
    for (int i = 0; i < 3; i++) {
        fill(store, words = sizes[i]);
        values = unpack_plain(image, words, list, 4 * LONGEST).value;
        hold(unpack_ours() == values && memcmp(list, spread, 4 * values) == 0);
        hold(pack_ours() == words && memcmp(image, packed, 4 * words) == 0);
        memset(packed, 0, sizeof packed);
        hold(pack_c() == words && memcmp(image, packed, 4 * words) == 0);
        double ours = best(pack_ours, words), plain = best(pack_c, words);
        printf("packing   %6zu words: proved %8.2f us, plain C %8.2f us, ratio %.2f\n", words, ours, plain, ours / plain);
        ours = best(unpack_ours, values), plain = best(unpack_c, values);
        printf("unpacking %6zu words: proved %8.2f us, plain C %8.2f us, ratio %.2f\n", words, ours, plain, ours / plain);
    }
    return 0;
}
