/* Times the proved check beside the plain one, on a legal image of the greatest length and on a small one, in one run. */
#include "../include/cumbwael.h"
#include "check_plain.h"
#include "rules.h"

static uint8_t image[4 * LONGEST];
static size_t length;

static void store(size_t at, uint32_t word)
{
    for (int i = 0; i < 4; i++) image[4 * at + i] = (uint8_t)(word >> (24 - 8 * i));
}

static size_t ours(void) { return cumbwael_check(image, length); }
static size_t plain(void) { return check_plain(image, length); }

int main(void)
{
    size_t sizes[] = {LONGEST, 1024, 32};
    for (int i = 0; i < 3; i++) {
        fill(store, sizes[i]);
        length = 4 * sizes[i];
        double a = best(ours, 0), b = best(plain, 0);
        printf("check of  %6zu words: proved %8.2f us, plain C %8.2f us, ratio %.2f\n", sizes[i], a, b, a / b);
    }
    return 0;
}
