/* Times one step through the public call, which looks at image, query and the whole memory first, beside a plain loop that reads those words once.
 * The first argument is a file of words, most significant byte first: query length, query, image; the second says how many steps are taken before.
 * The memory is put back from a copy before each timed step, and the time of the copying is taken off again. */
#include <string.h>

#include "../include/cumbwael.h"
#include "rules.h"

enum { MOST = 4096, MEMORY_WORDS = CUMBWAEL_NODES + CUMBWAEL_CELLS + CUMBWAEL_TRAIL + CUMBWAEL_ARRAYS + CUMBWAEL_WORKERS };

static struct {
    uint32_t nodes[CUMBWAEL_NODES], cells[CUMBWAEL_CELLS], trail[CUMBWAEL_TRAIL], arrays[CUMBWAEL_ARRAYS], workers[CUMBWAEL_WORKERS];
} memory, before;
static uint32_t words[MOST];
static size_t length, query_length, image_length;
static const uint32_t *query, *image;
static volatile uint32_t sum;

#define PAIR image, image_length, query, query_length
#define MEMORY memory.nodes, CUMBWAEL_NODES, memory.cells, CUMBWAEL_CELLS, memory.trail, CUMBWAEL_TRAIL, memory.arrays, CUMBWAEL_ARRAYS, memory.workers, CUMBWAEL_WORKERS

static uint32_t summed(const uint32_t *slice, size_t size)
{
    uint32_t all = 0;
    for (size_t i = 0; i < size; i++) all += slice[i];
    return all;
}

static size_t put_back(void)
{
    memcpy(&memory, &before, sizeof memory);
    return 0;
}

static size_t step(void)
{
    put_back();
    struct cumbwael_answer a = cumbwael_step(PAIR, MEMORY, 0);
    return a.refusal != 0 ? a.refusal : a.outcome;
}

static size_t read_once(void)
{
    sum = summed(memory.nodes, CUMBWAEL_NODES) + summed(memory.cells, CUMBWAEL_CELLS) + summed(memory.trail, CUMBWAEL_TRAIL)
        + summed(memory.arrays, CUMBWAEL_ARRAYS) + summed(memory.workers, CUMBWAEL_WORKERS) + summed(words + 1, length - 1);
    return 0;
}

static int read_file(const char *name)
{
    uint8_t four[4];
    FILE *file = fopen(name, "rb");
    if (!file) return 0;
    while (length < MOST && fread(four, 1, 4, file) == 4)
        words[length++] = (uint32_t)four[0] << 24 | (uint32_t)four[1] << 16 | (uint32_t)four[2] << 8 | four[3];
    fclose(file);
    if (length == 0 || length < 1 + words[0]) return 0;
    query = words + 1, query_length = words[0];
    image = query + query_length, image_length = length - 1 - query_length;
    return 1;
}

int main(int count, char **args)
{
    if (count != 3 || !read_file(args[1])) {
        fputs("usage: call_bench FILE STEPS\n", stderr);
        return 2;
    }
    if (cumbwael_load(PAIR, MEMORY).refusal != 0 || cumbwael_run(PAIR, MEMORY, 0, (uint32_t)atol(args[2])).refusal != 0) {
        puts("the file is refused");
        return 1;
    }
    before = memory;
    size_t used = 0;
    for (int slot = 0; slot < 64; slot++) used += memory.nodes[4 * slot] >> 31;
    double call = best(step, step()) - best(put_back, 0), once = best(read_once, 0);
    printf("one public step with %2zu slots used: %6.2f us; reading its %zu words once: %.2f us, ratio %.2f (aim 10)\n",
           used, call, MEMORY_WORDS + length - 1, once, call / once);
    return 0;
}
