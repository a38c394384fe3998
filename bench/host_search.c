/* A whole search through the calls of include/cumbwael.h, as a host makes it: load, then run to each answer and read it.
 *
 *   host_search FILE N     search N times; print runs and steps
 *
 * FILE is the desk program's: query length, query, image, most significant byte first. Every call checks image, query and memory anew. */
#include <stdio.h>
#include <stdlib.h>

#include "../include/cumbwael.h"

enum { MOST_BYTES = 1 << 16, STEPS = 65535 };

static uint32_t words[MOST_BYTES / 4], nodes[256], cells[2048], trail[2048], arrays[8192], workers[4], room[32];

#define MEMORY nodes, 256, cells, 2048, trail, 2048, arrays, 8192, workers, 4

static unsigned search(const uint32_t *image, size_t image_length, const uint32_t *query, size_t query_length)
{
    struct cumbwael_answer a = cumbwael_load(image, image_length, query, query_length, MEMORY);
    unsigned steps = 0;
    while (a.refusal == 0) {
        a = cumbwael_run(image, image_length, query, query_length, MEMORY, 0, STEPS - steps);
        steps += a.count;
        if (a.refusal != 0 || a.outcome != CUMBWAEL_ANSWER) break;
        a = cumbwael_read(image, image_length, query, query_length, MEMORY, room, 32, 0);
    }
    return steps;
}

int main(int count, char **args)
{
    static unsigned char bytes[MOST_BYTES];
    FILE *file = count == 3 ? fopen(args[1], "rb") : 0;
    if (!file) { fputs("usage: host_search FILE N\n", stderr); return 2; }
    size_t length = fread(bytes, 1, sizeof bytes, file) / 4;
    for (size_t i = 0; i < length; i++)
        words[i] = (uint32_t)bytes[4 * i] << 24 | bytes[4 * i + 1] << 16 | bytes[4 * i + 2] << 8 | bytes[4 * i + 3];
    unsigned long long steps = 0;
    long runs = atol(args[2]);
    for (long i = 0; i < runs; i++)
        steps += search(words + 1 + words[0], length - 1 - words[0], words + 1, words[0]);
    printf("%ld runs, %llu steps\n", runs, steps);
    return 0;
}
