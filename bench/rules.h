/* A legal image of a given length, and the best time of a call: what the measurements share. */
#include <stddef.h>
#include <stdint.h>
#include <stdio.h>
#include <stdlib.h>
#include <time.h>

enum { LONGEST = 131071, PREDICATES = 20, ROUNDS = 15, SHARE_MS = 20 };

static uint32_t var(uint32_t number) { return 1u << 28 | number; }

/* p(X, Y) :- p(Y, 7), q(Y, Z).  Nine words; predicate 19 has arity 0 and pads the image to its length. */
static inline void fill(void (*put)(size_t, uint32_t), size_t words)
{
    size_t clauses = (words - 1 - PREDICATES) / 9, padding = (words - 1 - PREDICATES) % 9, at = 1 + PREDICATES;
    put(0, 1u << 28 | PREDICATES << 18 | (uint32_t)words);
    for (uint32_t p = 0; p < PREDICATES; p++) {
        size_t count = p == PREDICATES - 1 ? padding : clauses < 1023 ? clauses : 1023;
        put(1 + p, (p == PREDICATES - 1 ? 0u : 2u << 28) | (uint32_t)count << 17 | (uint32_t)at);
        for (size_t c = 0; c < count; c++) {
            if (p == PREDICATES - 1) {
                put(at++, 8u << 28 | 1);
                continue;
            }
            uint32_t clause[] = {8u << 28 | 3 << 22 | 2 << 16 | 9, var(0), var(1), 9u << 28 | p << 18, var(1), 2u << 28 | 7,
                                 9u << 28 | ((p + 1) % (PREDICATES - 1)) << 18, var(1), var(2)};
            for (int i = 0; i < 9; i++) put(at++, clause[i]);
        }
        if (p < PREDICATES - 1) clauses -= count;
    }
}

static double seconds(void)
{
    struct timespec now;
    clock_gettime(CLOCK_PROCESS_CPUTIME_ID, &now);
    return now.tv_sec + now.tv_nsec / 1e9;
}

/* The best of several rounds, microseconds a call, of a call that must give this each time. */
static double best(size_t (*call)(void), size_t right)
{
    double least = 1e9;
    for (int round = 0; round < ROUNDS; round++) {
        long calls = 0;
        double from = seconds(), spent;
        do {
            if (call() != right) {
                puts("a call did not give what it must");
                exit(1);
            }
            calls++;
            spent = seconds() - from;
        } while (spent < SHARE_MS / 1e3);
        if (spent / calls < least) least = spent / calls;
    }
    return least * 1e6;
}
