/* Searches document 01's rules, p(c5). p(c6)., for the answers to p(X): step by step, then from answer to answer, then with two workers; and shows
 * each refusal of the search's calls. Each line is a call and what it answered. */
#include <stdio.h>

#include "cumbwael.h"

static const uint32_t image[] = {0x10040006, 0x10040002, 0x80000002, 0x20000005, 0x80000002, 0x20000006};
static const uint32_t query[] = {0x80410003, 0x90000000, 0x10000000};

/* All that lasts from call to call. */
static uint32_t nodes[CUMBWAEL_NODES], cells[CUMBWAEL_CELLS], trail[CUMBWAEL_TRAIL], arrays[CUMBWAEL_ARRAYS], workers[CUMBWAEL_WORKERS];
static uint32_t room[CUMBWAEL_ANSWER_WORDS];

#define PAIR image, 6, query, 3
#define MEMORY nodes, CUMBWAEL_NODES, cells, CUMBWAEL_CELLS, trail, CUMBWAEL_TRAIL, arrays, CUMBWAEL_ARRAYS, workers, CUMBWAEL_WORKERS

static const char *const outcomes[] = {
    [CUMBWAEL_TRIED] = "Tried",
    [CUMBWAEL_EXTENDED] = "Extended",
    [CUMBWAEL_ANSWER] = "Answer",
    [CUMBWAEL_BACK] = "Back",
    [CUMBWAEL_LEFT] = "Left",
    [CUMBWAEL_WAIT] = "Wait",
    [CUMBWAEL_FINISHED] = "Finished",
    [CUMBWAEL_SPENT] = "Spent",
    [CUMBWAEL_FULL] = "Full",
};

/* A refusal comes first: on a refusal the outcome is 0, and 0 is also Tried. */
static int refused(const char *call, struct cumbwael_answer a)
{
    if (a.refusal == 0) return 0;
    printf("%s: refused %u %u\n", call, a.refusal, a.position);
    return 1;
}

static void load(void)
{
    struct cumbwael_answer a = cumbwael_load(PAIR, MEMORY);
    if (!refused("load", a)) puts("load: done");
}

static void step(uint32_t worker)
{
    struct cumbwael_answer a = cumbwael_step(PAIR, MEMORY, worker);
    if (!refused("step", a)) printf("step of worker %u: %s, slot %u\n", worker, outcomes[a.outcome], a.slot);
}

static uint32_t run(uint32_t worker, uint32_t budget)
{
    struct cumbwael_answer a = cumbwael_run(PAIR, MEMORY, worker, budget);
    if (!refused("run", a)) printf("run of worker %u: %s, slot %u, steps %u\n", worker, outcomes[a.outcome], a.slot, a.count);
    return a.refusal == 0 ? a.outcome : CUMBWAEL_FINISHED;
}

static void move(uint32_t worker, uint32_t slot)
{
    struct cumbwael_answer a = cumbwael_move(PAIR, MEMORY, worker, slot);
    if (!refused("move", a)) printf("move of worker %u to slot %u: entries passed %u\n", worker, slot, a.count);
}

/* An answer is CON words, op 2 and the constant, and VAR words, op 1 and the number. */
static void show_answer(uint32_t worker, size_t size)
{
    struct cumbwael_answer a = cumbwael_read(PAIR, MEMORY, room, size, worker);
    if (refused("read", a)) return;
    printf("read by worker %u:", worker);
    for (uint32_t i = 0; i < a.count; i++) printf(" %c%u", room[i] >> 28 == 2 ? 'c' : 'v', (unsigned)(room[i] & 0xfffffff));
    puts("");
}

static void array_words(void)
{
    printf("array words of workers 0 and 1: 0x%08x 0x%08x\n", arrays[0], arrays[2048]);
}

static void by_steps(void)
{
    puts("-- step by step");
    load();
    for (int i = 0; i < 5; i++) step(0);
}

static void by_answers(void)
{
    puts("-- from answer to answer");
    load();
    run(0, 0);
    while (run(0, 100) == CUMBWAEL_ANSWER) show_answer(0, CUMBWAEL_ANSWER_WORDS);
}

static void by_two(void)
{
    puts("-- with two workers");
    load();
    step(0);
    step(1);
    array_words();
    move(0, 2);
    array_words();
    show_answer(0, 1);
    move(0, 2);
    step(0);
    step(1);
    step(0);
    array_words();
}

static void refusals(void)
{
    puts("-- refusals");
    refused("load, an image without words", cumbwael_load(image, 0, query, 3, MEMORY));
    refused("load, a query without words", cumbwael_load(image, 6, query, 0, MEMORY));
    refused("load, a length field that is not the image's", cumbwael_load(image, 5, query, 3, MEMORY));
    refused("check_query, a query one word short", cumbwael_check_query(image, 6, query, 2));
    refused("step, arrays one word short", cumbwael_step(PAIR, nodes, 256, cells, 2048, trail, 2048, arrays, 8191, workers, 4, 0));
    load();
    step(4);
    move(0, 1);
    move(0, 64);
    show_answer(0, 1);
    step(0);
    show_answer(0, 0);
    arrays[0]++;
    step(0);
    refused("step, wrong in every way", cumbwael_step(image, 5, query, 2, nodes, 255, cells, 2048, trail, 2048, arrays, 8192, workers, 4, 4));
    arrays[0]--;
    step(0);
}

int main(void)
{
    struct cumbwael_answer a = cumbwael_check_query(PAIR);
    if (refused("check_query", a)) return 1;
    by_steps();
    by_answers();
    by_two();
    refusals();
    return 0;
}
