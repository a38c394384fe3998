/* How much stack each call takes: it is run on a stack that was painted, and the paint that is left is counted. The search's calls are measured where
 * the climb for the next goal is long: a fact behind 62 frames that have no goal left. */
#include <stdio.h>
#include <string.h>
#include <ucontext.h>

#include "../include/cumbwael.h"

enum { SIZE = 1 << 20, PAINT = 0xa5 };

static unsigned char stack[SIZE];
static ucontext_t here, there;

/* p(X) :- p(X). p(c5). as words, bytes and spread form, and the query p(X). */
static const uint32_t image[] = {0x10040008, 0x10040002, 0x80410004, 0x10000000, 0x90000000, 0x10000000, 0x80000002, 0x20000005};
static const uint32_t query[] = {0x80410003, 0x90000000, 0x10000000};
static uint8_t bytes[4 * 8];
static uint32_t list[4 * 8];
static size_t list_length;
static uint32_t nodes[CUMBWAEL_NODES], cells[CUMBWAEL_CELLS], trail[CUMBWAEL_TRAIL], arrays[CUMBWAEL_ARRAYS], workers[CUMBWAEL_WORKERS];
static uint32_t room[4 * 8];
static uint64_t verdict;
static struct cumbwael_answer answer;

#define PAIR image, 8, query, 3
#define MEMORY nodes, CUMBWAEL_NODES, cells, CUMBWAEL_CELLS, trail, CUMBWAEL_TRAIL, arrays, CUMBWAEL_ARRAYS, workers, CUMBWAEL_WORKERS

static void nothing(void) { verdict = 0; }
static void check(void) { verdict = cumbwael_check(bytes, 4 * 8); }
static void unpack(void) { answer = cumbwael_unpack(image, 8, list, 4 * 8); }
static void pack(void) { answer = cumbwael_pack(list, list_length, room, 8); }
static void check_query(void) { answer = cumbwael_check_query(PAIR); }
static void load(void) { answer = cumbwael_load(PAIR, MEMORY); }
static void run_down(void) { answer = cumbwael_run(PAIR, MEMORY, 0, 62); }
static void move_near(void) { answer = cumbwael_move(PAIR, MEMORY, 1, 61); }
static void step_to_answer(void) { answer = cumbwael_step(PAIR, MEMORY, 1); }
static void move_to_answer(void) { answer = cumbwael_move(PAIR, MEMORY, 2, 63); }
static void read_answer(void) { answer = cumbwael_read(PAIR, MEMORY, room, 1, 2); }
static void step_from_answer(void) { answer = cumbwael_step(PAIR, MEMORY, 2); }
static void run_from_answer(void) { answer = cumbwael_run(PAIR, MEMORY, 1, 1000); }

static size_t used(void (*call)(void))
{
    memset(stack, PAINT, SIZE);
    getcontext(&there);
    there.uc_stack.ss_sp = stack;
    there.uc_stack.ss_size = SIZE;
    there.uc_link = &here;
    makecontext(&there, call, 0);
    swapcontext(&here, &there);
    size_t left = 0;
    while (left < SIZE && stack[left] == PAINT) left++;
    return SIZE - left;
}

static void show(const char *name, void (*call)(void))
{
    size_t idle = used(nothing), most = used(call);
    printf("stack of %-30s %6zu bytes: refusal %u outcome %u slot %u count %u\n", name, most - idle, answer.refusal, answer.outcome, answer.slot, answer.count);
}

int main(void)
{
    for (int i = 0; i < 32; i++) bytes[i] = (uint8_t)(image[i / 4] >> (24 - 8 * (i % 4)));
    show("cumbwael_check", check);
    show("cumbwael_unpack", unpack);
    list_length = answer.count;
    show("cumbwael_pack", pack);
    show("cumbwael_check_query", check_query);
    show("cumbwael_load", load);
    show("cumbwael_run, 62 frames down", run_down);
    show("cumbwael_move", move_near);
    show("cumbwael_step to an answer", step_to_answer);
    show("cumbwael_move to the answer", move_to_answer);
    show("cumbwael_read of the answer", read_answer);
    show("cumbwael_step from the answer", step_from_answer);
    show("cumbwael_run from the answer", run_from_answer);
    return 0;
}
