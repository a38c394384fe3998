/* Cumbwael: the release-rule engine, as a host in C calls it.
 *
 * Link with libhost.a (README, "Embedding in C"). No call allocates, keeps a pointer,
 * writes to what it was not lent, or fails in any way but by its answer.
 *
 * A caller's duties, which no call can test:
 * - each pointer is to as many elements as its length says, aligned for its type; of a length 0 it is not used;
 * - what is passed without const overlaps nothing else that is passed;
 * - nobody else reads or writes it during the call, or writes what is passed as const.
 */
#ifndef CUMBWAEL_H
#define CUMBWAEL_H

#include <stddef.h>
#include <stdint.h>

#ifdef __cplusplus
extern "C" {
#endif

/* ---- Numbers ---- */

/* What is wrong with an image, and the word at which it is reported. */
enum cumbwael_fault {
    CUMBWAEL_EMPTY_IMAGE = 1,        /* image slice empty (0) */
    CUMBWAEL_WRONG_EDITION = 2,      /* edition is not 1 (0) */
    CUMBWAEL_NO_PREDICATES = 3,      /* the predicate count is 0 (0) */
    CUMBWAEL_ZERO_FIELD = 4,         /* a zero field is not zero (the word) */
    CUMBWAEL_LENGTH_FIELD = 5,       /* length field differs from slice length (0) */
    CUMBWAEL_ENDS_EARLY = 6,         /* words end early (slice length) */
    CUMBWAEL_FIRST_CLAUSE = 7,       /* position of first clause wrong (predicate word) */
    CUMBWAEL_CLAUSE_EXPECTED = 8,    /* op 8 expected (the word) */
    CUMBWAEL_VARIABLE_COUNT = 9,     /* variables over 32 (CLAUSE word) */
    CUMBWAEL_GOAL_COUNT = 10,        /* goals over 16; in a query also 0 (CLAUSE word) */
    CUMBWAEL_ARGUMENT_EXPECTED = 11, /* op 1 or 2 expected (the word) */
    CUMBWAEL_VARIABLE_NUMBER = 12,   /* variable number not below the declared count, or above the
                                        number seen so far in the clause (the word) */
    CUMBWAEL_GOAL_EXPECTED = 13,     /* op 9 expected (the word) */
    CUMBWAEL_NO_SUCH_PREDICATE = 14, /* predicate not below the predicate count (GOAL word) */
    CUMBWAEL_UNUSED_VARIABLE = 15,   /* a declared variable never appears (CLAUSE word) */
    CUMBWAEL_CLAUSE_LENGTH = 16,     /* clause length wrong (CLAUSE word) */
    CUMBWAEL_LEFT_OVER = 17          /* words left over (the first of them) */
};

/* What is wrong with a query: 32 plus the number, at the query's word. A query has no header and no
 * predicate words, so 33, 34, 35, 37 and 39 are never given; an empty query is 38 at 0. */
enum cumbwael_query_fault {
    CUMBWAEL_QUERY_EMPTY_IMAGE = 33,       /* never given */
    CUMBWAEL_QUERY_WRONG_EDITION = 34,     /* never given */
    CUMBWAEL_QUERY_NO_PREDICATES = 35,     /* never given */
    CUMBWAEL_QUERY_ZERO_FIELD = 36,        /* a zero field is not zero (the word) */
    CUMBWAEL_QUERY_LENGTH_FIELD = 37,      /* never given */
    CUMBWAEL_QUERY_ENDS_EARLY = 38,        /* words end early (slice length) */
    CUMBWAEL_QUERY_FIRST_CLAUSE = 39,      /* never given */
    CUMBWAEL_QUERY_CLAUSE_EXPECTED = 40,   /* op 8 expected (0) */
    CUMBWAEL_QUERY_VARIABLE_COUNT = 41,    /* variables over 32 (0) */
    CUMBWAEL_QUERY_GOAL_COUNT = 42,        /* goals 0 or over 16 (0) */
    CUMBWAEL_QUERY_ARGUMENT_EXPECTED = 43, /* op 1 or 2 expected (the word) */
    CUMBWAEL_QUERY_VARIABLE_NUMBER = 44,   /* variable number not below the declared count, or above the
                                              number seen so far (the word) */
    CUMBWAEL_QUERY_GOAL_EXPECTED = 45,     /* op 9 expected (the word) */
    CUMBWAEL_QUERY_NO_SUCH_PREDICATE = 46, /* predicate not below the image's predicate count (GOAL word) */
    CUMBWAEL_QUERY_UNUSED_VARIABLE = 47,   /* a declared variable never appears (0) */
    CUMBWAEL_QUERY_CLAUSE_LENGTH = 48,     /* clause length wrong (0) */
    CUMBWAEL_QUERY_LEFT_OVER = 49          /* words left over (the first of them) */
};

/* Why a call is refused, beside the faults of image and query. 24 is no refusal but the outcome Full, and 27
 * is no number of ours. docs/REFUSALS.md says what to do about each. */
enum cumbwael_refusal {
    CUMBWAEL_TOO_WIDE = 18,     /* a value too wide for its field (its place in the list) */
    CUMBWAEL_LIST_ENDS = 19,    /* list ends inside a word's group (the list's length) */
    CUMBWAEL_SLICE_LENGTH = 20, /* a lent slice has the wrong length (0) */
    CUMBWAEL_DAMAGED = 21,      /* the memory is not what image and query can have made of it (0) */
    CUMBWAEL_NO_WORKER = 22,    /* worker above 3 (0) */
    CUMBWAEL_NO_SLOT = 23,      /* move: slot above 63 or free (0) */
    CUMBWAEL_NO_ANSWER = 25,    /* read: not at a node without goals (0) */
    CUMBWAEL_ROOM = 26,         /* too little room; read: room below the query's variable count (0) */
    CUMBWAEL_BAD_FILE = 28,     /* of the desk program's file alone; no call gives it */
    CUMBWAEL_UNKNOWN_OP = 29    /* op is none of 1, 2, 8, 9 (its place in the list) */
};

/* What a step or a run did. 2 is also the number of a refusal, and 0 also what a refused call has here: look at
 * `refusal` first. */
enum cumbwael_outcome {
    CUMBWAEL_TRIED = 0,    /* the next clause did not unify; only the tried count has changed */
    CUMBWAEL_EXTENDED = 1, /* it did: a child was made and the worker is there */
    CUMBWAEL_ANSWER = 2,   /* it did, and the child has no goal: cumbwael_read reads its answer */
    CUMBWAEL_BACK = 3,     /* the dead node was freed, the worker is at its parent */
    CUMBWAEL_LEFT = 4,     /* the worker left a dead node where another stands, and is at its parent */
    CUMBWAEL_WAIT = 5,     /* nothing to do here while a child stands */
    CUMBWAEL_FINISHED = 6, /* the root is dead and has no child: the search is over */
    CUMBWAEL_SPENT = 7,    /* of a run: the budget is used */
    CUMBWAEL_FULL = 24     /* all slots are used; nothing has changed */
};

/* The lengths of the five lent slices, in words; any other is refused with 20. */
enum cumbwael_length {
    CUMBWAEL_NODES = 256,
    CUMBWAEL_CELLS = 2048,
    CUMBWAEL_TRAIL = 2048,
    CUMBWAEL_ARRAYS = 8192,
    CUMBWAEL_WORKERS = 4
};

/* Room that always does: an answer has a word for each of a query's variables, at most 32. */
enum { CUMBWAEL_ANSWER_WORDS = 32 };

/* What all calls but cumbwael_check answer. Every field is written on every call, and is 0 where it does not
 * apply: on a refusal outcome, slot and count are 0. So test `refusal` first: outcome 0 is Tried. */
struct cumbwael_answer {
    uint32_t refusal;  /* 0 if the call was done, else the number of the refusal: of enum cumbwael_fault,
                          cumbwael_query_fault or cumbwael_refusal */
    uint32_t position; /* of a refusal: the place in the list or the word of image or query, counted from 0 */
    uint32_t outcome;  /* of a step or a run: of enum cumbwael_outcome */
    uint32_t slot;     /* of a step or a run: the worker's slot after it */
    uint32_t count;    /* of a run the steps, of a move the entries passed on both legs, of cumbwael_read,
                          cumbwael_pack and cumbwael_unpack the words written */
};

/* ---- The checks ---- */

/* The check of a rule image handed as bytes, most significant byte of each word first.
 *
 * bytes   the image; may be any address, aligned or not
 * length  in bytes; every length is taken, also one that is no multiple of four
 *         and one that is longer than any image
 *
 * Answers 0 if the image is legal, else number * 2^32 + position: the number of the
 * first fault met (enum cumbwael_fault) and the word, counted from 0, at which it is
 * reported. Nothing outside the slice is read and nothing is written.
 *
 * Stack: 516 KiB at the most, and as much for a small image as for the largest; a thread
 * that calls it must have them.
 */
uint64_t cumbwael_check(const uint8_t *bytes, size_t length);

static inline uint32_t cumbwael_number(uint64_t answer) { return (uint32_t)(answer >> 32); }
static inline uint32_t cumbwael_position(uint64_t answer) { return (uint32_t)answer; }

/* The check of a query against its image, both as words.
 *
 * Refused: 1 to 17 at the image's word, then 36 to 49 at the query's. Nothing is written.
 *
 * Stack: 1 KiB at the most.
 */
struct cumbwael_answer cumbwael_check_query(const uint32_t *image, size_t image_length, const uint32_t *query, size_t query_length);

/* ---- The search ----
 *
 * Five slices of words are lent to every call, and hold all that lasts from call to call: give the same five, the
 * same image and the same query to each call until the next load. Slices come first, each with its length in
 * elements, in the order image, query, nodes, cells, trail, arrays, workers (for cumbwael_read then the room); then
 * the numbers.
 *
 * Refused, in this order: 20, 1 to 17, 36 to 49, 21, 22, and then what each call says. A refused call leaves every
 * word as it was. Every call looks at image, query and the whole memory before it does anything, which takes far
 * longer than a step: a run pays for it once.
 *
 * Stack: 1 KiB at the most for cumbwael_load, 20 KiB for the others.
 */

/* Sets the memory afresh for a query, all workers at slot 0; what the five slices held does not matter.
 * Of the refusals, 21 and 22 do not apply. */
struct cumbwael_answer cumbwael_load(
    const uint32_t *image, size_t image_length, const uint32_t *query, size_t query_length,
    uint32_t *nodes, size_t nodes_length, uint32_t *cells, size_t cells_length, uint32_t *trail, size_t trail_length,
    uint32_t *arrays, size_t arrays_length, uint32_t *workers, size_t workers_length);

/* One step by a worker, 0 to 3: the first of document 01's seven rules that fits. Answers outcome and slot. */
struct cumbwael_answer cumbwael_step(
    const uint32_t *image, size_t image_length, const uint32_t *query, size_t query_length,
    uint32_t *nodes, size_t nodes_length, uint32_t *cells, size_t cells_length, uint32_t *trail, size_t trail_length,
    uint32_t *arrays, size_t arrays_length, uint32_t *workers, size_t workers_length,
    uint32_t worker);

/* Steps by a worker until Answer, Wait or Finished (counted), Full (not counted) or until the budget is used.
 * Answers outcome, slot and the count of steps. A budget of 0 is Spent with 0. */
struct cumbwael_answer cumbwael_run(
    const uint32_t *image, size_t image_length, const uint32_t *query, size_t query_length,
    uint32_t *nodes, size_t nodes_length, uint32_t *cells, size_t cells_length, uint32_t *trail, size_t trail_length,
    uint32_t *arrays, size_t arrays_length, uint32_t *workers, size_t workers_length,
    uint32_t worker, uint32_t budget);

/* Takes a worker to a used slot. Answers in count the entries passed on both legs; to its own slot, 0.
 * Refused also with 23. */
struct cumbwael_answer cumbwael_move(
    const uint32_t *image, size_t image_length, const uint32_t *query, size_t query_length,
    const uint32_t *nodes, size_t nodes_length, const uint32_t *cells, size_t cells_length, const uint32_t *trail, size_t trail_length,
    uint32_t *arrays, size_t arrays_length, uint32_t *workers, size_t workers_length,
    uint32_t worker, uint32_t slot);

/* Writes the answer at the worker's node, which has no goal, into the room: one image word for each query variable,
 * CON (0x20000000 + constant) or VAR (0x10000000 + number, renumbered by first appearance). Answers their count;
 * words past it stay. Refused also with 25, then 26. */
struct cumbwael_answer cumbwael_read(
    const uint32_t *image, size_t image_length, const uint32_t *query, size_t query_length,
    const uint32_t *nodes, size_t nodes_length, const uint32_t *cells, size_t cells_length, const uint32_t *trail, size_t trail_length,
    const uint32_t *arrays, size_t arrays_length, const uint32_t *workers, size_t workers_length,
    uint32_t *room, size_t room_length,
    uint32_t worker);

/* ---- The spread form ---- */

/* From a spread list, one field per word with the zero fields dropped, to the image that it is the spread form of.
 *
 * list, length  the list and its length in elements; every length is taken
 * room, size    where the image goes, and its size in elements
 *
 * Refused, in this order: 19, 29 or 18, whichever stands first in the list; 1 to 17, at the packed word; 26. On a
 * refusal every word of the room is as it was. Otherwise the image is legal and stands in the first `count` words of
 * the room, and the words past it are as they were. An image has at most 131,071 words, so a room of so many never
 * gives 26. The position of 18, 19 and 29 is at most the list's length; one past 4294967295 is given as 4294967295.
 *
 * Stack: 516 KiB at the most; a thread that calls it must have them.
 */
struct cumbwael_answer cumbwael_pack(const uint32_t *list, size_t length, uint32_t *room, size_t size);

/* From a legal image, as words, to its spread form.
 *
 * image, length  the image and its length in elements; every length is taken
 * room, size     where the list goes, and its size in elements
 *
 * Refused: 1 to 17 at the image's word, then 26. On a refusal every word of the room is as it was. Otherwise the list
 * stands in the first `count` words of the room, and the words past it are as they were. cumbwael_pack makes the same
 * image of it. A word has at most four values, so a room of 4 * length never gives 26.
 *
 * Stack: 4 KiB at the most.
 */
struct cumbwael_answer cumbwael_unpack(const uint32_t *image, size_t length, uint32_t *room, size_t size);

#ifdef __cplusplus
}
#endif

#endif
