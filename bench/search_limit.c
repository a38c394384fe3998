/* The speed limit: document 01's search for one worker, by hand and unchecked.
 *
 *   cc -O2 -o search_limit search_limit.c
 *   search_limit FILE      print the desk program's listing
 *   search_limit FILE N    search N times in silence; print runs, steps and seconds
 *
 * It works on the same words (query length, query, image; most significant byte first), takes
 * the same steps and counts them alike.  It keeps one binding array, one trail and the path as
 * a stack of nodes.  A value is an image word: CON, or VAR with a variable number as a
 * reference; 0 is unbound.  Three things make it quick: a goal's arguments are dereferenced
 * once per node, constants that differ are found before anything is bound, and a node
 * remembers which goal follows its clause, so that nothing climbs the frames.
 * It tests nothing but the end of the path and the step limit: feed it legal images.
 */
#include <stdint.h>
#include <stdio.h>
#include <stdlib.h>
#include <time.h>

typedef uint32_t word;
enum { SLOTS = 64, ARITY = 15, VARIABLES = 32, STEPS = 65535 };

#define IS_CON(w)      ((w) >> 28 == 2)
#define NUMBER(w)      ((w) & 0x0fffffff)            /* of a VAR word or a reference */
#define REF(n)         (1u << 28 | (n))
#define C_VARS(w)      ((w) >> 22 & 63)
#define C_GOALS(w)     ((w) >> 16 & 63)
#define C_LENGTH(w)    ((w) & 0xffff)
#define G_PREDICATE(w) ((w) >> 18 & 1023)
#define P_ARITY(w)     ((w) >> 28)
#define P_CLAUSES(w)   ((w) >> 17 & 1023)
#define P_FIRST(w)     ((w) & 0x1ffff)

struct place {               /* a goal of a node's clause; none if goal is 0 */
    const word *goal;
    struct node *frame;
    unsigned left;           /* goals of that clause from this one on */
};

struct node {
    struct place first;      /* its first goal */
    struct place after;      /* the goal that follows its own clause's goals */
    const word *next;        /* the next clause to take */
    unsigned left;           /* clauses untried */
    unsigned arity;
    unsigned base, top;      /* its own variables are numbered from base up to top */
    unsigned trail;          /* height of the trail before it was made */
    word arg[ARITY];         /* its first goal's arguments, dereferenced */
};

static word array[SLOTS * VARIABLES];
static unsigned trail[SLOTS * ARITY];
static struct node node[SLOTS];
static const word *image, *query;
static int silent;

static inline word deref(word v)
{
    while (!IS_CON(v)) {
        word bound = array[NUMBER(v)];
        if (!bound) break;
        v = bound;
    }
    return v;
}

/* Get node n ready to take clauses for its first goal.  Without one it is dead at once. */
static inline void aim(struct node *n)
{
    const word *goal = n->first.goal;
    n->left = 0;
    if (!goal) return;
    word p = image[1 + G_PREDICATE(*goal)];
    unsigned base = n->first.frame->base;
    n->arity = P_ARITY(p);
    n->left = P_CLAUSES(p);
    n->next = image + P_FIRST(p);
    for (unsigned i = 0; i < n->arity; i++) {
        word a = goal[1 + i];
        n->arg[i] = IS_CON(a) ? a : deref(REF(base + NUMBER(a)));
    }
}

/* Unify the clause's head with node n's goal: 1, or 0 with the trail as it was. */
static inline int unify(const struct node *n, const word *clause, unsigned *height)
{
    const word *head = clause + 1;
    unsigned fresh = 0, base = n->top, start = *height, top = start;
    for (unsigned i = 0; i < n->arity; i++)
        if (IS_CON(head[i]) && IS_CON(n->arg[i]) && head[i] != n->arg[i]) return 0;
    for (unsigned i = 0; i < n->arity; i++) {
        word h = head[i], a = deref(n->arg[i]);          /* an earlier argument may have bound it */
        if (!IS_CON(h)) {
            if (NUMBER(h) == fresh) { array[base + fresh++] = a; continue; }
            h = deref(array[base + NUMBER(h)]);
        }
        if (h == a) continue;
        if (IS_CON(a) ? IS_CON(h) : 0) {
            while (top > start) array[trail[--top]] = 0;
            return 0;
        }
        if (IS_CON(a) || (!IS_CON(h) && h > a)) { word swap = a; a = h, h = swap; }
        array[NUMBER(a)] = h;                            /* a is unbound; of two, the higher */
        trail[top++] = NUMBER(a);
    }
    for (unsigned v = fresh; v < C_VARS(*clause); v++) array[base + v] = 0;
    *height = top;
    return 1;
}

static void show(unsigned steps, unsigned variables)
{
    word seen[VARIABLES];
    unsigned count = 0;
    printf("%u", steps);
    for (unsigned v = 0; v < variables; v++) {
        word w = deref(REF(v));
        if (IS_CON(w)) { printf(" c%u", NUMBER(w)); continue; }
        unsigned k = 0;
        while (k < count && seen[k] != w) k++;
        if (k == count) seen[count++] = w;
        printf(" v%u", k);
    }
    putchar('\n');
}

static unsigned stop(const char *name, unsigned steps)
{
    if (!silent) printf("%s %u\n", name, steps);
    return steps;
}

static unsigned search(void)
{
    unsigned height = 0, variables = C_VARS(*query);
    struct node *n = node;
    *n = (struct node){ .first = { query + 1, n, C_GOALS(*query) }, .top = variables };
    for (unsigned v = 0; v < variables; v++) array[v] = 0;
    aim(n);

    for (unsigned steps = 0; steps < STEPS; steps++) {
        if (n->left == 0) {                              /* rules 1 to 4 */
            if (n == node) return stop("finished", steps + 1);
            while (height > n->trail) array[trail[--height]] = 0;
            n--;
            continue;
        }
        if (n == node + SLOTS - 1) return stop("full", steps);

        const word *clause = n->next;                    /* rule 7 */
        unsigned start = height;
        n->next += C_LENGTH(*clause);
        n->left--;
        if (!unify(n, clause, &height)) continue;
        struct node *child = n + 1;
        child->base = n->top, child->top = n->top + C_VARS(*clause), child->trail = start;
        if (n->first.left > 1)
            child->after = (struct place){ n->first.goal + 1 + n->arity, n->first.frame, n->first.left - 1 };
        else
            child->after = n->first.frame->after;
        if (C_GOALS(*clause))
            child->first = (struct place){ clause + 1 + n->arity, child, C_GOALS(*clause) };
        else
            child->first = child->after;
        n = child;
        aim(n);
        if (!n->first.goal && !silent) show(steps + 1, variables);
    }
    return stop("spent", STEPS);
}

int main(int count, char **args)
{
    static unsigned char bytes[1 << 20];
    static word words[1 << 18];
    FILE *file = count > 1 ? fopen(args[1], "rb") : 0;
    if (!file) { fputs("usage: search_limit FILE [RUNS]\n", stderr); return 2; }
    size_t length = fread(bytes, 1, sizeof bytes, file) / 4;
    for (size_t i = 0; i < length; i++)
        words[i] = (word)bytes[4 * i] << 24 | bytes[4 * i + 1] << 16 | bytes[4 * i + 2] << 8 | bytes[4 * i + 3];
    query = words + 1;
    image = words + 1 + words[0];
    if (count == 2) { search(); return 0; }

    silent = 1;
    long runs = atol(args[2]);
    unsigned long long steps = 0;
    struct timespec from, to;
    clock_gettime(CLOCK_PROCESS_CPUTIME_ID, &from);
    for (long i = 0; i < runs; i++) steps += search();
    clock_gettime(CLOCK_PROCESS_CPUTIME_ID, &to);
    double seconds = to.tv_sec - from.tv_sec + (to.tv_nsec - from.tv_nsec) / 1e9;
    printf("%ld runs, %llu steps, %.6f s, %.3g steps/s\n", runs, steps, seconds, steps / seconds);
    return 0;
}
