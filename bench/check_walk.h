/* The check of a rule image written plainly in C, for a file that says first what an image is made of:
 * `struct image`, and `word_at`, which reads a word of one. */
struct walk {
    struct image image;
    size_t words;   /* in the slice */
    size_t at;      /* the word the check stands at */
    uint32_t seen;  /* variables seen in the clause */
    uint64_t fault; /* 0, or number * 2^32 + position */
};

static inline int met(struct walk *w, uint64_t number, size_t position)
{
    w->fault = number << 32 | position;
    return 0;
}

static inline int argument(struct walk *w, uint32_t declared)
{
    if (w->at >= w->words) return met(w, 6, w->words);
    uint32_t word = word_at(w->image, w->at), op = word >> 28;
    if (op == 1) {
        if (word >> 6 & 0x3fffff) return met(w, 4, w->at);
        uint32_t number = word & 0x3f;
        if (number >= declared || number > w->seen) return met(w, 12, w->at);
        w->seen += number == w->seen;
    } else if (op != 2) {
        return met(w, 11, w->at);
    }
    w->at++;
    return 1;
}

static int clause(struct walk *w, uint32_t arity, uint32_t predicates)
{
    size_t start = w->at;
    if (start >= w->words) return met(w, 6, w->words);
    uint32_t word = word_at(w->image, start), declared = word >> 22 & 0x3f, goals = word >> 16 & 0x3f;
    if (word >> 28 != 8) return met(w, 8, start);
    if (declared > 32) return met(w, 9, start);
    if (goals > 16) return met(w, 10, start);
    w->at++;
    w->seen = 0;
    for (uint32_t i = 0; i < arity; i++)
        if (!argument(w, declared)) return 0;
    for (uint32_t g = 0; g < goals; g++) {
        if (w->at >= w->words) return met(w, 6, w->words);
        uint32_t goal = word_at(w->image, w->at);
        if (goal >> 28 != 9) return met(w, 13, w->at);
        if (goal & 0x3ffff) return met(w, 4, w->at);
        uint32_t predicate = goal >> 18 & 0x3ff;
        if (predicate >= predicates) return met(w, 14, w->at);
        w->at++;
        uint32_t count = word_at(w->image, 1 + predicate) >> 28;
        for (uint32_t i = 0; i < count; i++)
            if (!argument(w, declared)) return 0;
    }
    if (w->seen < declared) return met(w, 15, start);
    if ((word & 0xffff) != w->at - start) return met(w, 16, start);
    return 1;
}

static uint64_t check_walk(struct image image, size_t words)
{
    struct walk w = {image, words, 0, 0, 0};
    if (w.words == 0) return 1ull << 32;
    uint32_t header = word_at(w.image, 0), predicates = header >> 18 & 0x3ff;
    if (header >> 28 != 1) return 2ull << 32;
    if (predicates == 0) return 3ull << 32;
    if (header >> 17 & 1) return 4ull << 32;
    if ((header & 0x1ffff) != w.words) return 5ull << 32;
    if (w.words < 1 + predicates) return 6ull << 32 | w.words;
    w.at = 1 + predicates;
    for (uint32_t p = 0; p < predicates; p++) {
        uint32_t word = word_at(w.image, 1 + p);
        if ((word & 0x1ffff) != w.at) return 7ull << 32 | (1 + p);
        for (uint32_t c = word >> 17 & 0x3ff; c > 0; c--)
            if (!clause(&w, word >> 28, predicates)) return w.fault;
    }
    return w.at < w.words ? 17ull << 32 | w.at : 0;
}
