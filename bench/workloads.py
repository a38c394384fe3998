"""The six searches that bench/search measures: their rules and queries, as words and as Prolog text, and the steps that document 01 counts.

A clause is (head, goals), an atom (name, arguments); an argument that is a number is a constant, one that is a string a variable.
"""
import struct


def join():
    """Three tables of 112 facts joined by their second arguments: nearly every clause taken fails."""
    n = 112
    facts = [(('p', [i, i * 37 % n]), []) for i in range(n)]
    facts += [(('q', [(i * 53 + 5) % n, i]), []) for i in range(n)]
    facts += [(('r', [i, (i * 17 + 3) % n]), []) for i in range(n)]
    return facts, [('p', ['X', 'Y']), ('q', ['Z', 'Y']), ('r', ['W', 'Z'])]


def chain():
    """A chain of 48 rules down to a table of four facts; the first eight are there twice. Deep, and with little to bind at each node."""
    rules = []
    for i in range(48):
        below = 'leaf' if i == 47 else 'c%d' % (i + 1)
        rules += [(('c%d' % i, ['X', 'K']), [(below, ['X', 'K'])])] * (2 if i < 8 else 1)
    rules += [(('leaf', [10 + k, k]), []) for k in range(4)]
    return rules, [('c0', ['X', 2])]


def table():
    """A table of 338 facts, asked 16 times with the first argument known."""
    n = 338
    facts = [(('t', [i, (i * 7 + 1) % n]), []) for i in range(n)]
    return facts, [('t', [(i * 61 + 11) % n, 'V%d' % i]) for i in range(16)]


def answers():
    """Four picks from ten facts: 10,000 answers."""
    rules = [(('pick', list('ABCD')), [('d', [v]) for v in 'ABCD'])]
    rules += [(('d', [i]), []) for i in range(10)]
    return rules, [('pick', list('ABCD'))]


def row():
    """A row of 450 facts, all of which match: the worker comes back to the same node before each."""
    return [(('r', [i]), []) for i in range(450)], [('r', ['X'])]


def heads():
    """A row of 150 heads with a variable behind a constant, asked 60 times for the last: all but one fail, and not one may be passed over."""
    rules = [(('k', [i]), []) for i in range(60)] + [(('h', [i, 'X']), []) for i in range(150)]
    return rules, [('k', ['X']), ('h', [149, 'Y'])]


WORKLOADS = {'w1 join': join(), 'w2 chain': chain(), 'w3 table': table(), 'w4 answers': answers(), 'w5 row': row(), 'w6 heads': heads()}


def key(atom):
    return atom[0], len(atom[1])


def clause_words(head, goals, numbers):
    """The CLAUSE word, the head's arguments and the goals; variables are numbered by first appearance. `head` is None for a query."""
    seen = {}

    def argument(a):
        return 2 << 28 | a if isinstance(a, int) else 1 << 28 | seen.setdefault(a, len(seen))

    words = [argument(a) for a in (head[1] if head else [])]
    for goal in goals:
        words += [9 << 28 | numbers[key(goal)] << 18] + [argument(a) for a in goal[1]]
    return [8 << 28 | len(seen) << 22 | len(goals) << 16 | 1 + len(words)] + words


def words(clauses, query):
    """What pace and the limit read: query length, query, image. Every predicate has clauses here, and stands where its first one does."""
    order = list(dict.fromkeys(key(head) for head, _ in clauses))
    numbers = {k: i for i, k in enumerate(order)}
    predicates, body = [], []
    for k in order:
        mine = [c for c in clauses if key(c[0]) == k]
        predicates.append(k[1] << 28 | len(mine) << 17 | 1 + len(order) + len(body))
        for head, goals in mine:
            body += clause_words(head, goals, numbers)
    image = [1 << 28 | len(order) << 18 | 1 + len(order) + len(body)] + predicates + body
    asked = clause_words(None, query, numbers)
    return [len(asked)] + asked + image


def as_bytes(clauses, query):
    all_words = words(clauses, query)
    return struct.pack('>%dI' % len(all_words), *all_words)


def steps(clauses, query):
    """How many steps worker 0 takes alone until Finished: one for each clause taken, one for each dead node."""
    by_key = {}
    for clause in clauses:
        by_key.setdefault(key(clause[0]), []).append(clause)
    bound, fresh, count = {}, [0], 0

    def value(t):
        while t in bound:
            t = bound[t]
        return t

    def renamed(atoms):
        fresh[0] += 1
        return [(name, [(fresh[0], a) if isinstance(a, str) else a for a in args]) for name, args in atoms]

    def unify(pairs, made):
        for a, b in pairs:
            a, b = value(a), value(b)
            if a == b:
                continue
            if not isinstance(a, tuple):
                a, b = b, a
            if not isinstance(a, tuple):
                return False
            bound[a] = b
            made.append(a)
        return True

    path = [(renamed(query), iter(by_key.get(key(query[0]), [])), [])]
    while path:
        goals, untried, made = path[-1]
        clause = next(untried, None)
        count += 1
        if clause is None:
            for v in made:
                del bound[v]
            path.pop()
            continue
        head, *body = renamed([clause[0]] + clause[1])
        made = []
        if unify(zip(head[1], goals[0][1]), made):
            rest = body + goals[1:]
            path.append((rest, iter(by_key.get(key(rest[0]), []) if rest else []), made))
        else:
            for v in made:
                del bound[v]
    return count


def prolog(clauses, query):
    """The same rules and `loop(N)`, which searches N times."""
    def text(atom):
        return '%s(%s)' % (atom[0], ','.join(map(str, atom[1])))

    lines = [text(head) + (' :- ' + ', '.join(map(text, goals)) if goals else '') + '.' for head, goals in clauses]
    return '\n'.join(lines + ['query :- %s.' % ', '.join(map(text, query)), 'loop(N) :- between(1, N, _), query, fail.', 'loop(_).', ''])


# Document 01's own example.
EXAMPLE = [(('p', [5]), []), (('p', [6]), [])], [('p', ['X'])]
assert words(*EXAMPLE) == [3, 0x80410003, 0x90000000, 0x10000000, 0x10040006, 0x10040002, 0x80000002, 0x20000005, 0x80000002, 0x20000006]
assert steps(*EXAMPLE) == 5
