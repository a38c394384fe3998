#!/usr/bin/env python3
"""Writes the stored cases of the image check: tests/image_cases.py REFERENCE OUT

REFERENCE is the folder of a plain implementation, `oracle.py` with check_image, check_pair and
check_bytes; what the check must give is what it gives. The cases are the same at every run.
OUT is read by the program crate `image_cases`, which says how they are laid out.
"""

import random
import struct
import sys

IMAGE, QUERY, BYTES, LONG = 0, 1, 2, 6


def clause(variables, goals, length):
    return 8 << 28 | variables << 22 | goals << 16 | length


def var(number):
    return 1 << 28 | number


def con(constant):
    return 2 << 28 | constant


def goal(predicate):
    return 9 << 28 | predicate << 18


def words_of_clause(variables, head, goals):
    """A clause's words: goals are pairs of predicate and arguments."""
    body = list(head)
    for predicate, arguments in goals:
        body += [goal(predicate)] + list(arguments)
    return [clause(variables, len(goals), 1 + len(body))] + body


def image_of(predicates):
    """predicates: (arity, sequential, list of clause words)."""
    table, clauses, at = [], [], 1 + len(predicates)
    for arity, sequential, bodies in predicates:
        table.append(arity << 28 | sequential << 27 | len(bodies) << 17 | at)
        for body in bodies:
            clauses += body
            at += len(body)
    return [1 << 28 | len(predicates) << 18 | at] + table + clauses


def legal_images():
    fact = words_of_clause
    yield image_of([(1, 0, [fact(0, [con(5)], []), fact(0, [con(6)], [])])])
    yield image_of([(0, 0, [])])
    yield image_of([(0, 1, [fact(0, [], [])])])
    yield image_of([(15, 0, [fact(15, [var(i) for i in range(15)], [])])])
    yield image_of([(15, 0, [fact(0, [con(2**28 - 1)] * 15, [])])])
    yield image_of([(2, 1, [fact(2, [var(0), var(1)], [(1, [var(1)]), (0, [var(0), con(0)])])]), (1, 0, [])])
    yield image_of([(0, 0, [fact(0, [], [(0, [])] * 16)])])
    yield image_of([(2, 0, [fact(32, [var(0), var(1)], [(0, [var(2 * i), var(2 * i + 1)]) for i in range(1, 16)])])])
    yield image_of([(15, 0, [fact(32, [var(i) for i in range(15)], [(0, [var(min(i, 31)) for i in range(15 + k, 30 + k)]) for k in (0, 2)])])])
    yield image_of([(1, 0, [fact(1, [var(0)], []), fact(1, [var(0)], [(0, [var(0)])])])] * 3)
    yield image_of([(0, 0, [])] * 1023)
    yield image_of([(3, 0, [fact(1, [var(0)] * 3, [])] * 100)])
    yield image_of([(0, 0, [fact(0, [], [])] * 1023)])


def queries(rng):
    yield words_of_clause(1, [], [(0, [var(0)])])
    yield words_of_clause(0, [], [(0, [con(7)])])
    yield words_of_clause(16, [], [(0, [var(i)]) for i in range(16)])
    yield words_of_clause(2, [], [(0, [var(0)]), (0, [var(1)]), (0, [var(0)])])


def damaged(words, rng):
    """One word changed, or words dropped or added, in ways that meet each fault."""
    out = list(words)
    kind = rng.randrange(8)
    at = rng.randrange(len(out)) if out else 0
    if kind == 0 and out:
        out[at] ^= 1 << rng.randrange(32)
    elif kind == 1 and out:
        out[at] = rng.choice([0, 1, 0xFFFFFFFF, var(0), var(33), con(1), goal(0), goal(1023), clause(0, 0, 1), clause(33, 0, 2)])
    elif kind == 2:
        out = out[:at]
    elif kind == 3:
        out += [rng.getrandbits(32) for _ in range(rng.randrange(1, 4))]
    elif kind == 4 and out:
        out[at] += rng.choice([1, -1])
        out[at] &= 0xFFFFFFFF
    elif kind == 5 and len(out) > 1:
        other = rng.randrange(len(out))
        out[at], out[other] = out[other], out[at]
    elif kind == 6 and out:
        out[at] = out[at] & ~(0xFF << 16) | rng.randrange(256) << 16
    elif out:
        del out[at]
    return out


def length_mended(words):
    """The header's length field made right, so that the walk goes past the header."""
    return [words[0] & ~0x1FFFF | len(words) & 0x1FFFF] + words[1:] if words else words


def both_sides():
    """Counts at their bounds and one past them."""
    for variables in (32, 33):
        yield image_of([(0, 0, [words_of_clause(variables, [], [(1, [var(min(15 * g + i, variables - 1)) for i in range(15)]) for g in range(3)])]), (15, 0, [])])
    for goals in (16, 17):
        yield image_of([(0, 0, [words_of_clause(0, [], [(0, [])] * goals)])])
    for predicate in (0, 1):
        yield image_of([(0, 0, [words_of_clause(0, [], [(predicate, [])])])])
    for number in (0, 1, 2):
        yield image_of([(2, 0, [words_of_clause(2, [var(0), var(number)], [])])])
    for declared in (0, 1, 2):
        yield image_of([(1, 0, [words_of_clause(declared, [var(0)], [])])])
    for zero in (0, 1 << 6, 1 << 27):
        yield image_of([(1, 0, [words_of_clause(1, [var(0) | zero], [])])])
    for zero in (0, 1, 1 << 17):
        yield image_of([(0, 0, [words_of_clause(0, [], [(0, [])])[:1] + [goal(0) | zero]])])
    for edition in range(0, 4):
        yield [edition << 28 | 1 << 18 | 2, 2]
    yield [1 << 28 | 1 << 18 | 1 << 17 | 2, 2]
    yield [1 << 28 | 2, 2]
    yield [1 << 28 | 2 << 18 | 2, 3]


def long_image(words):
    """As the program makes it: 128 predicates of arity 0, all clauses a CLAUSE word alone."""
    out, left, at = [1 << 28 | 128 << 18 | words % 131072], words - 129, 129
    for _ in range(128):
        count = min(left, 1023)
        out.append(count << 17 | at)
        at, left = at + count, left - count
    return out + [0x80000001] * (words - 129)


def cases(oracle):
    rng = random.Random(1)
    images = list(legal_images()) + list(both_sides())
    small = [i for i in images if len(i) < 60]
    for image in [[]] + images:
        yield IMAGE, image, []
    for _ in range(420):
        image = damaged(rng.choice(small), rng)
        if rng.random() < 0.3:
            image = damaged(image, rng)
        yield IMAGE, length_mended(image) if rng.random() < 0.8 else image, []
    desk = images[0]
    for query in [[]] + list(queries(rng)):
        yield QUERY, desk, query
    for goals in (0, 1, 16, 17):
        yield QUERY, images[1], words_of_clause(0, [], [(0, [])] * goals)
    for variables in (32, 33):
        yield QUERY, images[3], words_of_clause(variables, [], [(0, [var(min(15 * g + i, variables - 1)) for i in range(15)]) for g in range(3)])
    for _ in range(160):
        yield QUERY, desk, damaged(rng.choice(list(queries(rng))), rng)
    for _ in range(20):
        yield QUERY, damaged(desk, rng), damaged(rng.choice(list(queries(rng))), rng)
    for image in [[]] + small[:6]:
        for less in range(4):
            if 4 * len(image) >= less:
                yield BYTES + less, image, []
    for words in (131000, 131070, 131071, 131072, 131073, 131999):
        yield LONG, [words - 131000], []


def expected(oracle, kind, image, query):
    if kind == IMAGE:
        return oracle.check_image(image)
    if kind == QUERY:
        return oracle.check_pair(image, query)
    data = oracle.bytes_of(long_image(131000 + image[0]) if kind == LONG else image)
    answer = oracle.check_bytes(data[:len(data) - (kind - BYTES)] if kind < LONG else data)
    return answer >> 32, answer & 0xFFFFFFFF


def main():
    reference, out = sys.argv[1:3]
    sys.path.insert(0, reference)
    import oracle
    seen, count = {}, 0
    with open(out, 'wb') as file:
        for kind, image, query in cases(oracle):
            number, position = expected(oracle, kind, image, query)
            words = [kind, len(image), len(query), number, position] + image + query
            file.write(struct.pack('>%dI' % len(words), *words))
            seen[number] = seen.get(number, 0) + 1
            count += 1
    print('%d cases; by number: %s' % (count, dict(sorted(seen.items()))))


if __name__ == '__main__':
    main()
