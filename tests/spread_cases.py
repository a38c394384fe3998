#!/usr/bin/env python3
"""Makes the stored cases of packing and unpacking.

    python3 tests/spread_cases.py REFERENCE OUTPUT

REFERENCE is the folder of the reference implementation (`oracle.py`), which alone decides what each case must answer.
OUTPUT is the data file of the program `spread_cases`: words of 32 bits, most significant byte first. First the count
of cases; then for each the call (1 pack, 2 unpack), the room's size, the number of the answer (0: words were written),
its value (count of words, or position), the input and the words written. A list is stored as how many words stand in
the file, how many of the last are repeated, the length in all, and the words.
"""
import random
import sys

PACK, UNPACK = 1, 2
LONGEST = 131071


def spread(ref, words):
    """The spread form of words, whatever they are, by the kinds that the reference expects."""
    out = []
    count = ref.get('header', 'P', words[0])
    for i, word in enumerate(words):
        kind = 'header' if i == 0 else 'predicate' if i <= count else ref.KIND_OF_OP[ref.op_of(word)]
        out += [ref.get(kind, name, word) for name, _ in ref._spread_fields(kind)]
    return out


def layout(ref, image):
    """For each place of the image's spread form: word number, kind and width of the field."""
    out = []
    count = ref.get('header', 'P', image[0])
    for i, word in enumerate(image):
        kind = 'header' if i == 0 else 'predicate' if i <= count else ref.KIND_OF_OP[ref.op_of(word)]
        out += [(i, kind, name, width) for name, width in ref._spread_fields(kind)]
    return out


def arguments(ref, rng, arity, variables, seen):
    """Argument words; every variable that is left appears as long as there is a place for it."""
    out = []
    for _ in range(arity):
        if seen[0] < variables:
            out.append(ref.make('VAR', op=1, number=seen[0]))
            seen[0] += 1
        elif variables and rng.random() < 0.4:
            out.append(ref.make('VAR', op=1, number=rng.randrange(variables)))
        else:
            out.append(ref.make('CON', op=2, constant=rng.choice((0, 1, 5, (1 << 28) - 1, rng.getrandbits(28)))))
    return out


def clause(ref, rng, arity, arities, goals):
    chosen = [rng.randrange(len(arities)) for _ in range(goals)]
    places = arity + sum(arities[p] for p in chosen)
    variables = rng.randint(0, min(places, 32))
    seen = [0]
    body = arguments(ref, rng, arity, variables, seen)
    for p in chosen:
        body.append(ref.make('GOAL', op=9, predicate=p))
        body += arguments(ref, rng, arities[p], variables, seen)
    return [ref.make('CLAUSE', op=8, variables=variables, goals=goals, length=1 + len(body))] + body


def image_of(ref, rng, arities, counts, most_goals):
    at = 1 + len(arities)
    predicates, words = [], []
    for arity, count in zip(arities, counts):
        predicates.append(ref.make('predicate', arity=arity, sequential=rng.randrange(2), count=count, position=at))
        for _ in range(count):
            one = clause(ref, rng, arity, arities, rng.randint(0, most_goals))
            words += one
            at += len(one)
    return [ref.make('header', edition=1, P=len(arities), length=at)] + predicates + words


def legal_images(ref, rng):
    """Every shape: one predicate to 1,023, arity 0 to 15, no clause to many, no goal to 16, no variable to 32."""
    shapes = [([0], [0], 0), ([0], [1], 0), ([15], [1], 0), ([1], [2], 0), ([0, 0, 0], [0, 0, 0], 0), ([2, 1], [0, 2], 2),
              ([15, 15], [1, 1], 16), ([3, 0, 2], [2, 3, 1], 3), ([0], [5], 16), ([7], [3], 4), ([0] * 30, [0] * 30, 0)]
    for _ in range(9):
        size = rng.randint(1, 5)
        shapes.append(([rng.randint(0, 6) for _ in range(size)], [rng.randint(0, 3) for _ in range(size)], rng.randint(0, 4)))
    images = [image_of(ref, rng, *shape) for shape in shapes]
    images.append(image_of(ref, rng, [0] * 1023, [0] * 1023, 0))
    return images


class Cases:
    def __init__(self, ref):
        self.ref = ref
        self.items = []
        self.met = {PACK: {}, UNPACK: {}}

    def add(self, call, given, room, repeated=(0, 0)):
        """One case; `repeated` says how many words of the end of the input, and of the output, repeat to its end."""
        answer = (self.ref.pack if call == PACK else self.ref.unpack)(given, room)
        value = answer.position if answer.refusal else len(answer.words)
        self.items.append((call, room, answer.refusal, value, given, repeated[0], answer.words, repeated[1]))
        self.met[call].setdefault(answer.refusal, set()).add(value)

    def words(self):
        def listed(words, step):
            stored = len(words)
            if step:
                while stored > step and words[stored - 1] == words[stored - 1 - step]:
                    stored -= 1
            return [stored, step, len(words)] + words[:stored]
        out = [len(self.items)]
        for call, room, number, value, given, step, written, step_written in self.items:
            out += [call, room, number, value] + listed(given, step) + listed(written, step_written)
        return out


def rooms(size):
    """Just enough, one short, and for lists that are not long also none and more than enough."""
    return sorted({size, max(size - 1, 0)} | ({size + 3, 0} if size < 500 else set()))


def of_legal(cases, images):
    for image in images:
        listed = spread(cases.ref, image)
        for room in rooms(len(image)):
            cases.add(PACK, listed, room)
        for room in rooms(len(listed)):
            cases.add(UNPACK, image, room)


def of_lists(cases, rng, image):
    """19, 29 and 18 at every place of one list, and where they compete."""
    ref = cases.ref
    listed, places = spread(ref, image), layout(ref, image)
    room = len(image)
    for size in range(len(listed)):
        cases.add(PACK, listed[:size], room)
    for at, (_, kind, name, width) in enumerate(places):
        value = rng.choice(((1 << width), (1 << width) + 1, 0xFFFFFFFF)) if width < 32 else 0
        cases.add(PACK, listed[:at] + [value] + listed[at + 1:], room)
        if name == 'op':
            for op in (0, 3, 7, 10, 15, 16, 24, 0xFFFFFFFF):
                cases.add(PACK, listed[:at] + [op] + listed[at + 1:], room)
                cases.add(PACK, listed[:at] + [op], room)
    cases.add(PACK, [1, 5000], room)
    cases.add(PACK, [16, 5000], room)
    cases.add(PACK, [1, 1, 6, 0, 2], room)
    cases.add(PACK, [1, 1, 5, 0, 0, 1, 2, 17, 0], room)


def changed(rng, words, width_at):
    out = list(words)
    at = rng.randrange(len(out))
    out[at] = rng.randrange(1 << min(width_at(at), 3)) if rng.random() < 0.7 else rng.getrandbits(width_at(at))
    return out


def changed_word(ref, rng, image):
    """One field of one word is another value, zero fields among them."""
    out = list(image)
    at, kind, _, _ = rng.choice(layout(ref, image))
    name, width = rng.choice(ref.WIDTHS[kind])
    out[at] = ref.put(kind, name, out[at], rng.choice((0, (1 << width) - 1, rng.getrandbits(width))))
    return out


def of_faults(cases, rng, images, count):
    """Faults 1 to 17 at many words, also where the room is too small: the fault comes before 26."""
    ref = cases.ref
    for _ in range(count):
        image = rng.choice(images)
        listed, places = spread(ref, image), layout(ref, image)
        cases.add(PACK, changed(rng, listed, lambda at: places[at][3]), rng.choice((0, len(image), len(image) + 1)))
        cases.add(UNPACK, changed_word(ref, rng, image), rng.choice((0, len(listed), len(listed) + 5)))
    # the length field agrees and the words end early, or are left over
    for extra in (1, 2, 5):
        for image in images[1:4]:
            longer = list(image) + [ref.make('CON', op=2, constant=extra)] * extra
            longer[0] = ref.put('header', 'length', longer[0], len(longer))
            cases.add(UNPACK, longer, 999)
            cases.add(PACK, spread(ref, longer), 999)
    # another op where a CLAUSE is expected
    for group in ([2, 7], [1, 0], [9, 0]):
        for room in (0, 3):
            cases.add(PACK, [1, 1, 3, 0, 0, 1, 2] + group, room)
            cases.add(PACK, [1, 1, 4, 0, 0, 2, 2, 8, 0, 0, 1] + group, room)
    few = [ref.make('header', edition=1, P=3, length=3), 0, 0]
    cases.add(UNPACK, few, 99)
    cases.add(PACK, [1, 3, 3] + [0] * 8, 99)
    cases.add(UNPACK, [], 99)
    cases.add(PACK, [], 99)
    cases.add(UNPACK, [], 0)
    cases.add(PACK, [], 0)


def of_longest(cases):
    """The longest legal image, 131,071 words: facts of arity 15 for 14 predicates; and lists of more words, which their header decides."""
    ref = cases.ref
    clauses, per = 8191, 1023
    at, predicates = 15, []
    for p in range(14):
        count = min(per, clauses - p * per) if clauses > p * per else 0
        predicates.append(ref.make('predicate', arity=15, sequential=0, count=count, position=at))
        at += 16 * count
    fact = [ref.make('CLAUSE', op=8, variables=0, goals=0, length=16)] + [ref.make('CON', op=2, constant=9)] * 15
    image = [ref.make('header', edition=1, P=14, length=LONGEST)] + predicates + fact * clauses
    assert len(image) == at == LONGEST
    listed = spread(ref, image)
    for room in (LONGEST - 1, LONGEST, LONGEST + 2):
        cases.add(PACK, listed, room, (34, 16 if room >= LONGEST else 0))
    for room in (len(listed) - 1, len(listed), len(listed) + 2):
        cases.add(UNPACK, image, room, (16, 34 if room >= len(listed) else 0))
    for edition, count, length, groups in ((1, 1, LONGEST, LONGEST), (1, 1, 0, LONGEST - 1), (2, 1, 0, LONGEST), (1, 0, 0, LONGEST + 2), (15, 0, 5, LONGEST)):
        cases.add(PACK, [edition, count, length] + [0] * 4 * count + [2, 7] * groups, 3, (2, 0))
    cases.add(PACK, [1, 1, 0] + [0] * 4 + [2, 7] * LONGEST + [2], 3, (2, 0))


def main():
    sys.path.insert(0, sys.argv[1])
    import oracle as ref
    rng = random.Random(3)
    cases = Cases(ref)
    images = legal_images(ref, rng)
    small = [image for image in images if len(image) < 60]
    of_legal(cases, images)
    of_lists(cases, rng, image_of(ref, rng, [2, 1], [1, 1], 2))
    of_faults(cases, rng, small, 200)
    of_longest(cases)
    faults = set(range(1, 18))
    assert faults - {4} | {0, 18, 19, 26, 29} <= set(cases.met[PACK]), sorted(cases.met[PACK])
    assert faults | {0, 26} <= set(cases.met[UNPACK]), sorted(cases.met[UNPACK])
    with open(sys.argv[2], 'wb') as out:
        for word in cases.words():
            out.write(word.to_bytes(4, 'big'))
    for call, name in ((PACK, 'pack'), (UNPACK, 'unpack')):
        print(name, ' '.join('%d at %d places' % (n, len(at)) for n, at in sorted(cases.met[call].items())))
    print(len(cases.items), 'cases')


main()
