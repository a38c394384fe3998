#!/usr/bin/env python3
"""Makes the stored schedules of calls and the damaged memories.

    python3 tests/engine_cases.py REFERENCE OUTPUT

REFERENCE is the folder of the reference implementation (`oracle.py`), which alone decides what each call must answer and leave behind.
OUTPUT is the data file of the program `engine_cases`: words of 32 bits, most significant byte first. First the count of schedules. A
schedule is image and query, each as its length with a spare word, its words and the spare word; the count of its turns; the turns. A
turn is 0 and a call, or a change: slice (1 nodes to 5 workers, 6 image, 7 query), index, the word put there, the verdict on the memory
(0 damaged, 1 sound, 2 not asked), a call, and the word that the place gets afterwards. A call is kind (1 load, 2 step, 3 run, 4 move,
5 read), worker, what is given (budget, slot, room), the slice that is lent with a wrong length and how (1 shorter, 2 longer); then
what it must answer: the refusal's number and position, or 0 and what was done, three words in all; then the digest of all words as
two, and the words that a read writes.
"""
import random
import sys

from engine_changes import changed_rules, reason_of, some_change, swept_nodes, swept_words, used_slots
from engine_rules import random_rules, written_rules
from engine_store import CELLS, IMAGE, LOAD, LONGER, MOST, MOVE, NODES, QUERY, READ, RUN, SHORTER, SPARE, STEP, TRAIL, WORKERS, Cases


def damage(cases):
    """A changed memory, of those drawn the one whose verdict was given least often; and a call on it."""
    rng = cases.rng
    drawn = [c for c in (some_change(cases) for _ in range(8)) if c]
    judged = [(cases.drawn[reason_of(cases, c)] * (0.06 if reason_of(cases, c) == 'sound' else 1), i, c) for i, c in enumerate(drawn)]
    if not judged:
        return
    slice, index, value = min(judged)[2]
    cases.drawn[reason_of(cases, (slice, index, value))] += 1
    worker = rng.randrange(4)
    kind, given = rng.choice(((STEP, 0), (STEP, 0), (RUN, rng.randrange(6)), (MOVE, cases.memory.workers[worker]), (MOVE, rng.choice(used_slots(cases))),
                              (READ, cases.variables()), (READ, 63)))
    worker = rng.choice((worker, worker, worker, worker, worker, worker, 4))
    want = cases.change(slice, index, value, kind, worker, given)
    if want[0] == 0 and kind in (STEP, RUN) and want[1] == cases.ref.ANSWER:
        cases.read_all(worker)


def some_call(cases):
    rng = cases.rng
    kind = rng.choice((LOAD, STEP, RUN, MOVE, READ))
    return kind, rng.choice((0, 1, 2, 3, 4, MOST)), rng.choice((0, 1, 5, 63, 64)) if kind != READ else rng.choice((0, cases.variables(), 40))


def refused(cases):
    """A call that is to be refused, one way or another."""
    rng = cases.rng
    way = rng.randrange(6)
    kind, worker, given = some_call(cases)
    if way == 0:
        cases.call(kind, worker, given, rng.randint(NODES, QUERY), rng.choice((SHORTER, LONGER)))
    elif way == 1:
        slice = rng.choice((IMAGE, QUERY))
        cases.change(slice, *changed_rules(cases, slice), kind, worker, given)
    elif way == 2:
        cases.call(rng.choice((STEP, RUN, MOVE, READ)), rng.choice((4, 5, 64, 1 << 31, MOST)), rng.choice((0, 1, 63)))
    elif way == 3:
        cases.call(MOVE, rng.randrange(4), rng.choice((64, 65, 127, 1 << 31, MOST)))
    elif way == 4:
        free = [s for s in range(64) if not cases.memory.used(s)]
        if free:
            cases.call(MOVE, rng.randrange(4), rng.choice((free[0], free[-1])))
    else:
        cases.call(READ, rng.randrange(4), rng.choice((0, cases.variables(), 63)))


def live(cases, slot):
    ref, memory = cases.ref, cases.memory
    if not memory.field(slot, 2, 'goal'):
        return False
    predicate, _ = memory._goal(cases.image, cases.query, memory.field(slot, 2, 'frame'), memory.field(slot, 2, 'index'))
    return memory.field(slot, 2, 'tried') < ref.get('predicate', 'count', cases.image[1 + predicate])


def idle(cases, worker):
    """Would a step of this worker be Wait or Finished."""
    memory, slot = cases.memory, cases.memory.workers[worker]
    return not live(cases, slot) and (slot == 0 or memory._has_child(slot))


def alone(cases, calls):
    """One worker, steps and runs, until it has finished."""
    worker = cases.rng.randrange(4)
    for _ in range(calls):
        kind, given = (STEP, 0) if cases.rng.random() < 0.6 else (RUN, cases.rng.choice((0, 1, 2, 3, 7, 20, 100)))
        if cases.call(kind, worker, given)[:2] == [0, cases.ref.FINISHED]:
            cases.call(STEP, worker)
            cases.call(STEP, (worker + 1) % 4)
            return


def next_worker(cases):
    """Most often a worker that has something to do; one goes to a live slot where none has; a load where there is no such slot."""
    rng = cases.rng
    busy = [w for w in range(4) if not idle(cases, w)]
    if busy or rng.random() < 0.3:
        return rng.choice(busy if busy and rng.random() < 0.8 else range(4))
    worker = rng.randrange(4)
    slots = [s for s in used_slots(cases) if live(cases, s)]
    if slots:
        cases.call(MOVE, worker, rng.choice(slots))
    elif rng.random() < 0.5:
        cases.call(LOAD)
    return worker


def together(cases, calls):
    """Four workers that step, run, meet and part, with refused calls and damaged memories between."""
    rng = cases.rng
    while len(cases.turns) < calls:
        worker, luck = next_worker(cases), rng.random()
        if luck < 0.60:
            cases.call(STEP, worker)
        elif luck < 0.68:
            cases.call(RUN, worker, rng.choice((0, 1, 2, 3, 5, 9, 40, MOST)))
        elif luck < 0.80:
            cases.call(MOVE, worker, rng.choice((rng.choice(used_slots(cases)), rng.choice(cases.memory.workers))))
        elif luck < 0.83:
            cases.call(READ, worker, rng.choice((cases.variables(), 40)))
        elif luck < 0.90:
            refused(cases)
        else:
            damage(cases)


def broad(cases, calls):
    """Workers go to live slots close to the root, so that the slots fill up."""
    rng = cases.rng
    for turn in range(calls):
        slots = [s for s in used_slots(cases) if live(cases, s)]
        if slots:
            cases.call(MOVE, turn % 4, min(slots, key=lambda s: (cases.memory.field(s, 0, 'depth'), s)))
        cases.call(STEP, turn % 4)
        if rng.random() < 0.12:
            damage(cases)
        if rng.random() < 0.05:
            refused(cases)


def gathered(cases, calls):
    """Steps, and now and then all workers at one slot: dead slots are left, and freed by the last."""
    rng = cases.rng
    while len(cases.turns) < calls:
        for _ in range(rng.randint(1, 6)):
            cases.call(STEP, next_worker(cases))
        slot = cases.memory.workers[rng.randrange(2)]
        for worker in range(4):
            cases.call(MOVE, worker, slot)
            if at_answers(cases) and rng.random() < 0.5:
                cases.call(READ, rng.choice(at_answers(cases)), rng.choice((cases.variables(), 33)))
        for worker in rng.sample(range(4), rng.randint(2, 4)):
            cases.call(STEP, worker)
        if rng.random() < 0.5:
            damage(cases)


def start(cases, rules):
    """The memory of another rule set is refused, or is sound for this one too; then the load."""
    cases.begin(rules)
    if cases.rng.random() < 0.3 and cases.memory.nodes[0]:
        cases.call(cases.rng.choice((STEP, RUN, MOVE, READ)), cases.rng.randrange(4), 0)
    cases.call(LOAD)


def of_lengths(cases, rules):
    """Each slice one shorter and one longer, in every call; before an illegal image, an illegal query, damage, and a worker that is none."""
    start(cases, rules)
    for slice in range(NODES, WORKERS + 1):
        spare = cases.memory.lengths()[slice - 1]
        cases.spare[slice - 1] = SPARE
        words, _ = cases.record(RUN, 0, 0)
        cases.turns.append([slice, spare, SPARE, 1] + words + [SPARE])
        cases.reasons['sound'] += 1
    cases.call(STEP)
    calls = ((LOAD, 0, 0), (STEP, 1, 0), (RUN, 1, 5), (MOVE, 1, 1), (READ, 0, 40))
    for slice in range(NODES, WORKERS + 1):
        for how in (SHORTER, LONGER):
            for kind, worker, given in calls:
                cases.call(kind, worker, given, slice, how)
            kind, _, given = cases.rng.choice(calls[1:])
            cases.change(IMAGE, 0, 0x20410006, kind, 0, given, slice, how)
            cases.change(QUERY, 0, 0, kind, 0, given, slice, how)
            cases.change(NODES, 3, 1, kind, 4, given, slice, how)
            cases.call(kind, 4, given, slice, how)
    for kind, worker, given in calls:
        for slice in (IMAGE, QUERY):
            for how in (SHORTER, LONGER):
                cases.call(kind, worker, given, slice, how)


def of_order(cases, rules):
    """Two refusals at once: the first in the order is given."""
    start(cases, rules)
    cases.call(STEP)
    for kind, given in ((LOAD, 0), (STEP, 0), (RUN, 3), (MOVE, 99), (READ, 0)):
        cases.change(IMAGE, 0, 0x20410006, kind, 9, given, QUERY, LONGER)
        cases.change(IMAGE, 0, 0x10000006, kind, 9, given)
        cases.change(QUERY, 0, 0x80400003, kind, 9, given)
        cases.change(NODES, 0, 0, kind, 0, given, IMAGE, SHORTER)
        cases.change(NODES, 0, 0, kind, 0, given, QUERY, LONGER)
        cases.change(CELLS, 5, 1, kind, 4, given)
        cases.change(WORKERS, 3, 64, kind, MOST, given)
    for worker in (4, 5, 1 << 16, 1 << 31, MOST):
        for kind, given in ((STEP, 0), (RUN, 0), (RUN, 9), (MOVE, 64), (MOVE, 63), (MOVE, 0), (READ, 0), (READ, 9)):
            cases.call(kind, worker, given)
    for slot in (1, 2, 62, 63, 64, 65, 128, 1 << 16, 1 << 31, MOST):
        cases.call(MOVE, 3, slot)
    cases.call(LOAD)
    for room in (0, 1, 63):
        cases.call(READ, 0, room)
    cases.call(STEP)
    # damage that stays, met together with a fault of the query and by a load
    cases.change(NODES, 7, 1, STEP, 0, 0, keep=True)
    cases.change(QUERY, 0, 0x80400003, STEP, 0, 0)
    cases.change(IMAGE, 0, 0x10400006, STEP, 0, 0)
    cases.call(LOAD, slice=QUERY, how=LONGER)
    cases.call(LOAD)


def of_full(cases, rules):
    """The slots fill up: Full from a step and from a run, and budgets that end before it."""
    start(cases, rules)
    cases.call(RUN, 2, 60)
    cases.call(RUN, 2, 0)
    cases.call(RUN, 2, 3)
    for given in (0, 1, 2, MOST):
        cases.call(RUN, 2, given)
    cases.call(STEP, 2)
    cases.call(MOVE, 1, 63)
    cases.call(STEP, 1)
    cases.call(MOVE, 1, 31)
    cases.call(STEP, 1)
    for _ in range(12):
        damage(cases)
    cases.call(LOAD)
    for given in (5, MOST, 64):
        cases.call(RUN, 0, given)
    cases.call(LOAD)
    for given in (62, 1, 1):
        cases.call(RUN, 0, given)


def at_answers(cases):
    """The workers that stand at a node without goals."""
    return [w for w in range(4) if not cases.memory.field(cases.memory.workers[w], 2, 'goal')]


def rich(cases):
    """Slots enough, trail entries enough, workers apart, and one of them at an answer."""
    memory, slots = cases.memory, used_slots(cases)
    return len(slots) >= 6 and len(set(memory.workers)) >= 3 and sum(memory.field(s, 0, 'entries') for s in slots) >= 4 and at_answers(cases)


def of_sweep(cases, rules):
    """A memory with slots, entries and bound cells enough; then each word of it that matters gets one neighbour after another."""
    rng, memory = cases.rng, cases.memory
    start(cases, rules)
    while not rich(cases):
        worker = next_worker(cases)
        cases.call(STEP, worker)
        if rng.random() < 0.3:
            cases.call(MOVE, worker, rng.choice(used_slots(cases)))
    changes = [c for c in list(swept_nodes(cases)) + list(swept_words(cases)) if cases.place(c[0])[c[1]] != c[2]]
    for slice, index, value in changes:
        calls = [(RUN, 0), (READ, 40)]
        if reason_of(cases, (slice, index, value)) != 'sound':
            calls += [(STEP, 0), (RUN, 3), (MOVE, rng.randrange(3))]
        kind, given = rng.choice(calls)
        cases.change(slice, index, value, kind, rng.choice(at_answers(cases)) if kind == READ else rng.randrange(4), given)


def of_page(cases, rules):
    """P6 to P9 of the page."""
    start(cases, rules)
    for _ in range(6):
        cases.call(STEP)
    cases.call(LOAD)
    for kind, worker, given in ((STEP, 0, 0), (STEP, 1, 0), (MOVE, 0, 2), (STEP, 0, 0), (STEP, 1, 0), (STEP, 0, 0), (MOVE, 0, 1), (STEP, 0, 0), (STEP, 1, 0)):
        cases.call(kind, worker, given)


def lively(ref, rng, number):
    """A random rule set; of most a worker alone makes several nodes."""
    while True:
        rules = random_rules(ref, rng, number)
        memory = ref.Memory()
        memory.load(rules[1], rules[2])
        outcomes = [memory._step(rules[1], rules[2], 0) for _ in range(40)]
        if number % 8 == 0 or outcomes.count(ref.EXTENDED) + outcomes.count(ref.ANSWER) >= 4 and outcomes.count(ref.TRIED) >= 1:
            return rules


def main():
    sys.path.insert(0, sys.argv[1])
    import oracle as ref
    rng = random.Random(21)
    cases = Cases(ref, rng)
    sets = written_rules(ref) + [lively(ref, rng, number) for number in range(48)]
    named = {rules[0]: rules for rules in sets}
    assert len({(tuple(i), tuple(q)) for _, i, q in sets}) == len(sets)
    of_lengths(cases, named['page'])
    of_order(cases, named['page'])
    of_page(cases, named['page'])
    for name in ('chain', 'chain in turn', 'deep', 'deep and bound'):
        of_full(cases, named[name])
    for name in ('references', 'clashes', 'extremes', 'in turn'):
        of_sweep(cases, named[name])
    for rules in sets:
        start(cases, rules)
        alone(cases, 30)
        start(cases, rules)
        together(cases, 45)
        start(cases, rules)
        (gathered if rng.random() < 0.5 else together)(cases, 40)
    for name in ('seven', 'seven in turn', 'wide', 'sixteen twice', 'chains', 'paths', 'references', 'many', 'fifteen twice', 'random 3', 'random 7', 'random 8'):
        start(cases, named[name])
        broad(cases, 72)
        together(cases, len(cases.turns) + 20)
    check(cases, len(sets))
    words = cases.words()
    with open(sys.argv[2], 'wb') as out:
        out.write(b''.join(word.to_bytes(4, 'big') for word in words))
    report(cases, len(sets), len(words))


def check(cases, sets):
    """What the cases must hold is there."""
    ref, met = cases.ref, cases.met
    assert sets >= 60 and len(cases.schedules) >= 200
    for outcome in (ref.TRIED, ref.EXTENDED, ref.ANSWER, ref.BACK, ref.LEFT, ref.WAIT, ref.FINISHED, ref.FULL):
        assert met[STEP, outcome], outcome
    for outcome in (ref.ANSWER, ref.WAIT, ref.FINISHED, ref.SPENT, ref.FULL):
        assert met[RUN, outcome], outcome
    for number in (20, 21, 22, 23, 25, 26):
        assert met['refused', number], number
    for kind in (LOAD, STEP, RUN, MOVE, READ):
        for slice in range(NODES, WORKERS + 1):
            assert met['length', kind, slice, SHORTER] and met['length', kind, slice, LONGER]
    for reason in ('sound', 'zero field', 'root free', 'root', 'free slot', 'parent of', 'depth of', 'parent of has no goal', 'clause position of', 'variables of',
                   'base of', 'has goal of', 'frame or index of', 'tried of', 'cell of', 'cell of past the variables', 'trail at the root', 'trail number of',
                   'trail number of again on its path', 'trailed cell of', 'trail value of', 'trail words of past its entries', 'worker', 'array of worker'):
        assert cases.reasons[reason] >= 3, (reason, cases.reasons[reason])
    for part in range(4):
        assert cases.places['zero field', NODES, part], part
    for slice in (CELLS, TRAIL):
        assert cases.places['free slot', slice, 0], slice
    assert cases.reasons['sound'] >= 150 and met['refused', 21] >= 300


def report(cases, sets, words):
    for name, outcome in sorted((str(k), n) for k, n in cases.met.items() if k[0] != 'length'):
        print(name, outcome)
    for reason, count in sorted(cases.reasons.items()):
        print('damaged memories:', reason, count)
    print(sets, 'rule sets,', len(cases.schedules), 'schedules,', sum(len(turns) for *_, turns in cases.schedules), 'turns,', words, 'words')


main()
