"""The cases of tests/differential: what is called, and on what.

A case is a random rule set and query, a memory, and a schedule of calls on them. It is drawn from a generator of
random numbers alone, so that seed and case number repeat it. The calls come one at a time, as the next is drawn with
an eye on the memory that the last one left. What is drawn is weighted, so that document 01's edges are met often:
constant 0, 15 trail entries, 32 variables, 16 goals, the highest slot, all slots used, every refusal.
"""

import struct
from array import array
from typing import NamedTuple

import plain
from case_rules import *
from case_memories import *


class Call(NamedTuple):
    name: str        # of the function in plain.py; in C with cumbwael_ before it
    slices: dict     # what is lent, in the order of the parameters
    numbers: tuple
    note: str = ''   # what was done to the memory before


# ---- Calls ----


def worker(rng, memory):
    """Mostly one that has something to do, as a node with children often makes its worker wait."""
    if rng.random() < 0.04:
        return rng.choice((4, 5, 2**31, HIGHEST))
    leaves = leaf_slots(memory)
    busy = [worker for worker, slot in enumerate(memory['workers'][:4]) if slot in leaves]
    return rng.choice(busy) if busy and rng.random() < 0.7 else rng.randrange(4)


def workers_to_read(memory):
    """The workers at nodes without goals."""
    used = set(used_slots(memory))
    return [worker for worker, slot in enumerate(memory['workers'][:4]) if slot in used and memory['nodes'][4 * slot + 2] >> 31 == 0]


def slot(rng, memory):
    """Mostly a used one, and of those mostly one without a child, where there is something to do."""
    used, leaves = used_slots(memory), leaf_slots(memory)
    if leaves and rng.random() < 0.6:
        return rng.choice(leaves)
    if used and rng.random() < 0.7:
        return rng.choice(used)
    return rng.choice((0, rng.randrange(64), 63, 64, 65, 2**31, HIGHEST))


def room(rng, enough):
    """Words that tell whether they were written to; mostly enough of them."""
    size = rng.choice((enough, enough, enough, enough + 1, enough + 5, max(enough - 1, 0), 0))
    return words([rng.getrandbits(32) for _ in range(min(size, 64))] * (size // 64 + 1))[:size]


def search_call(rng, image, query, memory, note):
    """One call of step, run, move or read."""
    lent = {'image': image, 'query': query, **memory}
    readers = workers_to_read(memory)
    name = rng.choice(('step',) * 5 + ('run',) * 2 + ('move',) * 3 + ('read',) * (4 if readers else 1))
    if name == 'read':
        asked = query[0] >> 22 & 63 if query else 0
        reader = rng.choice(readers) if readers and rng.random() < 0.8 else worker(rng, memory)
        return Call(name, {**lent, 'room': room(rng, asked)}, (reader,), note)
    if name == 'run':
        runner = worker(rng, memory)
        return Call(name, lent, (runner, run_budget(rng, lent, runner)), note)
    if name == 'move':
        return Call(name, lent, (worker(rng, memory), slot(rng, memory)), note)
    return Call(name, lent, (worker(rng, memory),), note)


def run_budget(rng, lent, runner):
    """Also the greatest number, where the run is known to stop soon of its own accord."""
    if rng.random() < 0.1:
        tried = plain.run(*copied(lent).values(), runner, 500)
        if tried.refusal == 0 and tried.outcome != plain.SPENT:
            return HIGHEST
    return rng.choice((0, 1, 1, 2, 3, rng.randrange(20), 50, 65535))


def spread_calls(rng, image):
    """Packing of a list, sound or not, and unpacking of an image, sound or not."""
    values = plain.spread_values(image, image[0] >> 18 & 1023)
    yield Call('pack', {'list': words(values), 'room': room(rng, len(image))}, ())
    yield Call('unpack', {'image': image, 'room': room(rng, len(values))}, ())
    for _ in range(rng.randrange(4)):
        yield Call('pack', {'list': changed(rng, values), 'room': room(rng, len(image))}, ())
    other = changed(rng, image)
    yield Call('unpack', {'image': other, 'room': room(rng, len(values))}, ())
    junk = [rng.choice((0, 1, 2, 4, 8, 9, 16, 1023, 1024, rng.getrandbits(32))) for _ in range(rng.randrange(12))]
    yield Call('pack', {'list': words(junk), 'room': room(rng, len(junk))}, ())


def check_calls(rng, image, query):
    """The check of bytes and of queries, on the pair and on the pair changed."""
    for given in (image, changed(rng, image), changed(rng, image)):
        data = array('B', struct.pack('>%dI' % len(given), *given))
        if rng.random() < 0.3:
            data = data[:-rng.randrange(1, 4)] if data and rng.random() < 0.5 else data + array('B', bytes(rng.randrange(1, 4)))
        yield Call('check', {'bytes': data}, ())
    if rng.random() < 0.05:
        yield Call('check', {'bytes': array('B', bytes(4 * 131072 + rng.choice((-1, 0, 1, 4, 5, 4001))))}, ())
    for pair in ((image, query), (image, changed(rng, query)), (changed(rng, image), changed(rng, query))):
        yield Call('check_query', dict(zip(('image', 'query'), pair)), ())


def large_calls(rng):
    """Images as long as an image can be, and longer."""
    image = largest()
    values = plain.spread_values(image, 2)
    given = rng.choice((image, changed(rng, image)))
    yield Call('check', {'bytes': array('B', struct.pack('>%dI' % len(given), *given))}, ())
    yield Call('unpack', {'image': given, 'room': room(rng, len(values))}, ())
    yield Call('pack', {'list': rng.choice((words(values), changed(rng, values))), 'room': room(rng, len(image))}, ())
    longer = [1, 1, rng.randrange(2**17), 15, 0, 1, 2] + [2, 0] * rng.choice((131069, 131070, 131071))
    yield Call('pack', {'list': words(longer), 'room': words([])}, ())


def long_calls(rng):
    """Runs that use a budget of 65,535 up."""
    image, query = endless(rng)
    lent = {'image': image, 'query': query, **zero_memory()}
    yield Call('load', lent, ())
    yield Call('run', lent, (rng.randrange(4), 65535))
    yield Call('run', lent, (rng.randrange(4), rng.randrange(100)))


def pair(rng):
    """A rule set and a query."""
    way = rng.random()
    if way < 0.05:
        return chain(rng)
    if way < 0.07:
        return many(rng)
    return rule_set(rng, rng.choice(SHAPES))


def calls(rng):
    """The calls of a case. Whoever draws them makes each, on the slices lent to it, before drawing the next."""
    image, query = pair(rng)
    memory = zero_memory()
    if rng.random() < 0.4:
        yield from check_calls(rng, image, query)
    if rng.random() < 0.3:
        yield from spread_calls(rng, image)
    if rng.random() < 0.0015:
        yield from large_calls(rng)
    if rng.random() < 0.003:
        yield from long_calls(rng)
    if rng.random() < 0.1:
        yield search_call(rng, image, query, memory, 'nothing loaded')
    yield from start(rng, image, query, memory)
    for _ in range(rng.choice((3, 8, 16, 32))):
        if used_slots(memory) == [0] and rng.random() < 0.3:   # finished, or not begun
            yield from start(rng, image, query, memory)
        yield from turn(rng, image, query, memory)


def start(rng, image, query, memory):
    """A load, over zeros or over anything, or a memory made up."""
    if rng.random() < 0.2:
        made_up(rng, image, query, memory)
        return
    if rng.random() < 0.2:
        for name in memory:
            memory[name][:] = words([rng.getrandbits(32)]) * len(memory[name])
    yield Call('load', {'image': image, 'query': query, **memory}, ())


def turn(rng, image, query, memory):
    """Mostly a sound call; now and then one with something wrong, alone or together with other things."""
    way = rng.random()
    if way < 0.8:
        yield search_call(rng, image, query, memory, '')
    elif way < 0.92:
        yield from damaged_turn(rng, image, query, memory)
    elif way < 0.96:
        yield search_call(rng, changed(rng, image), rng.choice((query, changed(rng, query))), memory, 'another image')
    elif way < 0.98:
        yield search_call(rng, image, changed(rng, query), rng.choice((memory, wrong_length(rng, memory))), 'another query')
    else:
        lent = wrong_length(rng, memory)
        yield search_call(rng, image, query, lent, 'wrong length')
        yield Call('load', {'image': rng.choice((image, changed(rng, image))), 'query': query, **lent}, (), 'wrong length')


def damaged_turn(rng, image, query, memory):
    """Damage, a call or two, and then the words put back, left, or loaded over."""
    before = copied(memory)
    note = damage(rng, memory)
    for _ in range(rng.choice((1, 2))):
        yield search_call(rng, image, query, memory, note)
    way = rng.random()
    if way < 0.7:
        for name in memory:
            memory[name][:] = before[name]
    elif way < 0.9:
        yield from start(rng, image, query, memory)
