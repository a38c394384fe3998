"""Changes of one word of a shared memory, an image or a query, for the stored schedules."""
from engine_store import ARRAYS, CELLS, MOST, NODES, QUERY, TRAIL, WORKERS


def used_slots(cases):
    return [s for s in range(64) if cases.memory.used(s)]


def changed_field(cases, part, name):
    """A field of a used slot gets another value, most often one close by."""
    ref, rng, memory = cases.ref, cases.rng, cases.memory
    slot = rng.choice(used_slots(cases))
    width = dict(ref.WIDTHS['node%d' % part])[name]
    now = memory.field(slot, part, name)
    other = rng.choice(used_slots(cases))
    near = [now + 1, now - 1, rng.getrandbits(width), other, memory.field(other, part, name)]
    if name == 'clause':
        near += [ref.get('node1', 'clause', memory.nodes[4 * s + 1]) for s in used_slots(cases)] + [rng.randrange(len(cases.image))]
    value = rng.choice([v for v in near if 0 <= v < 1 << width and v != now] or [now ^ 1])
    return NODES, 4 * slot + part, ref.put('node%d' % part, name, memory.nodes[4 * slot + part], value)


def changed_parent(cases):
    """Another slot as deep as the parent; one without a goal, where there is one."""
    ref, rng, memory = cases.ref, cases.rng, cases.memory
    pairs = [(s, t) for s in used_slots(cases)[1:] for t in used_slots(cases) if memory.field(t, 0, 'depth') + 1 == memory.field(s, 0, 'depth') and t != memory.field(s, 0, 'parent')]
    if not pairs:
        return None
    slot, parent = rng.choice([(s, t) for s, t in pairs if not memory.field(t, 2, 'goal')] or pairs)
    return NODES, 4 * slot, ref.put('node0', 'parent', memory.nodes[4 * slot], parent)


def some_value(cases, slot):
    """A tagged word: own number, constant or reference, right or not."""
    ref, rng, memory = cases.ref, cases.rng, cases.memory
    path = memory.path(slot)
    other = rng.choice(path) if rng.random() < 0.8 else rng.randrange(64)
    cell = 32 * other + rng.randrange(max(1, memory.field(other, 0, 'variables')) + (rng.random() < 0.1))
    return rng.choice((ref.tagged(ref.CON, rng.randrange(4)), ref.tagged(ref.CON, rng.choice((268435455, 268435456))), ref.tagged(ref.REF, cell),
                       ref.tagged(ref.REF, cell), ref.tagged(ref.VNO, rng.randrange(40)), ref.tagged(rng.randrange(3, 8), rng.randrange(4))))


def changed_cell(cases, past):
    rng, memory = cases.rng, cases.memory
    slot = rng.choice(used_slots(cases))
    size = memory.field(slot, 0, 'variables')
    if past and size < 32:
        return CELLS, 32 * slot + rng.randrange(size, 32), rng.choice((1, some_value(cases, slot)))
    if not size:
        return None
    k = rng.randrange(size)
    own = memory.field(slot, 1, 'base') + k
    return CELLS, 32 * slot + k, own if rng.random() < 0.2 else some_value(cases, slot)


def changed_trail(cases, past):
    rng, memory = cases.rng, cases.memory
    with_entries = [s for s in used_slots(cases) if memory.field(s, 0, 'entries')]
    if past or not with_entries:
        slot = rng.choice(used_slots(cases))
        size = 2 * memory.field(slot, 0, 'entries')
        return (TRAIL, 32 * slot + rng.randrange(size, 32), rng.choice((1, some_value(cases, slot)))) if size < 32 else None
    slot = rng.choice(with_entries)
    at = 2 * rng.randrange(memory.field(slot, 0, 'entries'))
    if rng.random() < 0.6:
        return TRAIL, 32 * slot + at + 1, some_value(cases, slot)
    numbers = [n for s in memory.path(slot) for n, _ in memory.entries_of(s)]
    return TRAIL, 32 * slot + at, rng.choice(numbers + [rng.randrange(memory.field(slot, 1, 'base') + 2), memory.field(slot, 1, 'base'), MOST])


def changed_array(cases):
    rng, memory = cases.rng, cases.memory
    worker = rng.randrange(4)
    bound = [i for i in range(2048 * worker, 2048 * worker + 2048) if memory.arrays[i]]
    if bound and rng.random() < 0.5:
        return ARRAYS, rng.choice(bound), rng.choice((0, 0x40000000, 0x40000001, 0x20000000))
    return ARRAYS, 2048 * worker + rng.choice((0, 1, 2047, rng.randrange(2048))), rng.choice((1, 0x40000000, 0x20000001))


def changed_free(cases):
    rng = cases.rng
    free = [s for s in range(64) if not cases.memory.used(s)]
    if not free:
        return None
    slot = rng.choice((free[0], free[-1], rng.choice(free)))
    slice, size = rng.choice(((NODES, 4), (CELLS, 32), (TRAIL, 32)))
    return slice, size * slot + rng.randrange(size), rng.choice((1, 1 << 31, 1 << 28, 0x40000001))


FIELDS = [(0, 'used'), (0, 'parent'), (0, 'depth'), (0, 'entries'), (0, 'variables'), (0, 'zero'), (1, 'base'), (1, 'zero'), (1, 'clause'),
          (2, 'goal'), (2, 'frame'), (2, 'index'), (2, 'tried'), (2, 'tried'), (2, 'zero'), (3, 'zero')]


def some_change(cases):
    """A change of one word of the memory, or None where there is nothing of the kind drawn."""
    rng = cases.rng
    kind = rng.randrange(13)
    if kind < 5:
        change = changed_field(cases, *rng.choice(FIELDS))
    elif kind == 12:
        change = changed_parent(cases)
    elif kind < 7:
        change = changed_cell(cases, rng.random() < 0.2)
    elif kind < 9:
        change = changed_trail(cases, rng.random() < 0.2)
    elif kind == 9:
        change = changed_array(cases)
    elif kind == 10:
        change = changed_free(cases)
    else:
        change = WORKERS, rng.randrange(4), rng.choice(used_slots(cases) + [rng.randrange(64), 64, 64 + rng.randrange(64), MOST])
    if change is None or cases.place(change[0])[change[1]] == change[2]:
        return None
    return change


def reason_of(cases, change):
    words = cases.place(change[0])
    before = words[change[1]]
    words[change[1]] = change[2]
    reason = cases.reason()
    words[change[1]] = before
    return reason


def changed_rules(cases, slice):
    """One field of one word of image or query is another value."""
    ref, rng = cases.ref, cases.rng
    words = cases.place(slice)
    at = rng.randrange(len(words))
    if slice == QUERY or at > ref.get('header', 'P', words[0]):
        kind = ref.KIND_OF_OP[ref.op_of(words[at])]
    else:
        kind = 'predicate' if at else 'header'
    name, width = rng.choice(ref.WIDTHS[kind])
    return at, ref.put(kind, name, words[at], rng.getrandbits(width))


def near_values(cases, slot):
    """Words for a cell or a trail value of a slot: constants at both ends, tags that are none, references to cells near and far."""
    ref, memory = cases.ref, cases.memory
    words = [ref.tagged(ref.CON, c) for c in (0, 268435455, 268435456)] + [ref.tagged(3, 0), ref.tagged(7, 1), ref.tagged(ref.VNO, 0)]
    for other in used_slots(cases):
        size = memory.field(other, 0, 'variables')
        words += [ref.tagged(ref.REF, 32 * other + k) for k in sorted({0, max(size - 1, 0), size % 32})]
    return words + [ref.tagged(ref.REF, 2047), ref.tagged(ref.REF, 2048), ref.tagged(ref.REF, 0x1FFFFFFF)]


def swept_nodes(cases):
    """Every field of every used slot one more and one less, and as the other slots have it."""
    ref, memory = cases.ref, cases.memory
    for slot in used_slots(cases):
        for part, name in sorted(set(FIELDS)):
            width = dict(ref.WIDTHS['node%d' % part])[name]
            now = memory.field(slot, part, name)
            others = {memory.field(s, part, name) for s in used_slots(cases)} if name in ('parent', 'clause', 'frame') else set()
            for value in sorted({now + 1, now - 1} | others - {now}):
                if 0 <= value < 1 << width:
                    yield NODES, 4 * slot + part, ref.put('node%d' % part, name, memory.nodes[4 * slot + part], value)


def swept_words(cases):
    """Cells, trails, arrays and workers; the first free slot."""
    memory = cases.memory
    for slot in used_slots(cases):
        base, size, entries = memory.field(slot, 1, 'base'), memory.field(slot, 0, 'variables'), memory.entries_of(slot)
        for k in range(min(size, 4)):
            for value in [base + k, base + k + 1] + near_values(cases, slot):
                yield CELLS, 32 * slot + k, value
        for at in sorted({size % 32, 31}):
            yield CELLS, 32 * slot + at, 1
        for i in range(len(entries)):
            numbers = [n for s in memory.path(slot) for n, _ in memory.entries_of(s)]
            for number in sorted({0, 1, base - 1, base, MOST} | set(numbers)):
                yield TRAIL, 32 * slot + 2 * i, number & MOST
            for value in near_values(cases, slot):
                yield TRAIL, 32 * slot + 2 * i + 1, value
        for at in sorted({2 * len(entries), 2 * len(entries) + 1, 31}):
            yield TRAIL, 32 * slot + min(at, 31), 1
    for worker in range(4):
        for number in sorted({0, 1, 2, 2047} | {n for s in memory.path(memory.workers[worker]) for n, _ in memory.entries_of(s)}):
            for value in (0, 1, 0x40000000, 0x20000000):
                yield ARRAYS, 2048 * worker + number, value
        for slot in used_slots(cases) + [63, 64, 65, 128, MOST]:
            yield WORKERS, worker, slot
    free = next(s for s in range(64) if not memory.used(s))
    for slice, size in ((NODES, 4), (CELLS, 32), (TRAIL, 32)):
        for at in range(0, size, max(1, size // 4)):
            yield slice, size * free + at, 1 << at % 31
