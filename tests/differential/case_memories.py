"""The memories of `cases.py`: made up by condition 21, and damaged."""

import plain
from case_rules import *

# ---- Memories ----


def zero_memory():
    return {name: words([0]) * length for name, length in plain.LENGTHS.items()}


def copied(memory):
    return {name: words(slice_) for name, slice_ in memory.items()}


def used_slots(memory):
    return [slot for slot, word in enumerate(memory['nodes'][:256:4]) if word >> 31]


def leaf_slots(memory):
    used = used_slots(memory)
    parents = {memory['nodes'][4 * slot] >> 25 & 63 for slot in used if slot != 0}
    return [slot for slot in used if slot not in parents]


def made_up(rng, image, query, memory):
    """A memory that condition 21 admits and that no search need ever make: any clause among the tried ones, siblings by
    the same clause, bindings that nothing unified."""
    predicates = plain.read_image(image)
    search = plain.Search(predicates, plain.read_query(query, predicates))
    bind_anything(rng, search.nodes[0])
    for _ in range(rng.choice((1, 3, 10, 20, 90))):
        parent = rng.choice(list(search.nodes.values()))
        clauses = search.clauses(parent)
        free = [slot for slot in range(64) if slot not in search.nodes]
        if clauses and free:
            chosen = rng.randrange(len(clauses))
            parent.tried = max(parent.tried, chosen + 1)
            child = plain.Node(rng.choice(free), parent, clauses[chosen])
            bind_anything(rng, child)
            search.nodes[child.slot] = child
    for node in search.nodes.values():
        if rng.random() < 0.3:
            node.tried = rng.randint(node.tried, len(search.clauses(node)))
    search.at = [rng.choice(list(search.nodes.values())) for _ in range(4)]
    plain.write(search, plain.Memory(**memory))


def bind_anything(rng, node):
    share = rng.choice((0, 0.2, 0.8))
    for number in range(node.base, node.base + node.clause.variables):
        if rng.random() < share:
            node.own[number] = any_value(rng, number)
    bound = node.bindings()
    unbound = [number for number in range(node.base) if number not in bound]
    rng.shuffle(unbound)
    for number in unbound[:rng.choice((0, 1, 3, 15))]:
        node.trail.append((number, any_value(rng, number)))


def any_value(rng, number):
    """A constant, or a variable of a lower number. All lower numbers are on the path."""
    if number == 0 or rng.random() < 0.5:
        return plain.CONSTANT, rng.choice(CONSTANTS)
    return plain.VARIABLE, rng.randrange(number)


def damage(rng, memory):
    """Changes one word of one slice, or an entry and the arrays with it; says what it did."""
    way = rng.random()
    if way < 0.2:
        return damage_entry(rng, memory)
    if way < 0.5:
        return damage_field(rng, memory)
    if way < 0.6:
        return damage_reference(rng, memory)
    name = rng.choice(('nodes', 'cells', 'cells', 'trail', 'trail', 'arrays', 'workers'))
    at = place_to_damage(rng, name, memory)
    old = memory[name][at]
    memory[name][at] = rng.choice((changed_word(rng, old), value_to_put(rng, old, memory), rng.choice(memory[name])))
    return '%s[%d] was 0x%08x, is 0x%08x' % (name, at, old, memory[name][at])


# Widths of the fields of a slot's node words.
NODE_FIELDS = ((1, 6, 6, 4, 6, 9), (12, 3, 17), (1, 6, 4, 10, 11), (32,))


def damage_field(rng, memory):
    """Changes one field of a used slot's node words, mostly by little."""
    slot, part = rng.choice(used_slots(memory) or [0]), rng.choice((0, 0, 1, 2, 2, 3))
    widths = NODE_FIELDS[part]
    field = rng.randrange(len(widths))
    width, below = widths[field], sum(widths[field + 1:])
    at = 4 * slot + part
    old = memory['nodes'][at]
    value = old >> below & (1 << width) - 1
    new = rng.choice((0, value + 1, value - 1, rng.getrandbits(width))) & (1 << width) - 1
    memory['nodes'][at] = old ^ (value ^ new) << below
    return 'field %d of nodes[%d] was %d, is %d' % (field, at, value, new)


def damage_reference(rng, memory):
    """Makes a cell a REF to a cell of a slot on its path, its own slot among them."""
    slot = rng.choice(used_slots(memory) or [0])
    owner = rng.choice(path_of(memory, slot))
    variables = [memory['nodes'][4 * each] >> 9 & 31 for each in (slot, owner)]
    at = 32 * slot + rng.randrange(max(variables[0], 1))
    address = 32 * owner + rng.choice((0, variables[1], variables[1], rng.randrange(32)))
    memory['cells'][at] = 1 << 29 | address
    return 'cells[%d] is a REF to cell %d' % (at, address)


def place_to_damage(rng, name, memory):
    """Mostly a word that says something."""
    slot = rng.choice(used_slots(memory) or [0]) if rng.random() < 0.8 else rng.randrange(64)
    if name == 'nodes':
        return 4 * slot + rng.randrange(4)
    if name in ('cells', 'trail'):
        return 32 * slot + rng.choice((0, 1, 2, 3, rng.randrange(32)))
    if name == 'arrays':
        return 2048 * rng.randrange(4) + rng.choice((0, 1, 2, rng.randrange(64), rng.randrange(2048)))
    return rng.randrange(4)


def value_to_put(rng, old, memory):
    """A word as cells, trails and arrays hold them, or as node words would have it."""
    some_slot = rng.choice(used_slots(memory) or [0])
    return rng.choice((
        0,
        2 << 29 | rng.choice(CONSTANTS),
        2 << 29 | 2**28,
        1 << 29 | rng.randrange(8),
        1 << 29 | 32 * rng.randrange(64) + rng.randrange(4),
        1 << 29 | 32 * some_slot + rng.randrange(4),
        1 << 29 | 32 * some_slot + (memory['nodes'][4 * some_slot] >> 9 & 31),   # just past its variables
        1 << 29 | 2048,
        rng.randrange(64),
        old ^ 1 << rng.choice((11, 12, 31)),
    ))


def damage_entry(rng, memory):
    """Changes number or value of a trail entry, and with it the arrays of the workers below: so it's the entry alone that
    condition 21 is asked about."""
    slots = [slot for slot in used_slots(memory) if memory['nodes'][4 * slot] >> 15 & 15]
    if not slots:
        return 'no entry to change'
    slot = rng.choice(slots)
    at = 32 * slot + 2 * rng.randrange(memory['nodes'][4 * slot] >> 15 & 15)
    number, value = memory['trail'][at:at + 2]
    new_number, new_value = number, value
    if rng.random() < 0.4:
        new_number = rng.choice((number + 1, max(number - 1, 0), rng.randrange(64), memory['nodes'][4 * slot + 1] >> 20))
    else:
        new_value = value_to_put(rng, value, memory)
    memory['trail'][at], memory['trail'][at + 1] = new_number, new_value
    for worker in range(4):
        if slot in path_of(memory, memory['workers'][worker]) and number < 2048:
            memory['arrays'][2048 * worker + number] = 0
            memory['arrays'][2048 * worker + new_number % 2048] = new_value
    return 'entry %d 0x%08x of slot %d is %d 0x%08x, and so in the arrays' % (number, value, slot, new_number, new_value)


def path_of(memory, slot):
    """Slots from one up by the parents, as far as they go in a damaged memory."""
    path = []
    while slot < 64 and slot not in path:
        path.append(slot)
        slot = memory['nodes'][4 * slot] >> 25 & 63
    return path


def wrong_length(rng, memory):
    """A memory like the given one in which a slice has a word too many or too few, or many."""
    new = copied(memory)
    for name in rng.sample(list(new), rng.choice((1, 1, 2))):
        if rng.random() < 0.5:
            del new[name][rng.choice((-1, -1, 0)):]
        else:
            new[name].extend(words([rng.getrandbits(32)] * rng.choice((1, 1, 64))))
    return new
