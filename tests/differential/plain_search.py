"""The tree, and the shared memory written from it and read into it, condition 21 among it, as `plain.py` has them."""

from array import array
from typing import NamedTuple

from plain_image import *

# ---- The tree ----


class Node:
    """A node in its slot. What follows from parent and clause is found here, once: depth, base, goals, path."""

    def __init__(self, slot, parent, clause):
        self.slot = slot
        self.parent = parent   # None: the root
        self.clause = clause
        self.tried = 0
        self.own = {}          # bindings of the clause's own variables, by number: what its cells hold
        self.trail = []        # conditional bindings in order: (number, term)
        self.goals = [(self, index) for index in range(len(clause.goals))]   # frame and goal index
        if parent is None:
            self.depth, self.base, self.path = 0, 0, [self]
        else:
            self.depth = parent.depth + 1
            self.base = parent.base + parent.clause.variables
            self.path = parent.path + [self]
            self.goals += parent.goals[1:]

    def first_goal(self):
        frame, index = self.goals[0]
        return frame.clause.goals[index]

    def trailed(self):
        """The conditional bindings on the path, by number."""
        return {number: term for node in self.path for number, term in node.trail}

    def bindings(self):
        """All bindings on the path, by number."""
        bindings = self.trailed()
        for node in self.path:
            bindings.update(node.own)
        return bindings

    def owner(self, number):
        """The node on the path whose variable has the number."""
        return next(node for node in self.path if node.base <= number < node.base + node.clause.variables)


class Search:
    """The tree as it stands, and where the workers are."""

    def __init__(self, predicates, query):
        self.predicates = predicates
        root = Node(0, None, query)
        self.nodes = {0: root}
        self.at = [root] * WORKERS

    def clauses(self, node):
        """The clauses of the first goal."""
        return self.predicates[node.first_goal().predicate].clauses if node.goals else []

    def live(self, node):
        return node.tried < len(self.clauses(node))

    def has_child(self, node):
        return any(other.parent is node for other in self.nodes.values())

    def step(self, worker):
        node = self.at[worker]
        if not self.live(node):
            return self.dieback(worker, node)
        if self.predicates[node.first_goal().predicate].sequential and self.has_child(node):
            return WAIT
        if len(self.nodes) == SLOTS:
            return FULL
        return self.extend(worker, node)

    def dieback(self, worker, node):
        """Rules 1 to 4: the node is dead."""
        if self.has_child(node):
            return WAIT
        if node.parent is None:
            return FINISHED
        self.at[worker] = node.parent
        if node in self.at:
            return LEFT
        del self.nodes[node.slot]
        return BACK

    def extend(self, worker, node):
        """Rule 7."""
        clause = self.clauses(node)[node.tried]
        node.tried += 1
        slot = min(set(range(SLOTS)) - set(self.nodes))
        child = Node(slot, node, clause)
        made = unified_head(child)
        if made is None:
            return TRIED
        for number, term in made:
            if number < child.base:
                child.trail.append((number, term))
            else:
                child.own[number] = term
        self.nodes[slot] = child
        self.at[worker] = child
        return EXTENDED if child.goals else ANSWER


def instance(term, base):
    """A clause's term where the clause's variables are numbered from a base on."""
    kind, value = term
    return (VARIABLE, base + value) if kind == VARIABLE else term


def dereferenced(term, bindings):
    while term[0] == VARIABLE and term[1] in bindings:
        term = bindings[term[1]]
    return term


def unified_head(child):
    """The bindings that unify a child's head with its parent's first goal, in order: (number, term); None if none do."""
    frame = child.parent.goals[0][0]
    bindings, made = child.parent.bindings(), []
    for head, goal in zip(child.clause.head, child.parent.first_goal().arguments):
        ours = dereferenced(instance(head, child.base), bindings)
        theirs = dereferenced(instance(goal, frame.base), bindings)
        if ours == theirs:
            continue
        if ours[0] == theirs[0] == CONSTANT:
            return None
        variable, term = bound_first(ours, theirs)
        bindings[variable[1]] = term
        made.append((variable[1], term))
    return made


def bound_first(one, other):
    """Of two different terms, not both constants: the variable that is bound, then what it takes."""
    if one[0] == CONSTANT:
        return other, one
    if other[0] == CONSTANT:
        return one, other
    return max(one, other), min(one, other)


# ---- Shared memory, written ----


class Memory(NamedTuple):
    nodes: array
    cells: array
    trail: array
    arrays: array
    workers: array


def value_word(term, node):
    """A term as a cell on the node's path holds it."""
    kind, value = term
    if kind == CONSTANT:
        return joined((CON, 3), (value, 29))
    owner = node.owner(value)
    return joined((REF, 3), (CELLS_OF_SLOT * owner.slot + value - owner.base, 29))


def node_words(node):
    frame, index = (node.goals[0][0].slot, node.goals[0][1]) if node.goals else (0, 0)
    parent = 0 if node.parent is None else node.parent.slot
    return [
        joined((1, 1), (parent, 6), (node.depth, 6), (len(node.trail), 4), (node.clause.variables, 6), (0, 9)),
        joined((node.base, 12), (0, 3), (node.clause.position, 17)),
        joined((1 if node.goals else 0, 1), (frame, 6), (index, 4), (node.tried, 10), (0, 11)),
        0,
    ]


def cell_words(node):
    numbers = range(node.base, node.base + node.clause.variables)
    return [value_word(node.own[number], node) if number in node.own else number for number in numbers]


def trail_words(node):
    return [word for number, term in node.trail for word in (number, value_word(term, node))]


def array_words(node):
    """The array of a worker that stands at the node."""
    words = array('I', [0]) * ARRAY_OF_WORKER
    for number, term in node.trailed().items():
        words[number] = value_word(term, node)
    return words


def write(search, memory):
    """All words of the memory, from the search alone."""
    for words in memory:
        words[:] = array('I', [0]) * len(words)
    for slot, node in search.nodes.items():
        place(memory.nodes, 4 * slot, node_words(node))
        place(memory.cells, CELLS_OF_SLOT * slot, cell_words(node))
        place(memory.trail, TRAIL_OF_SLOT * slot, trail_words(node))
    for worker, node in enumerate(search.at):
        place(memory.arrays, ARRAY_OF_WORKER * worker, array_words(node))
        memory.workers[worker] = node.slot


def place(words, start, new):
    words[start:start + len(new)] = array('I', new)


# ---- Shared memory, read: condition 21 ----


class Record(NamedTuple):
    """What a used slot's node words say."""
    parent: int
    depth: int
    entries: int
    variables: int
    base: int
    position: int
    has_goal: int
    frame: int
    index: int
    tried: int
    zeros: tuple


def record_of(words):
    _, parent, depth, entries, variables, zero0 = split(words[0], 1, 6, 6, 4, 6, 9)
    base, zero1, position = split(words[1], 12, 3, 17)
    has_goal, frame, index, tried, zero2 = split(words[2], 1, 6, 4, 10, 11)
    zeros = zero0, zero1, zero2, words[3]
    return Record(parent, depth, entries, variables, base, position, has_goal, frame, index, tried, zeros)


def read_memory(memory, predicates, query):
    """The search that the memory holds; 21 exactly when a part of the condition fails, in the order of its text."""
    records = read_records(memory)
    root_and_parents(records)
    search = Search(predicates, query)
    for slot in sorted(records, key=lambda slot: records[slot].depth):
        if slot != 0:
            search.nodes[slot] = child_by_record(search, slot, records[slot])
        follows_the_rules(search, search.nodes[slot], records[slot])
    for node in search.nodes.values():
        read_cells(node, memory.cells)
    for node in search.nodes.values():   # parents first, as they were put in
        read_trail(node, records[node.slot].entries, memory.trail)
    for worker in range(WORKERS):
        read_worker(search, worker, memory)
    return search


def read_records(memory):
    """`free slots zero`, and of the used ones `all zero fields 0`."""
    records = {}
    for slot in range(SLOTS):
        words = memory.nodes[4 * slot:4 * slot + 4]
        if words[0] >> 31 == 1:
            records[slot] = record_of(words)
            demand(not any(records[slot].zeros))
        else:
            demand(not any(words))
            demand(not any(memory.cells[CELLS_OF_SLOT * slot:CELLS_OF_SLOT * (slot + 1)]))
            demand(not any(memory.trail[TRAIL_OF_SLOT * slot:TRAIL_OF_SLOT * (slot + 1)]))
    return records


def root_and_parents(records):
    """`root used as above`; `each other used slot has a used parent, depth one more`."""
    demand(0 in records)
    root = records[0]
    demand((root.parent, root.depth, root.position, root.base) == (0, 0, 0, 0))
    for slot, record in records.items():
        if slot != 0:
            demand(record.parent in records)
            demand(record.depth == records[record.parent].depth + 1)


def child_by_record(search, slot, record):
    """`a clause position among the tried clauses of the parent's first goal`. The parent, being higher, is there."""
    parent = search.nodes[record.parent]
    tried = search.clauses(parent)[:parent.tried]
    by_position = {clause.position: clause for clause in tried}
    demand(record.position in by_position)
    return Node(slot, parent, by_position[record.position])


def follows_the_rules(search, node, record):
    """`variables, base, has goal, frame and index follow the rules; tried is at most the clause count, 0 without a goal`."""
    demand(record.variables == node.clause.variables)
    demand(record.base == node.base)
    demand(record.has_goal == (1 if node.goals else 0))
    frame, index = (node.goals[0][0].slot, node.goals[0][1]) if node.goals else (0, 0)
    demand((record.frame, record.index) == (frame, index))
    demand(record.tried <= len(search.clauses(node)))   # a node without goals has no clauses
    node.tried = record.tried


def read_cells(node, cells):
    """`a cell past the variables is 0, any other is its own VNO, a CON .. or a REF ..`"""
    words = cells[CELLS_OF_SLOT * node.slot:CELLS_OF_SLOT * (node.slot + 1)]
    demand(not any(words[node.clause.variables:]))
    for number, word in enumerate(words[:node.clause.variables], start=node.base):
        if word != joined((VNO, 3), (number, 29)):
            node.own[number] = read_value(word, number, node)


def read_value(word, holder, node):
    """`a CON below 2^28, or a REF to a lower-numbered variable's cell on the path`: lower than the variable that holds it."""
    tag, value = split(word, 3, 29)
    if tag == CON:
        demand(value < 1 << 28)
        return CONSTANT, value
    demand(tag == REF)
    slot, cell = divmod(value, CELLS_OF_SLOT)
    owners = [other for other in node.path if other.slot == slot]
    demand(len(owners) == 1 and cell < owners[0].clause.variables)
    demand(owners[0].base + cell < holder)
    return VARIABLE, owners[0].base + cell


def read_trail(node, entries, trail):
    """`trail numbers are below base, different along a path, their cells VNO, their values such a CON or REF, words past
    them 0; at most 15 entries, none at the root`. Four bits count no more than 15; at the root no number is below base."""
    words = trail[TRAIL_OF_SLOT * node.slot:TRAIL_OF_SLOT * (node.slot + 1)]
    demand(not any(words[2 * entries:]))
    taken = node.trailed()
    for place in range(0, 2 * entries, 2):
        number, word = words[place], words[place + 1]
        demand(number < node.base)
        demand(number not in taken)
        demand(number not in node.owner(number).own)
        taken[number] = read_value(word, number, node)
        node.trail.append((number, taken[number]))


def read_worker(search, worker, memory):
    """`each worker's slot used and its array as demand 3 says, read from the stored trails`."""
    demand(memory.workers[worker] in search.nodes)
    search.at[worker] = search.nodes[memory.workers[worker]]
    words = memory.arrays[ARRAY_OF_WORKER * worker:ARRAY_OF_WORKER * (worker + 1)]
    demand(words == array_words(search.at[worker]))
