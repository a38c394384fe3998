"""Words, the rule image with its check, and the spread form, as `plain.py` has them."""

from array import array
from typing import NamedTuple

TRIED, EXTENDED, ANSWER, BACK, LEFT, WAIT, FINISHED, SPENT, FULL = 0, 1, 2, 3, 4, 5, 6, 7, 24

SLOTS, WORKERS, CELLS_OF_SLOT, TRAIL_OF_SLOT, ARRAY_OF_WORKER = 64, 4, 32, 32, 2048
LENGTHS = {'nodes': 256, 'cells': 2048, 'trail': 2048, 'arrays': 8192, 'workers': 4}

VNO, REF, CON = 0, 1, 2
VARIABLE, CONSTANT = 'variable', 'constant'


class Answer(NamedTuple):
    refusal: int = 0
    position: int = 0
    outcome: int = 0
    slot: int = 0
    count: int = 0


class Refused(Exception):
    def __init__(self, number, position=0):
        super().__init__(number, position)
        self.number = number
        self.position = position


def refuse_if(fault, number, position=0):
    if fault:
        raise Refused(number, position)


def demand(condition):
    """A part of condition 21."""
    refuse_if(not condition, 21)


def split(word, *widths):
    """The fields of a word, most significant first."""
    values, below = [], 32
    for width in widths:
        below -= width
        values.append(word >> below & (1 << width) - 1)
    return values


def joined(*pairs):
    """The word with these fields, most significant first: (value, width) each."""
    word = 0
    for value, width in pairs:
        word = word << width | value
    return word


# ---- Rule image ----


class Predicate(NamedTuple):
    arity: int
    sequential: bool
    clauses: list


class Clause(NamedTuple):
    position: int
    variables: int
    head: list   # terms
    goals: list


class Goal(NamedTuple):
    predicate: int
    arguments: list   # terms


# A term is (VARIABLE, number) or (CONSTANT, constant); in a clause the number is the clause's own, from 0 on.


class Reading:
    """Words read one after the other."""

    def __init__(self, words):
        self.words = words
        self.at = 0

    def next(self):
        refuse_if(self.at >= len(self.words), 6, len(self.words))
        self.at += 1
        return self.words[self.at - 1]


def read_image(words):
    """The predicates of a legal image; else the first fault met."""
    refuse_if(len(words) == 0, 1, 0)
    reading = Reading(words)
    edition, count, zero, length = split(reading.next(), 4, 10, 1, 17)
    refuse_if(edition != 1, 2, 0)
    refuse_if(count == 0, 3, 0)
    refuse_if(zero != 0, 4, 0)
    refuse_if(length != len(words), 5, 0)
    table = [split(reading.next(), 4, 1, 10, 17) for _ in range(count)]
    arities = [arity for arity, _, _, _ in table]
    predicates = []
    for place, (arity, sequential, clauses, position) in enumerate(table, start=1):
        refuse_if(position != reading.at, 7, place)
        read = [read_clause(reading, arity, arities) for _ in range(clauses)]
        predicates.append(Predicate(arity, sequential == 1, read))
    refuse_if(reading.at < len(words), 17, reading.at)
    return predicates


def read_clause(reading, arity, arities, is_query=False):
    position = reading.at
    op, variables, goals, length = split(reading.next(), 4, 6, 6, 16)
    refuse_if(op != 8, 8, position)
    refuse_if(variables > 32, 9, position)
    refuse_if(goals > 16 or is_query and goals == 0, 10, position)
    seen = set()
    head = [read_argument(reading, variables, seen) for _ in range(arity)]
    body = [read_goal(reading, arities, variables, seen) for _ in range(goals)]
    refuse_if(len(seen) < variables, 15, position)
    refuse_if(length != reading.at - position, 16, position)
    return Clause(position, variables, head, body)


def read_goal(reading, arities, variables, seen):
    position = reading.at
    op, predicate, zero = split(reading.next(), 4, 10, 18)
    refuse_if(op != 9, 13, position)
    refuse_if(zero != 0, 4, position)
    refuse_if(predicate >= len(arities), 14, position)
    return Goal(predicate, [read_argument(reading, variables, seen) for _ in range(arities[predicate])])


def read_argument(reading, variables, seen):
    position = reading.at
    word = reading.next()
    op = word >> 28
    refuse_if(op not in (1, 2), 11, position)
    if op == 2:
        return CONSTANT, split(word, 4, 28)[1]
    _, zero, number = split(word, 4, 22, 6)
    refuse_if(zero != 0, 4, position)
    refuse_if(number >= variables or number > len(seen), 12, position)
    seen.add(number)
    return VARIABLE, number


def read_query(words, predicates):
    """The clause of a legal query; else its fault, 32 added."""
    reading = Reading(words)
    try:
        clause = read_clause(reading, 0, [predicate.arity for predicate in predicates], is_query=True)
        refuse_if(reading.at < len(words), 17, reading.at)
        return clause
    except Refused as fault:
        raise Refused(32 + fault.number, fault.position)


# ---- The spread form ----

# Width of each field, and whether the spread form has it: it drops the zero fields.
HEADER_GROUP = ((4, True), (10, True), (1, False), (17, True))
PREDICATE_GROUP = ((4, True), (1, True), (10, True), (17, True))
GROUP_OF_OP = {
    8: ((4, True), (6, True), (6, True), (16, True)),
    1: ((4, True), (22, False), (6, True)),
    2: ((4, True), (28, True)),
    9: ((4, True), (10, True), (18, False)),
}


def packed_words(values):
    """The words that a spread list says, legal or not."""
    refuse_if(len(values) == 0, 1, 0)
    words, at = [], 0
    while at < len(values):
        if len(words) == 0:
            group = HEADER_GROUP
        elif len(words) <= values[1]:
            group = PREDICATE_GROUP
        else:
            refuse_if(values[at] not in GROUP_OF_OP, 29, at)
            group = GROUP_OF_OP[values[at]]
        word, at = packed_word(values, at, group)
        words.append(word)
    return words


def packed_word(values, at, group):
    """The word of the group that begins at a place in the list, and where the next begins."""
    pairs = []
    for width, kept in group:
        if not kept:
            pairs.append((0, width))
            continue
        refuse_if(at >= len(values), 19, len(values))
        refuse_if(values[at] >= 1 << width, 18, at)
        pairs.append((values[at], width))
        at += 1
    return joined(*pairs), at


def spread_values(words, count):
    """The spread list of a legal image with so many predicates."""
    values = []
    for place, word in enumerate(words):
        group = HEADER_GROUP if place == 0 else PREDICATE_GROUP if place <= count else GROUP_OF_OP[word >> 28]
        parts = split(word, *(width for width, _ in group))
        values += [part for part, (_, kept) in zip(parts, group) if kept]
    return values


def into_room(words, room):
    refuse_if(len(room) < len(words), 26)
    room[:len(words)] = array('I', words)
    return Answer(count=len(words))
