"""The random rule sets and queries of `cases.py`, and words changed in them."""

from array import array
from typing import NamedTuple

HIGHEST = 2**32 - 1


def words(values):
    return array('I', values)


# ---- Rule sets ----


class Shape(NamedTuple):
    """How a rule set is drawn: each list is chosen from, more often what it has more often."""
    predicates: tuple
    arities: tuple
    clauses: tuple
    goals: tuple
    asked: tuple           # goals of the query
    constants: float       # share of the arguments that are constants
    repeats: float         # share of the variables that have appeared before
    downward: bool         # goals are of later predicates alone, so that the tree is finite


SHAPES = (
    Shape((1, 2, 3, 4), (0, 1, 1, 2, 2, 3), (0, 1, 2, 2, 3, 4), (0, 0, 1, 2), (1, 2, 3), 0.4, 0.5, True),
    Shape((1, 2, 3, 4), (0, 1, 1, 2, 2, 3), (1, 2, 2, 3), (0, 0, 1, 2), (1, 2, 3), 0.2, 0.5, True),
    Shape((1, 2, 3), (0, 1, 2, 3), (0, 1, 2, 3), (0, 0, 0, 1, 1, 2), (1, 1, 2), 0.4, 0.6, False),
    Shape((1, 2), tuple(range(4, 16)), (1, 2, 3), (0, 0, 1), (1, 1, 2), 0.3, 0.3, True),
    Shape((1, 2), (14, 15), (1, 2), (0, 0, 1), (1, 2), 0.05, 0.1, False),
    Shape((2, 3), (0, 1, 2), (1, 2), (0, 0, 15, 16), tuple(range(1, 17)), 0.1, 0.8, True),
    Shape((2, 4), (1, 2), (1, 1, 2), (0, 0, 1, 16), (7, 15, 16), 0.1, 0.7, True),
)
CONSTANTS = (0, 0, 1, 2, 2**28 - 1)


class ClauseWords:
    """A clause as it's written: variables are numbered by first appearance."""

    def __init__(self, rng, shape):
        self.rng = rng
        self.shape = shape
        self.variables = 0
        self.goals = 0
        self.body = []

    def argument(self):
        if self.rng.random() < self.shape.constants:
            self.body.append(2 << 28 | self.rng.choice(CONSTANTS))
        elif self.variables == 32 or self.variables and self.rng.random() < self.shape.repeats:
            self.body.append(1 << 28 | self.rng.randrange(self.variables))
        else:
            self.body.append(1 << 28 | self.variables)
            self.variables += 1

    def arguments(self, count):
        for _ in range(count):
            self.argument()

    def goal(self, predicate, arity):
        self.goals += 1
        self.body.append(9 << 28 | predicate << 18)
        self.arguments(arity)

    def words(self):
        return [8 << 28 | self.variables << 22 | self.goals << 16 | 1 + len(self.body)] + self.body


def clause_words(rng, shape, arities, predicate):
    clause = ClauseWords(rng, shape)
    clause.arguments(arities[predicate])
    first = predicate + 1 if shape.downward else 0
    if first < len(arities):
        for _ in range(rng.choice(shape.goals)):
            goal = rng.randrange(first, len(arities))
            clause.goal(goal, arities[goal])
    return clause.words()


def image_of(predicates):
    """The image of predicates: (arity, sequential, list of the words of each clause)."""
    table, clauses, at = [], [], 1 + len(predicates)
    for arity, sequential, bodies in predicates:
        table.append(arity << 28 | sequential << 27 | len(bodies) << 17 | at)
        for body in bodies:
            clauses += body
            at += len(body)
    return words([1 << 28 | len(predicates) << 18 | at] + table + clauses)


def rule_set(rng, shape):
    """A legal image and query."""
    arities = [rng.choice(shape.arities) for _ in range(rng.choice(shape.predicates))]
    predicates = []
    for predicate, arity in enumerate(arities):
        bodies = [clause_words(rng, shape, arities, predicate) for _ in range(rng.choice(shape.clauses))]
        predicates.append((arity, rng.random() < 0.25, bodies))
    return image_of(predicates), query_of(rng, shape, arities)


def query_of(rng, shape, arities):
    query = ClauseWords(rng, shape._replace(constants=shape.constants / 2))
    for _ in range(rng.choice(shape.asked)):
        predicate = rng.randrange(len(arities))
        query.goal(predicate, arities[predicate])
    return words(query.words())


def chain(rng):
    """One recursive clause of 32 variables, so that base and numbers grow as far as they can; facts before or behind it."""
    shape = Shape((1,), (15,), (1,), (1,), (3,), 0.0, 0.0, False)
    step, query = ClauseWords(rng, shape), ClauseWords(rng, shape)
    step.arguments(15)
    for _ in range(3):
        step.goal(0, 15)
        query.goal(0, 15)
    facts = [clause_words(rng, shape._replace(goals=(0,), constants=rng.random()), [15], 0) for _ in range(rng.choice((0, 1)))]
    bodies = [step.words()] + facts
    rng.shuffle(bodies)
    return image_of([(15, 0, bodies)]), words(query.words())


def many(rng):
    """One predicate of many clauses, or many predicates of which the last has one."""
    count = rng.choice((200, 1023))
    query = ClauseWords(rng, SHAPES[1])
    if rng.random() < 0.5:
        query.goal(0, 2)
        query.goal(0, 2)
        return image_of([(2, 0, [[8 << 28 | 3, 2 << 28, 2 << 28 | n % 7] for n in range(count)])]), words(query.words())
    query.goal(count - 1, 1)
    query.goal(rng.randrange(count), 1)
    return image_of([(1, 0, [])] * (count - 1) + [(1, 0, [[8 << 28 | 2, 2 << 28]])]), words(query.words())


def endless(rng):
    """A tree so large that no budget of 65,535 is enough, and without an answer."""
    shape = Shape((2,), (1,), (1,), (0,), (1,), 0.0, 0.2, True)
    query = ClauseWords(rng, shape)
    for _ in range(10):
        query.goal(0, 1)
    query.goal(1, 1)
    facts = [[8 << 28 | 2, 2 << 28 | constant] for constant in CONSTANTS]
    return image_of([(1, 0, facts), (1, 0, [])]), words(query.words())


def largest():
    """The longest image that there is, 131,071 words: 1,023 clauses of 128 words, one of 122 and one of 2."""
    goal = [9 << 28] + [2 << 28] * 15
    body = [8 << 28 | 7 << 16 | 128] + [2 << 28 | 5] * 15 + goal * 7
    last = [8 << 28 | 16 << 16 | 122] + goal * 7 + [9 << 28 | 1 << 18] * 9
    return image_of([(15, 0, [body] * 1023), (0, 0, [last, [8 << 28 | 1 << 16 | 2, 9 << 28 | 1 << 18]])])


def changed(rng, given):
    """The words with one changed, or some dropped or added: mostly illegal, sometimes legal and different."""
    new = words(given)
    way = rng.random()
    if not new or way < 0.1:
        new.append(rng.choice((0, 8 << 28 | 1, rng.getrandbits(32))))
    elif way < 0.2:
        del new[rng.randrange(len(new)):]
    else:
        at = rng.randrange(len(new)) if rng.random() < 0.8 else 0
        new[at] = changed_word(rng, new[at]) if at > 0 or rng.random() < 0.8 else new[at] ^ 1 << 17   # the header's zero field
    if new and new[0] >> 28 == 1 and len(new) < 2**17 and rng.random() < 0.5:
        new[0] = new[0] & ~0x1FFFF | len(new)   # else 5 hides what stands behind the header
    return new


def changed_word(rng, word):
    way = rng.randrange(10)
    if way < 4:
        return word ^ 1 << rng.randrange(32)
    if way < 6:
        return (word + rng.choice((-1, 1))) % 2**32
    if way < 8 and word >> 28 == 8:   # a CLAUSE's counts
        variables, goals = word >> 22 & 63, word >> 16 & 63
        variables, goals = rng.choice((
            (variables + 1, goals), (33, goals), (variables, goals + 1), (variables, 0), (variables, 17), (33, 17)))
        return word & 0xF000FFFF | (variables & 63) << 22 | (goals & 63) << 16
    return rng.choice((0, HIGHEST, rng.getrandbits(32)))
