"""Document 01 once more, in plain Python, to hold the engine against.

It renders the check of images, queries and bytes, packing and unpacking, and load, step, run, move and read with
their refusals, condition 21 among them. It follows document 01 and, where that is open, the readings of docs/DECISIONS.md:
those are the engine's too, so a wrong reading there would not show. It has no code, table or definition in common with the
proved code. Where the engine works on the words where they stand, this reads them into objects, works on those, and
writes every word anew:

- a legal image is a list of predicates, each with its clauses, their goals and their terms;
- a used slot is a Node with its whole list of goals, where the engine climbs from frame to parent frame;
- bindings are a dictionary by variable number, gathered along a node's path, where the engine follows cells and arrays;
- a worker is the node where it stands. Its array is written from the trails of that node's path and never read,
  except by condition 21.

So a move has nothing to undo or install here, and a failed head nothing to take back.

Image and spread form stand in plain_image.py, tree and memory in plain_search.py; the calls here take what the calls of include/cumbwael.h take, in their order, without the lengths: slices are
arrays of words and are written in place.
"""

import struct

from plain_image import *
from plain_search import *

# ---- The calls ----


def answered(call):
    """A call that answers a refusal where one is met. Nothing is written before the last refusal is past."""
    def answering(*lent):
        try:
            return call(*lent)
        except Refused as refused:
            return Answer(refused.number, refused.position)
    return answering


def pair_of(image, query, memory):
    for name, words in zip(LENGTHS, memory):
        refuse_if(len(words) != LENGTHS[name], 20)
    predicates = read_image(image)
    return predicates, read_query(query, predicates)


def opened(image, query, memory, worker):
    search = read_memory(memory, *pair_of(image, query, memory))
    refuse_if(worker >= WORKERS, 22)
    return search


def check(data):
    """The check of bytes: number times 2^32 plus position, 0 if legal."""
    try:
        refuse_if(len(data) % 4 != 0, 6, min(len(data) // 4, 131072))
        read_image(struct.unpack('>%dI' % (len(data) // 4), bytes(data)))
        return 0
    except Refused as refused:
        return (refused.number << 32) + refused.position


@answered
def check_query(image, query):
    read_query(query, read_image(image))
    return Answer()


@answered
def load(image, query, *slices):
    memory = Memory(*slices)
    write(Search(*pair_of(image, query, memory)), memory)
    return Answer()


@answered
def step(image, query, nodes, cells, trail, arrays, workers, worker):
    memory = Memory(nodes, cells, trail, arrays, workers)
    search = opened(image, query, memory, worker)
    outcome = search.step(worker)
    write(search, memory)
    return Answer(outcome=outcome, slot=search.at[worker].slot)


@answered
def run(image, query, nodes, cells, trail, arrays, workers, worker, budget):
    memory = Memory(nodes, cells, trail, arrays, workers)
    search = opened(image, query, memory, worker)
    outcome, count = SPENT, 0
    while outcome == SPENT and count < budget:
        taken = search.step(worker)
        if taken != FULL:
            count += 1
        if taken in (ANSWER, WAIT, FINISHED, FULL):
            outcome = taken
    write(search, memory)
    return Answer(outcome=outcome, slot=search.at[worker].slot, count=count)


@answered
def move(image, query, nodes, cells, trail, arrays, workers, worker, slot):
    memory = Memory(nodes, cells, trail, arrays, workers)
    search = opened(image, query, memory, worker)
    refuse_if(slot not in search.nodes, 23)
    here, there = search.at[worker].path, search.nodes[slot].path
    passed = [node for node in here if node not in there] + [node for node in there if node not in here]
    search.at[worker] = search.nodes[slot]
    write(search, memory)
    return Answer(count=sum(len(node.trail) for node in passed))


@answered
def read(image, query, nodes, cells, trail, arrays, workers, room, worker):
    search = opened(image, query, Memory(nodes, cells, trail, arrays, workers), worker)
    node = search.at[worker]
    refuse_if(node.goals, 25)
    bindings, met, words = node.bindings(), [], []
    for number in range(search.nodes[0].clause.variables):
        kind, value = dereferenced((VARIABLE, number), bindings)
        if kind == CONSTANT:
            words.append(joined((2, 4), (value, 28)))
            continue
        if value not in met:
            met.append(value)
        words.append(joined((1, 4), (0, 22), (met.index(value), 6)))
    return into_room(words, room)


@answered
def pack(values, room):
    words = packed_words(values)
    read_image(words)
    return into_room(words, room)


@answered
def unpack(image, room):
    return into_room(spread_values(image, len(read_image(image))), room)
