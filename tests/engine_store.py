"""What the stored schedules are made with: the reference's memory, the digest of its words, and calls and changes as stored words."""
import collections
import re

LOAD, STEP, RUN, MOVE, READ = 1, 2, 3, 4, 5
NODES, CELLS, TRAIL, ARRAYS, WORKERS, IMAGE, QUERY = 1, 2, 3, 4, 5, 6, 7
SHORTER, LONGER = 1, 2
PRIME, FACTOR = 4294967311, 1103515245
MOST = 0xFFFFFFFF
SPARE = 0xABCDEF01


class Digest:
    """The sum over all words, spare words included, kept by what changes."""

    def __init__(self, size):
        self.powers = [1]
        for _ in range(size):
            self.powers.append(self.powers[-1] * FACTOR % PRIME)
        self.words = [0] * size
        self.sum = self.powers[size]

    def of(self, words):
        size = len(words)
        for start in range(0, size, 64):
            if words[start:start + 64] == self.words[start:start + 64]:
                continue
            for i in range(start, min(start + 64, size)):
                self.sum += (words[i] - self.words[i]) * self.powers[size - 1 - i]
        self.words = words
        self.sum %= PRIME
        return self.sum


class Cases:
    def __init__(self, ref, rng):
        self.ref, self.rng = ref, rng
        self.memory = ref.Memory()
        self.spare = [0] * 5
        self.digest = Digest(sum(n + 1 for n in self.memory.lengths()))
        self.schedules = []
        self.met = collections.Counter()
        self.reasons = collections.Counter()
        self.places = collections.Counter()
        self.drawn = collections.Counter()

    # -- schedules

    def begin(self, rules):
        self.name, image, query = rules
        self.image, self.query = list(image), list(query)
        self.turns = []
        self.schedules.append((self.name, tuple(image), tuple(query), self.turns))

    def all_words(self):
        out = []
        for name, spare in zip(self.memory.NAMES, self.spare):
            out += getattr(self.memory, name)
            out.append(spare)
        return out

    # -- calls

    def answer(self, image, query, kind, worker, given):
        """What the reference answers, as four words, and the words read."""
        memory, ref = self.memory, self.ref
        if kind == LOAD:
            number, position = memory.load(image, query)
            return [number, position, 0, 0], []
        if kind == STEP:
            got = memory.step(image, query, worker)
            if got.refusal and got.refusal != ref.FULL:
                return [got.refusal, got.position, 0, 0], []
            return [0, got.outcome, got.slot, 0], []
        if kind == RUN:
            got = memory.run(image, query, worker, given)
            if got.refusal:
                return [got.refusal, got.position, 0, 0], []
            return [0, got.outcome, got.slot, got.count], []
        if kind == MOVE:
            got = memory.move(image, query, worker, given)
            return [got.refusal, got.position if got.refusal else got.entries, 0, 0], []
        out = [0] * given
        got = memory.read(image, query, worker, out)
        return [got.refusal, got.position if got.refusal else got.count, 0, 0], out[:got.count]

    def lent(self, words, spare, how):
        return words[:-1] if how == SHORTER else words + [spare] if how == LONGER else words

    def record(self, kind, worker=0, given=0, slice=0, how=0):
        """The call's words, and what it answered; the memory is as the reference leaves it."""
        memory = self.memory
        image = self.lent(self.image, SPARE, how if slice == IMAGE else 0)
        query = self.lent(self.query, SPARE, how if slice == QUERY else 0)
        if NODES <= slice <= WORKERS:
            name = memory.NAMES[slice - 1]
            kept = getattr(memory, name)
            setattr(memory, name, self.lent(kept, self.spare[slice - 1], how))
            want, words = self.answer(image, query, kind, worker, given)
            assert want == [20, 0, 0, 0]
            setattr(memory, name, kept)
        else:
            want, words = self.answer(image, query, kind, worker, given)
        self.met[('refused', want[0]) if want[0] else (kind, want[1]) if kind in (STEP, RUN) else (kind, 'done')] += 1
        if want[0] == 20:
            self.met['length', kind, slice, how] += 1
        digest = self.digest.of(self.all_words())
        return [kind, worker, given, slice, how] + want + [digest >> 32, digest & MOST] + words, want

    def call(self, kind, worker=0, given=0, slice=0, how=0):
        words, want = self.record(kind, worker, given, slice, how)
        self.turns.append([0] + words)
        if kind in (STEP, RUN) and want[:2] == [0, self.ref.ANSWER]:
            self.read_all(worker)
        return want

    def variables(self):
        return self.ref.get('CLAUSE', 'variables', self.query[0])

    def read_all(self, worker):
        """Reads an answer: at times first with one word too little, and with more than enough."""
        size = self.variables()
        if size and self.rng.random() < 0.15:
            self.call(READ, worker, size - 1)
        self.call(READ, worker, size + (self.rng.randint(1, 6) if self.rng.random() < 0.3 else 0))

    # -- changes of one word

    def place(self, slice):
        return self.image if slice == IMAGE else self.query if slice == QUERY else getattr(self.memory, self.memory.NAMES[slice - 1])

    def reason(self):
        return re.sub(r' \d+', '', self.memory.damaged(self.image, self.query)) or 'sound'

    def change(self, slice, index, value, kind, worker=0, given=0, wrong=0, how=0, keep=False):
        """One word changed; a call; the word put back, unless the call has gone on from it or it is to be kept."""
        words = self.place(slice)
        before = words[index]
        words[index] = value
        legal = self.ref.check_pair(self.image, self.query) == (0, 0)
        reason = self.reason() if legal else ''
        verdict = 2 if not legal else 1 if reason == 'sound' else 0
        stored = self.all_words()
        call, want = self.record(kind, worker, given, wrong, how)
        gone_on = self.all_words() != stored
        words = self.place(slice)
        if not keep and not gone_on:
            words[index] = before
        self.turns.append([slice, index, value, verdict] + call + [words[index]])
        self.digest.of(self.all_words())
        if slice <= WORKERS:
            self.reasons[reason or 'illegal'] += 1
            self.places[reason, slice, index % 4 if slice == NODES else 0] += 1
        return want

    def words(self):
        out = [len(self.schedules)]
        for _, image, query, turns in self.schedules:
            out += [len(image) + 1, *image, SPARE, len(query) + 1, *query, SPARE, len(turns)]
            for turn in turns:
                out += turn
        return out
