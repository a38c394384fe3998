"""Makes the calls of random cases on the engine and on plain.py, and compares all that they answer and write.

    compare.py LIBRARY SEED COUNT [FIRST]     cases FIRST (1 if not given) to FIRST + COUNT - 1 of the seed
    compare.py LIBRARY --self-test            whether a wrong answer or a wrong word would be noticed

tests/differential/run builds the library and calls this.
"""

import ctypes
import faulthandler
import mmap
import os
import random
import sys
import time

import cases
import plain

BATCH = 100
DISAGREEMENT = 3   # exit status; Python's own errors have 1, a trap more than 128
GUARD = bytes(range(1, 65))   # stands before each slice, and must stay
ANSWER_FIELDS = plain.Answer._fields
SIZE_MOST = 4 * 4 * 131072 + len(GUARD)   # bytes of the largest slice lent: the room of the largest image's spread form


class CAnswer(ctypes.Structure):
    """struct cumbwael_answer."""
    _fields_ = [(name, ctypes.c_uint32) for name in ANSWER_FIELDS]


class Lent:
    """A piece of memory to lend from. What is lent ends where a page begins that nobody may read or write, so that reading or
    writing past the end traps; the guard before it tells of writing there."""

    def __init__(self):
        size = -(-SIZE_MOST // mmap.PAGESIZE) * mmap.PAGESIZE
        self.pages = mmap.mmap(-1, size + mmap.PAGESIZE)
        self.end = ctypes.addressof(ctypes.c_char.from_buffer(self.pages)) + size
        libc = ctypes.CDLL(None, use_errno=True)
        if libc.mprotect(ctypes.c_void_p(self.end), ctypes.c_size_t(mmap.PAGESIZE), 0) != 0:
            raise OSError(ctypes.get_errno(), 'mprotect')

    def lend(self, content):
        self.size = len(content)
        self.start = self.end - self.size
        ctypes.memmove(self.start - len(GUARD), GUARD + content, len(GUARD) + self.size)
        return self.start

    def content(self):
        return ctypes.string_at(self.start, self.size)

    def guard(self):
        return ctypes.string_at(self.start - len(GUARD), len(GUARD))


class Engine:
    """The calls of the built library."""

    NUMBERS = {'step': ('worker',), 'run': ('worker', 'budget'), 'move': ('worker', 'slot'), 'read': ('worker',)}
    SLICES = {'check': 1, 'check_query': 2, 'load': 7, 'step': 7, 'run': 7, 'move': 7, 'read': 8, 'pack': 2, 'unpack': 2}

    def __init__(self, path):
        library = ctypes.CDLL(path)
        self.functions = {}
        for name, slices in self.SLICES.items():
            function = getattr(library, 'cumbwael_' + name)
            function.argtypes = [ctypes.c_void_p, ctypes.c_size_t] * slices + [ctypes.c_uint32] * len(self.NUMBERS.get(name, ()))
            function.restype = ctypes.c_uint64 if name == 'check' else CAnswer
            self.functions[name] = function
        self.lent = [Lent() for _ in range(max(self.SLICES.values()))]

    def make(self, call):
        """Makes the call on copies of its slices. Answers the answer, the copies' contents and the guards."""
        parameters = []
        for lent, slice_ in zip(self.lent, call.slices.values()):
            parameters += [lent.lend(slice_.tobytes()), len(slice_)]
        answer = self.functions[call.name](*parameters, *call.numbers)
        if call.name != 'check':
            answer = plain.Answer(*(getattr(answer, name) for name in ANSWER_FIELDS))
        used = self.lent[:len(call.slices)]
        return answer, [lent.content() for lent in used], [lent.guard() for lent in used]


class Disagreement(Exception):
    """The place where engine and plain differ first, as text, and the lines that show it."""

    def __init__(self, place, lines):
        super().__init__(place)
        self.place = place
        self.lines = lines


def shown(answer):
    if isinstance(answer, int):
        return '0x%x' % answer
    return ' '.join('%s %d' % pair for pair in zip(ANSWER_FIELDS, answer))


def hexed(slice_):
    text = ' '.join('%0*x' % (2 * slice_.itemsize, word) for word in slice_[:1200])
    return text + (' .. (%d in all)' % len(slice_) if len(slice_) > 1200 else '')


def differences(call, answer, expected, contents, guards):
    """Where what the engine gave is not what plain gave: the first field of the answer, then the first word."""
    if answer != expected:
        if isinstance(answer, int):
            yield 'answer'
        else:
            yield 'answer.' + next(name for name, a, b in zip(ANSWER_FIELDS, answer, expected) if a != b)
    for (name, slice_), content, guard in zip(call.slices.items(), contents, guards):
        if content != slice_.tobytes():
            got = type(slice_)(slice_.typecode, content)
            at = next(at for at, (a, b) in enumerate(zip(got, slice_)) if a != b)
            yield '%s[%d]: engine 0x%08x, plain 0x%08x' % (name, at, got[at], slice_[at])
            return
        if guard != GUARD:
            yield 'before %s' % name
            return


def compare_call(engine, call, corrupt=None):
    """Makes a call on both sides; plain leaves its words in the call's slices. `corrupt` spoils what the engine gave."""
    before = {name: slice_[:] for name, slice_ in call.slices.items()}
    given = engine.make(call)
    if corrupt is not None:
        given = corrupt(call, *given)
    expected = getattr(plain, call.name)(*call.slices.values(), *call.numbers)
    places = list(differences(call, given[0], expected, *given[1:]))
    if not places:
        return expected
    numbers = ['%s %d' % pair for pair in zip(Engine.NUMBERS.get(call.name, ()), call.numbers)]
    lines = ['call: ' + ', '.join([call.name] + numbers + (['before it: ' + call.note] if call.note else []))]
    lines += ['lengths: ' + ', '.join('%s %d' % (name, len(slice_)) for name, slice_ in before.items())]
    lines += ['%s: %s' % (name, hexed(before[name])) for name in ('image', 'query', 'list', 'bytes') if name in before]
    lines += ['engine: ' + shown(given[0]), 'plain:  ' + shown(expected)] + ['they differ at ' + place for place in places]
    raise Disagreement(places[0], lines)


def case_calls(seed, case):
    """The same for a seed and a case, whatever cases went before."""
    return cases.calls(random.Random('%d/%d' % (seed, case)))


def run_case(engine, seed, case, tally):
    for number, call in enumerate(case_calls(seed, case), start=1):
        try:
            answer = compare_call(engine, call)
        except Disagreement as disagreement:
            disagreement.lines.insert(0, 'seed %d, case %d, call %d' % (seed, case, number))
            raise
        tally.count(call, answer)


class Tally:
    """How often each refusal and each outcome was met: cases that all end the same way compare little."""

    def __init__(self):
        self.calls = 0
        self.refusals = {}
        self.outcomes = {}

    def count(self, call, answer):
        self.calls += 1
        refusal = answer >> 32 if call.name == 'check' else answer.refusal
        if refusal:
            self.refusals[refusal] = self.refusals.get(refusal, 0) + 1
        elif call.name in ('step', 'run'):
            self.outcomes[answer.outcome] = self.outcomes.get(answer.outcome, 0) + 1

    def lines(self):
        for name, counts in (('outcomes', self.outcomes), ('refusals', self.refusals)):
            yield '%s met (how often): %s' % (name, ', '.join('%d (%d)' % pair for pair in sorted(counts.items())))


def compare_cases(engine, seed, count, first):
    start, tally = time.monotonic(), Tally()
    for case in range(first, first + count):
        if (case - first) % BATCH == 0:
            print('case %d of seed %d' % (case, seed), flush=True)
            faulthandler.dump_traceback_later(120, exit=True)   # a call that never ends
        note_case(seed, case)
        try:
            run_case(engine, seed, case, tally)
        except Disagreement as disagreement:
            print('\n'.join(disagreement.lines))
            print('disagreement; to repeat it: tests/differential/run %d 1 %d' % (seed, case))
            return DISAGREEMENT
    for line in tally.lines():
        print(line)
    print('%d calls, %.0f seconds' % (tally.calls, time.monotonic() - start))
    print('%d cases agree' % count)
    return 0


def note_case(seed, case):
    """Where a trap can be told from: the process then has no time to say it."""
    path = os.environ.get('DIFFERENTIAL_CASE')
    if path:
        with open(path, 'w') as file:
            file.write('%d 1 %d' % (seed, case))


# ---- Self-test ----


def corrupt_answer(field):
    def corrupt(call, answer, contents, guards):
        if isinstance(answer, int):
            return answer ^ 1, contents, guards
        return answer._replace(**{field: getattr(answer, field) ^ 1}), contents, guards
    return corrupt


def corrupt_slice(rng, name):
    def corrupt(call, answer, contents, guards):
        at = list(call.slices).index(name)
        spoiled = bytearray(contents[at])
        spoiled[rng.randrange(len(spoiled))] ^= 1 << rng.randrange(8)
        return answer, contents[:at] + [bytes(spoiled)] + contents[at + 1:], guards
    return corrupt


def corrupt_guard(call, answer, contents, guards):
    return answer, contents, [GUARD[:-1] + b'\0'] + guards[1:]


def self_test(engine):
    """Spoils each thing that is compared, one at a time, at each call of some cases that has it."""
    rng = random.Random(1)
    kinds = {'answer.' + field: corrupt_answer(field) for field in ANSWER_FIELDS}
    kinds['answer'] = corrupt_answer(None)
    for name in ('image', 'query', *plain.LENGTHS, 'room', 'list', 'bytes'):
        kinds[name] = corrupt_slice(rng, name)
    kinds['before'] = corrupt_guard
    failed = 0
    for kind, corrupt in kinds.items():
        spoiled, noticed, example = 0, 0, ''
        for case in range(1, 21):
            for call in case_calls(1, case):
                if not has(call, kind):
                    compare_call(engine, call)
                    continue
                spoiled += 1
                try:
                    compare_call(engine, call, corrupt)
                except Disagreement as disagreement:
                    example = disagreement.place
                    noticed += disagreement.place.split('[')[0].split(' ')[0] == kind
        print('%s spoiled %d times, noticed %d times; the last: %s' % (kind, spoiled, noticed, example))
        failed += spoiled == 0 or spoiled != noticed
    print('self-test: %d of %d kinds of wrong output are noticed' % (len(kinds) - failed, len(kinds)))
    return 1 if failed else 0


def has(call, kind):
    if kind.startswith('answer'):
        return (call.name == 'check') == (kind == 'answer')
    return kind == 'before' or len(call.slices.get(kind, ())) > 0


def main(arguments):
    faulthandler.enable()
    engine = Engine(arguments[0])
    if arguments[1:] == ['--self-test']:
        return self_test(engine)
    seed, count = int(arguments[1]), int(arguments[2])
    first = int(arguments[3]) if len(arguments) > 3 else 1
    return compare_cases(engine, seed, count, first)


if __name__ == '__main__':
    sys.exit(main(sys.argv[1:]))
