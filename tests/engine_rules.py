"""Rule sets for the stored schedules: written ones that reach what random ones seldom do, and random ones of many shapes."""
import re


def clause_words(ref, head, goals):
    """A clause from arguments and goals (predicate, arguments); an argument is ('v', name) or ('c', constant)."""
    numbers = {}

    def word(argument):
        kind, value = argument
        if kind == 'c':
            return ref.make('CON', op=2, constant=value)
        return ref.make('VAR', op=1, number=numbers.setdefault(value, len(numbers)))

    body = [word(a) for a in head]
    for predicate, arguments in goals:
        body.append(ref.make('GOAL', op=9, predicate=predicate))
        body += [word(a) for a in arguments]
    return [ref.make('CLAUSE', op=8, variables=len(numbers), goals=len(goals), length=1 + len(body))] + body


def image_words(ref, predicates):
    """predicates: (arity, sequential, clauses as words)."""
    table, words, at = [], [], 1 + len(predicates)
    for arity, sequential, clauses in predicates:
        table.append(ref.make('predicate', arity=arity, sequential=sequential, count=len(clauses), position=at))
        for one in clauses:
            words += one
            at += len(one)
    return [ref.make('header', edition=1, P=len(predicates), length=at)] + table + words


def written(ref, declared, text, query):
    """A rule set as one writes it: declared predicates `name/arity`, `*` if sequential; clauses; the query's goals."""
    names, shapes = [], []
    for item in declared.split():
        name, arity, star = re.fullmatch(r'(\w+)/(\d+)(\*?)', item).groups()
        names.append(name)
        shapes.append((int(arity), 1 if star else 0))

    def goals(part):
        out = []
        for name, arguments in re.findall(r'(\w+)(?:\(([^)]*)\))?', part):
            words = [a.strip() for a in arguments.split(',')] if arguments else []
            out.append((names.index(name), [('c', int(a)) if a.isdigit() else ('v', a) for a in words]))
            assert len(words) == shapes[names.index(name)][0], part
        return out

    clauses = [[] for _ in names]
    for one in text.split('.'):
        if not one.strip():
            continue
        head, _, body = one.partition(':-')
        predicate, arguments = goals(head)[0]
        clauses[predicate].append(clause_words(ref, arguments, goals(body)))
    image = image_words(ref, [(a, s, c) for (a, s), c in zip(shapes, clauses)])
    return image, clause_words(ref, [], goals(query))


def names(prefix, start, count):
    return ','.join('%s%d' % (prefix, i) for i in range(start, start + count))


def written_rules(ref):
    """Rule sets that reach what random ones seldom do."""
    fifteen, constants = names('X', 0, 15), ','.join(str(i % 3) for i in range(15))
    sets = {
        'page': ('p/1', 'p(5). p(6).', 'p(X)'),
        'same': ('q/2', 'q(A,A).', 'q(X,Y)'),
        'self': ('q/2', 'q(A,A).', 'q(X,X)'),
        'chain': ('n/0', 'n :- n.', 'n'),
        'chain in turn': ('n/0*', 'n :- n. n.', 'n'),
        'chains': ('n/1', 'n(0). n(X) :- n(Y). n(1).', 'n(Z)'),
        'seven': ('b/1', 'b(0). b(1).', ', '.join('b(V%d)' % i for i in range(7))),
        'seven in turn': ('b/1*', 'b(0). b(1).', ', '.join('b(V%d)' % i for i in range(7))),
        'fifteen': ('w/15', 'w(%s). w(%s). w(%s).' % (constants, ','.join(['A'] * 15), fifteen), 'w(%s)' % fifteen),
        'fifteen twice': ('w/15', 'w(%s). w(%s).' % (','.join(['A', 'B', 'A'] * 5), ','.join(['7'] * 15)), 'w(%s), w(%s)' % (fifteen, names('X', 5, 15))),
        'deep': ('d/15 f/2', 'd(%s) :- d(%s), f(X30,X31).' % (fifteen, names('X', 15, 15)), 'd(%s), d(%s), f(X30,X31)' % (fifteen, names('X', 15, 15))),
        'deep and bound': ('d/15 f/2', 'd(%s) :- d(%s), f(X30,X31). f(1,2).' % (','.join(['9'] + ['X%d' % i for i in range(1, 15)]), names('X', 15, 15)), 'd(%s), d(%s), f(X30,X31)' % (fifteen, names('X', 15, 15))),
        'paths': ('edge/2 path/2', 'edge(1,2). edge(2,3). edge(3,1). edge(2,4). path(X,Y) :- edge(X,Y). path(X,Y) :- edge(X,Z), path(Z,Y).', 'path(1,X)'),
        'paths back': ('edge/2* path/2', 'edge(1,2). edge(2,3). edge(3,4). path(X,Y) :- edge(X,Y). path(X,Y) :- edge(X,Z), path(Z,Y).', 'path(X,4)'),
        'nothing': ('e/1', '', 'e(X)'),
        'nothing after': ('p/1 e/1', 'p(1). p(2).', 'p(X), e(X)'),
        'sixteen': ('t/0', 't.', ', '.join(['t'] * 16)),
        'sixteen twice': ('t/0', 't. t.', ', '.join(['t'] * 16)),
        'wide': ('b/1', 'b(0). b(1). b(2). b(3).', 'b(X), b(Y), b(X), b(Y)'),
        'references': ('s/3 r/2', 's(A,B,A). s(A,A,B). s(A,B,C) :- r(C,A). r(A,A). r(4,B).', 's(X,Y,Z), s(Y,Z,X), r(X,Z)'),
        'extremes': ('c/1 d/2', 'c(0). c(268435455). d(0,X). d(X,268435455). d(X,X).', 'c(X), d(X,Y), c(Z)'),
        'many': ('k/1', ''.join('k(%d).' % i for i in range(40)), 'k(39), k(X)'),
        'long': ('k/15 j/1', ''.join('k(%s).' % ','.join(['A', str(i)] + ['B'] * 12 + ['A']) for i in range(110)) + 'j(104). j(109).', 'j(X), k(%s)' % ','.join(['Y', 'X'] + names('Z', 0, 13).split(','))),
        'in turn': ('a/1* b/1 c/0*', 'a(1). a(2). b(1). b(2). c :- b(X). c.', 'a(X), b(X), c, a(Y)'),
        'climbing': ('p/0 q/0 r/0 s/0 t/0', 'p :- q, r. q :- s, s. s. s :- t. r :- s. t.', 'p, p'),
        'thirty-two': ('m/15 o/2', 'm(%s) :- o(X0,X1). o(1,1). o(A,B).' % fifteen, 'm(%s), m(%s), o(Y0,Y1)' % (fifteen, names('Z', 0, 15))),
        'clashes': ('g/4', 'g(A,A,1,2). g(A,B,A,3). g(1,B,B,B). g(A,2,C,A).', 'g(X,Y,Y,Z), g(Z,Y,X,X)'),
        'no variables': ('g/2', 'g(1,2). g(2,1). g(A,A).', 'g(1,2), g(2,2), g(2,1)'),
    }
    return [(name, *written(ref, *texts)) for name, texts in sets.items()]


def random_arguments(rng, arity, shape, seen):
    out = []
    for _ in range(arity):
        luck = rng.random()
        if luck < shape['new'] and len(seen) < 32:
            seen.append('v%d' % len(seen))
            out.append(('v', seen[-1]))
        elif luck < shape['new'] + shape['old'] and seen:
            out.append(('v', rng.choice(seen)))
        else:
            out.append(('c', rng.choice(shape['constants'])))
    return out


def random_clause(ref, rng, arity, arities, shape, goals):
    seen = []
    head = random_arguments(rng, arity, shape, seen)
    body = [(p, random_arguments(rng, arities[p], shape, seen)) for p in (rng.randrange(len(arities)) for _ in range(goals))]
    return clause_words(ref, head, body)


def random_rules(ref, rng, number):
    shape = {'new': rng.choice((0.3, 0.5, 0.8)), 'old': rng.choice((0.1, 0.3)), 'constants': rng.choice(((0, 1), (5,), (0, 1, 2, 268435455)))}
    most_arity = (1, 2, 3, 4, 8, 15)[number % 6]
    arities = [rng.randint(0, most_arity) for _ in range(rng.randint(1, 6))]
    predicates = []
    for arity in arities:
        clauses = [random_clause(ref, rng, arity, arities, shape, rng.choice((0, 0, 0, 1, 1, 2, rng.randint(0, 5)))) for _ in range(rng.choice((0, 1, 2, 2, 3, 4, 6)))]
        predicates.append((arity, int(rng.random() < 0.25), clauses))
    goals = rng.choice((1, 2, 2, 3, 4, 16 if most_arity < 3 else 5))
    return 'random %d' % number, image_words(ref, predicates), random_clause(ref, rng, 0, arities, shape, goals)
