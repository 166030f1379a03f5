#!/usr/bin/env python3
"""path_parts_oracle.py CASES: prints what repair_cases has to print for a text of cases, by its own reading of the rules:
relations are sets of pairs of terms. With --draw SEED COUNT it writes a text of drawn cases instead, and with --check it
also tries each atom against its parts in every edited graph (or in 64 drawn ones)."""
import random, re, sys

RDF = 'http://www.w3.org/1999/02/22-rdf-syntax-ns#'
RDFS = 'http://www.w3.org/2000/01/rdf-schema#'
SH = 'http://www.w3.org/ns/shacl#'
EX = 'http://example.org/'

TERM = re.compile(r'<([^>]*)>|_:([A-Za-z0-9]+)|"([^"]*)"')


def term_of(m, scope):
    if m.group(1) is not None:
        return (0, m.group(1))
    if m.group(2) is not None:
        return (1, scope, m.group(2))
    return (2, m.group(3))


def graph_of(lines, scope):
    out = set()
    for line in lines:
        ts = [term_of(m, scope) for m in TERM.finditer(line)]
        assert len(ts) == 3, line
        out.add(tuple(ts))
    return out


def spell(t):
    if t[0] == 0:
        return f'<{t[1]}>'
    if t[0] == 1:
        return f'_:{t[2]}'
    return f'"{t[1]}"'


class Paths:
    def __init__(self, shapes):
        self.s = shapes
        sh = lambda n: (0, SH + n)
        seen, todo = set(), [o for (s, p, o) in shapes if p == sh('path')]
        self.raw = {}
        while todo:
            x = todo.pop()
            if x in seen:
                continue
            seen.add(x)
            self.raw[x] = f = self.form(x)
            if f[0] == 'alt':
                todo += f[1]
            elif f[0] != 'pred':
                todo += f[1:]
        order = sorted(seen)
        self.number = {x: 4 + i for i, x in enumerate(order)}
        self.forms = [('pred', RDF + 'type'), ('pred', RDFS + 'subClassOf'), ('star', 1), ('seq', 0, 2)]
        for x in order:
            f = self.raw[x]
            if f[0] == 'pred':
                self.forms.append(f)
            elif f[0] == 'alt':
                self.forms.append(('alt', [self.number[m] for m in f[1]]))
            else:
                self.forms.append((f[0],) + tuple(self.number[m] for m in f[1:]))

    def value(self, x, p):
        vs = [o for (s, q, o) in self.s if s == x and q == (0, p)]
        return vs[0] if len(vs) == 1 else None

    def members(self, x):
        out = []
        while x != (0, RDF + 'nil'):
            out.append(self.value(x, RDF + 'first'))
            x = self.value(x, RDF + 'rest')
        return out

    def form(self, x):
        if x[0] == 0:
            return ('pred', x[1])
        if self.value(x, RDF + 'first') is not None:
            ms = self.members(x)
            return ('seq', ms[0], ms[1]) if len(ms) == 2 else ('seq', ms[0], self.value(x, RDF + 'rest'))
        for name, kind in (('inversePath', 'inv'), ('zeroOrMorePath', 'star'), ('oneOrMorePath', 'plus'),
                           ('zeroOrOnePath', 'opt')):
            v = self.value(x, SH + name)
            if v is not None:
                return (kind, v)
        return ('alt', self.members(self.value(x, SH + 'alternativePath')))


def compose(r, s):
    by = {}
    for (z, y) in s:
        by.setdefault(z, set()).add(y)
    return {(x, y) for (x, z) in r for y in by.get(z, ())}


class Problem:
    def __init__(self, shapes, data, offered):
        self.paths = Paths(shapes)
        self.g = sorted(data)
        self.h = sorted(offered - data)
        self.candidates = self.g + self.h
        ends = {t for c in self.candidates for t in (c[0], c[2])}
        ends |= {o for (s, p, o) in shapes if p == (0, SH + 'targetNode')}
        self.nodes = sorted(ends)
        self.at = {t: i for i, t in enumerate(self.nodes)}
        self.cand = {c: i for i, c in enumerate(self.candidates)}
        self.full = self.relations(set(self.candidates))
        self.poss = {(p, x): sorted(self.at[b] for (a, b) in r if a == self.nodes[x])
                     for p, r in enumerate(self.full) for x in range(len(self.nodes))}

    def relations(self, graph):
        unit = {(n, n) for n in self.nodes}
        done = {}

        def rel(p):
            if p in done:
                return done[p]
            f = self.paths.forms[p]
            if f[0] == 'pred':
                r = {(s, o) for (s, q, o) in graph if q == (0, f[1])}
            elif f[0] == 'inv':
                r = {(b, a) for (a, b) in rel(f[1])}
            elif f[0] == 'seq':
                r = compose(rel(f[1]), rel(f[2]))
            elif f[0] == 'alt':
                r = set().union(*[rel(m) for m in f[1]])
            elif f[0] == 'opt':
                r = unit | rel(f[1])
            else:
                r = rel(f[1])
                while True:
                    more = r | compose(r, rel(f[1]))
                    if more == r:
                        break
                    r = more
                if f[0] == 'star':
                    r = r | unit
            done[p] = r
            return r
        return [rel(p) for p in range(len(self.paths.forms))]

    def possible(self, p, x):
        return self.poss.get((p, x), [])

    # the table of atoms
    def is_atom(self, a):
        kind = a[0]
        if kind == 'reach':
            _, p, x, y = a
            return y in self.possible(p, x)
        if kind == 'level':
            _, p, k, x, y = a
            if p >= len(self.paths.forms):
                return False
            f = self.paths.forms[p]
            last = len(self.possible(p, x)) - 1
            if f[0] not in ('star', 'plus') or y not in self.possible(p, x) or k > last:
                return False
            return k >= 1 if f[0] == 'star' else True
        _, p, k, x, z, y = a
        if p >= len(self.paths.forms):
            return False
        f = self.paths.forms[p]
        if f[0] == 'seq':
            return k == 0 and z in self.possible(f[1], x) and y in self.possible(f[2], z)
        if f[0] in ('star', 'plus'):
            last = len(self.possible(p, x)) - 1
            return k < last and z in self.possible(p, x) and y in self.possible(f[1], z)
        return False

    def part(self, a):
        return a if self.is_atom(a) else False

    def level(self, p, k, x, y):
        if self.paths.forms[p][0] == 'star' and k == 0:
            return x == y
        return self.part(('level', p, k, x, y))

    def triple(self, s, p, o):
        t = self.cand.get((s, p, o))
        return False if t is None else ('triple', t)

    def parts(self, a):
        """None, or whether all are meant, and the parts"""
        if not self.is_atom(a):
            return None
        p = a[1]
        f = self.paths.forms[p]
        if a[0] == 'reach':
            _, p, x, y = a
            if f[0] == 'pred':
                return False, [self.triple(self.nodes[x], (0, f[1]), self.nodes[y])]
            if f[0] == 'inv':
                return False, [self.part(('reach', f[1], y, x))]
            if f[0] == 'seq':
                return False, [self.part(('middle', p, 0, x, z, y)) for z in self.possible(f[1], x)]
            if f[0] == 'alt':
                return False, [self.part(('reach', q, x, y)) for q in f[1]]
            if f[0] == 'opt':
                return False, [x == y, self.part(('reach', f[1], x, y))]
            return False, [self.level(p, len(self.possible(p, x)) - 1, x, y)]
        if a[0] == 'level':
            _, p, k, x, y = a
            if k == 0:
                return False, [self.part(('reach', f[1], x, y))]
            return False, [self.level(p, k - 1, x, y)] + [
                self.part(('middle', p, k - 1, x, z, y)) for z in self.possible(p, x)]
        _, p, k, x, z, y = a
        if f[0] == 'seq':
            return True, [self.part(('reach', f[1], x, z)), self.part(('reach', f[2], z, y))]
        return True, [self.level(p, k, x, z), self.part(('reach', f[1], z, y))]

    def atoms(self):
        n = len(self.nodes)
        for p in range(len(self.paths.forms)):
            for x in range(n + 1):
                for y in range(n + 1):
                    yield ('reach', p, x, y)
                    for k in range(n + 1):
                        yield ('level', p, k, x, y)
                        for z in range(n + 1):
                            yield ('middle', p, k, x, z, y)


def words(a):
    return ' '.join(str(v) for v in a)


def part_text(p):
    return 'true' if p is True else 'false' if p is False else words(p)


def line_of(a, r):
    every, list_ = r
    return f"{words(a)}: {'all of' if every else 'any of'}" + ''.join(', ' + part_text(p) for p in list_)


def means(prob, rels, steps, graph, a):
    """the truth of an atom in a graph, by steps of relations"""
    nodes = prob.nodes
    if a[0] == 'triple':
        return prob.candidates[a[1]] in graph
    p = a[1]
    f = prob.paths.forms[p]
    if a[0] == 'reach':
        return (nodes[a[2]], nodes[a[3]]) in rels[p]
    if a[0] == 'level':
        _, p, k, x, y = a
        return (nodes[x], nodes[y]) in steps(p, k)
    _, p, k, x, z, y = a
    if f[0] == 'seq':
        return (nodes[x], nodes[z]) in rels[f[1]] and (nodes[z], nodes[y]) in rels[f[2]]
    return (nodes[x], nodes[z]) in steps(p, k) and (nodes[z], nodes[y]) in rels[f[1]]


def steps_of(prob, rels):
    """the relation of each level of a repeated path"""
    unit = {(a, a) for a in prob.nodes}
    cache = {}

    def steps(p, k):
        if (p, k) not in cache:
            f = prob.paths.forms[p]
            inner = rels[f[1]]
            least = unit if f[0] == 'star' else inner
            cache[p, k] = least if k == 0 else steps(p, k - 1) | compose(steps(p, k - 1), inner)
        return cache[p, k]
    return steps


def edited(prob, ns):
    """the data that is edited by these candidates"""
    kept = [c for i, c in enumerate(prob.g) if i not in ns]
    return set(kept + [prob.candidates[t] for t in ns if t >= len(prob.g)])


def check(prob, count):
    n = len(prob.candidates)
    subsets = (range(2 ** n) if n <= 6 else [random.randrange(2 ** n) for _ in range(64)])
    tried = 0
    for bits in subsets:
        graph = {c for i, c in enumerate(prob.candidates) if bits >> i & 1}
        rels = prob.relations(graph)
        steps = steps_of(prob, rels)
        truth = lambda q: q if isinstance(q, bool) else means(prob, rels, steps, graph, q)
        for a in prob.atoms():
            r = prob.parts(a)
            if r is None:
                continue
            every, list_ = r
            got = all(map(truth, list_)) if every else any(map(truth, list_))
            assert got == means(prob, rels, steps, graph, a), (a, r, bits)
            tried += 1
    count[0] += tried


def cases_of(text):
    cases, cur = [], None
    for line in text.splitlines():
        if line.startswith('== '):
            cur = {'name': line[3:], 'shapes': [], 'data': [], 'offered': [], 'ask': []}
            cases.append(cur)
            at = 'shapes'
        elif line in ('-- data', '-- offered'):
            at = line[3:]
        elif line.startswith('-- '):
            cur['ask'].append(line[3:])
        else:
            cur[at].append(line)
    return cases


def answer(case, checking, count):
    prob = Problem(graph_of(case['shapes'], 'S'), graph_of(case['data'], 'D'), graph_of(case['offered'], 'D'))
    out = [f"== {case['name']}"]
    for i, c in enumerate(prob.candidates):
        out.append(f"{'data' if i < len(prob.g) else 'offer'} {i} {' '.join(map(spell, c))} .")
    out += [f'node {i} {spell(t)}' for i, t in enumerate(prob.nodes)]
    for ask in case['ask']:
        ws = ask.split(' ')
        ns = [int(w) for w in ws[1:]]
        if ws[0] == 'all':
            for a in prob.atoms():
                r = prob.parts(a)
                if r is not None:
                    out.append(line_of(a, r))
        elif ws[0] == 'possible':
            out.append(f'possible {ns[0]} {ns[1]}:' + ''.join(f' {y}' for y in prob.possible(*ns)))
        elif ws[0] in ('change', 'true'):
            if any(t >= len(prob.candidates) for t in ns):
                out.append('no candidate')
                continue
            graph = edited(prob, ns)
            if ws[0] == 'change':
                out.append('edited')
                out += [f"{' '.join(map(spell, c))} ." for c in sorted(graph)]
                continue
            rels = prob.relations(graph)
            steps = steps_of(prob, rels)
            out += [f'true {words(a)}' for a in prob.atoms()
                    if prob.is_atom(a) and means(prob, rels, steps, graph, a)]
        else:
            a = (ws[0],) + tuple(ns)
            r = prob.parts(a)
            out.append(f'{words(a)}: no atom' if r is None else line_of(a, r))
    if checking:
        check(prob, count)
    return out


def draw(seed, count):
    rng = random.Random(seed)
    out = []
    for c in range(count):
        labels = list(range(100))
        rng.shuffle(labels)
        shapes = []

        def blank():
            return f'_:b{labels.pop():02d}'

        def list_of(items):
            cells = [blank() for _ in items]
            for i, (cell, item) in enumerate(zip(cells, items)):
                shapes.append(f'{cell} <{RDF}first> {item} .')
                rest = cells[i + 1] if i + 1 < len(cells) else f'<{RDF}nil>'
                shapes.append(f'{cell} <{RDF}rest> {rest} .')
            return cells[0]

        def path(depth):
            if depth == 0 or rng.random() < 0.25:
                return rng.choice([f'<{EX}p>', f'<{EX}q>', f'<{RDF}type>'][:2 if rng.random() < .8 else 3])
            kind = rng.choice(['inversePath', 'zeroOrMorePath', 'oneOrMorePath', 'zeroOrOnePath', 'seq', 'alt'])
            if kind == 'seq':
                return list_of([path(depth - 1) for _ in range(rng.choice([2, 2, 3]))])
            me = blank()
            if kind == 'alt':
                shapes.append(f'{me} <{SH}alternativePath> {list_of([path(depth - 1) for _ in range(rng.choice([2, 2, 3]))])} .')
            else:
                shapes.append(f'{me} <{SH}{kind}> {path(depth - 1)} .')
            return me
        for i in range(rng.choice([1, 2])):
            shapes.append(f'<{EX}S{i}> <{SH}path> {path(rng.choice([1, 2, 3]))} .')
            shapes.append(f'<{EX}S{i}> <{SH}minCount> "1"^^<http://www.w3.org/2001/XMLSchema#integer> .')
            if rng.random() < 0.5:
                shapes.append(f'<{EX}S{i}> <{SH}targetNode> {rng.choice([f"<{EX}a>", f"<{EX}z>"])} .')
        things = [f'<{EX}{v}>' for v in 'abcd'[:rng.choice([2, 3, 4])]] + ['_:x']
        objects = things + ['"v"']

        def triples(n):
            return sorted({f'{rng.choice(things)} <{rng.choice([EX + "p", EX + "p", EX + "q", RDF + "type", RDFS + "subClassOf"])}> {rng.choice(objects)} .'
                           for _ in range(n)})
        data, offered = triples(rng.randrange(0, 6)), triples(rng.randrange(0, 5))
        offered = sorted(set(offered) | set(rng.sample(data, min(len(data), rng.randrange(2)))))
        out += [f'== {c}'] + shapes + ['-- data'] + data + ['-- offered'] + offered + ['-- all']
        total = len(set(data) | set(offered))
        for _ in range(2):
            ns = sorted(t for t in range(total) if rng.random() < 0.5)
            out.append(' '.join(['-- change'] + [str(t) for t in ns]) if ns else '-- change')
        out.append(f'-- possible {rng.randrange(8)} {rng.randrange(6)}')
    return out


def main():
    args = sys.argv[1:]
    if args[0] == '--draw':
        print('\n'.join(draw(int(args[1]), int(args[2]))))
        return
    checking = '--check' in args
    count = [0]
    text = open([a for a in args if a != '--check'][0]).read()
    for case in cases_of(text):
        # a literal of the shapes with a datatype is no matter here
        case['shapes'] = [re.sub(r'"\^\^<[^>]*>', '"', l) for l in case['shapes']]
        print('\n'.join(answer(case, checking, count)))
    if checking:
        print(f'{count[0]} truths', file=sys.stderr)


main()
