#!/usr/bin/env python3
"""atoms_oracle.py SEED COUNT: tries the meaning of atoms (repair_problem/specs/Meaning and ConstraintFacts, read word by word) against what atoms come
down to (the table of parts), on drawn problems: each atom has the truth of its parts in each edited graph, and what is no atom and stands in a list of
parts is false. Paths are single predicates, inverses and stars; shapes are drawn directly, without a shapes graph."""
import random, sys

TYPE, SUB = 'type', 'sub'


class World:
    def __init__(self, rng):
        self.rng = rng
        iris = ['a', 'b', 'c'][:rng.choice([2, 3])] + ['C', 'D'][:rng.choice([1, 2])]
        lits = [('v', None), ('v', 'en'), ('w', 'en'), ('u', 'de')][:rng.choice([0, 2, 4])]
        terms = iris + lits
        preds = ['p', 'q', TYPE, SUB]

        def triples(n):
            return {(rng.choice(iris), rng.choice(preds + ['p', 'p']), rng.choice(terms)) for _ in range(n)}
        key = lambda t: (0, t) if isinstance(t, str) else (1, t[0], t[1] or '')
        self.g = sorted(triples(rng.randrange(0, 5)), key=lambda t: tuple(map(key, t)))
        self.h = sorted(triples(rng.randrange(1, 5)) - set(self.g), key=lambda t: tuple(map(key, t)))
        self.cands = self.g + self.h
        ends = {t for c in self.cands for t in (c[0], c[2])} | {'a'} | set(rng.sample(terms, 1))
        self.nodes = sorted(ends, key=key)
        self.num = {t: i for i, t in enumerate(self.nodes)}
        self.cand = {c: i for i, c in enumerate(self.cands)}
        self.paths = [('pred', TYPE), ('pred', SUB), ('star', 1), ('seq', 0, 2), ('pred', 'p'), ('pred', 'q'), ('inv', 4), ('star', 4), ('opt', 4)]
        self.shapes = []
        self.constraints = []
        for s in range(rng.choice([2, 3, 4])):
            path = rng.choice([None, 4, 4, 5, 6, 7, 8])
            shape = {'path': path, 'off': rng.random() < 0.08, 'is': [], 'targets': []}
            self.shapes.append(shape)
            for _ in range(rng.choice([1, 2])):
                k = self.kind(s, path, terms)
                if k:
                    shape['is'].append(len(self.constraints))
                    self.constraints.append((s, k))
            for _ in range(rng.choice([0, 1])):
                shape['targets'].append(rng.choice([('node', rng.choice(self.nodes)), ('class', rng.choice(['C', 'D'])), ('subjects', 'p'), ('objects', 'p')]))
        full = set(self.cands)
        self.full = self.relations(full)

    def kind(self, s, path, terms):
        rng = self.rng
        lower = list(range(s))
        props = [u for u in lower if self.shapes[u]['path'] is not None]
        kinds = [('class', rng.choice(['C', 'D'])), ('test', frozenset(rng.sample(terms, len(terms) // 2))), ('closed', rng.random() < .7, frozenset(rng.sample(['p', 'q', TYPE], 2))),
                 ('disjoint', rng.choice('pq')), ('equals', rng.choice('pq')), ('has', rng.choice(terms))]
        if lower:
            us = [rng.choice(lower) for _ in range(rng.choice([1, 2, 3]))]
            kinds += [('not', us[0]), ('node', us[0]), ('and', us), ('or', us), ('xone', sorted(set(us)))]
        if props:
            kinds += [('property', rng.choice(props))]
        if path is not None:
            kinds += [('unique', rng.random() < .8), ('min', rng.randrange(3)), ('max', rng.randrange(3))]
            if lower:
                u = rng.choice(lower)
                sib = sorted(v for v in set(lower) - {u} if rng.random() < .5)
                kinds += [('qmin', rng.randrange(3), u, sib), ('qmax', rng.randrange(3), u, sib)]
        return rng.choice(kinds)

    def relations(self, graph):
        unit = {(n, n) for n in self.nodes}
        out = []

        def comp(r, s):
            return {(x, y) for (x, z) in r for (w, y) in s if z == w}
        for f in self.paths:
            if f[0] == 'pred':
                r = {(s, o) for (s, q, o) in graph if q == f[1]}
            elif f[0] == 'inv':
                r = {(b, a) for (a, b) in out[f[1]]}
            elif f[0] == 'seq':
                r = comp(out[f[1]], out[f[2]])
            elif f[0] == 'opt':
                r = unit | out[f[1]]
            else:
                r = unit
                while True:
                    m = r | comp(r, out[f[1]])
                    if m == r:
                        break
                    r = m
            out.append(r)
        return out


class Graph:
    """an edited graph, with the definitions of validation and the meaning of atoms, word by word"""
    def __init__(self, w, graph):
        self.w, self.g = w, graph
        self.r = w.relations(graph)
        self.memo = {}

    def value(self, s, a, rel=None):
        p = self.w.shapes[s]['path']
        return {a} if p is None else {b for (x, b) in (rel or self.r)[p] if x == a}

    def instance(self, y, c):
        return (y, c) in self.r[3]

    def good(self, x, test, y):
        t = test[0]
        C = self.conforms
        if t == 'anything':
            return True
        if t == 'test':
            return y in test[1]
        if t == 'class':
            return self.instance(y, test[1])
        if t == 'disjoint':
            return (x, test[1], y) not in self.g
        if t == 'node':
            return C(test[1], y)
        if t == 'not':
            return not C(test[1], y)
        if t == 'and':
            return all(C(u, y) for u in test[1])
        if t == 'or':
            return any(C(u, y) for u in test[1])
        if t == 'xone':
            n = sum(C(u, y) for u in set(test[1]))
            return n >= 1 and not n >= 2
        if t == 'counted':
            return C(test[1], y) and all(not C(v, y) for v in test[2])
        raise ValueError(test)

    @staticmethod
    def form(k):
        n = k[0]
        if n in ('class', 'test', 'disjoint', 'node', 'not', 'and', 'or', 'xone'):
            return ('every', k)
        if n == 'property':
            return ('nested', k[1])
        if n == 'closed':
            return ('closing', k[1], k[2])
        if n == 'has':
            return ('having', k[1])
        if n == 'equals':
            return ('same', k[1])
        if n == 'unique':
            return ('unique', k[1])
        if n in ('min', 'max'):
            return ('least' if n == 'min' else 'most', k[1], ('anything',))
        return ('least' if n == 'qmin' else 'most', k[1], ('counted', k[2], k[3]))

    def open(self, allowed, V):
        return any(s in V and q not in allowed for (s, q, o) in self.g)

    def holds(self, i, a):
        s, k = self.w.constraints[i]
        V, f = self.value(s, a), self.form(k)
        if f[0] == 'every':
            return not any(not self.good(a, f[1], y) for y in V)
        if f[0] == 'nested':
            return not any(not self.conforms(f[1], y) for y in V)
        if f[0] == 'closing':
            return not f[1] or not self.open(f[2], V)
        if f[0] in ('least', 'most'):
            n = sum(self.good(a, f[2], y) for y in V)
            return n >= f[1] if f[0] == 'least' else not n >= f[1] + 1
        if f[0] == 'having':
            return f[1] in V
        if f[0] == 'same':
            return V == {o for (s2, q, o) in self.g if s2 == a and q == f[1]}
        return not f[1] or not any(y != z and tag(y) is not None and tag(y) == tag(z) for y in V for z in V)

    def conforms(self, n, a):
        if (n, a) not in self.memo:
            sh = self.w.shapes[n]
            self.memo[n, a] = sh['off'] or all(self.holds(i, a) for i in sh['is'])
        return self.memo[n, a]

    def focus(self, n, a):
        for t in self.w.shapes[n]['targets']:
            if t[0] == 'node' and a == t[1] or t[0] == 'class' and self.instance(a, t[1]) \
                    or t[0] == 'subjects' and any(s == a and q == t[1] for (s, q, o) in self.g) or t[0] == 'objects' and any(o == a and q == t[1] for (s, q, o) in self.g):
                return True
        return False

    # ConstraintFacts
    def passes_alone(self, t, y):
        return False if t[0] == 'disjoint' else self.good(y, t, y)

    def passes(self, f, y):
        if f[0] == 'every':
            return self.passes_alone(f[1], y)
        if f[0] == 'nested':
            return self.conforms(f[1], y)
        if f[0] == 'closing':
            return not f[1] or not self.open(f[2], {y})
        if f[0] in ('least', 'most'):
            return self.passes_alone(f[2], y)
        return False

    def marked(self, V, a, f, y):
        if f[0] == 'every':
            return y in V and not self.good(a, f[1], y)
        if f[0] == 'nested':
            return y in V and not self.conforms(f[1], y)
        if f[0] == 'closing':
            return y in V and not self.passes(f, y)
        if f[0] in ('least', 'most'):
            return y in V and self.good(a, f[2], y)
        if f[0] == 'same':
            return y in V and (a, f[1], y) not in self.g
        return False

    def counts(self, V, a, W, f, j, m):
        if f[0] == 'every':
            return f[1][0] == 'xone' and sum(self.conforms(u, a) for u in set(f[1][1][:j])) >= m
        if f[0] in ('least', 'most'):
            first = sorted(W, key=lambda t: self.w.num[t])[:j]
            return sum(y in V and self.good(a, f[2], y) for y in first) >= m
        return False

    def means(self, at):
        n = at[0]
        node = lambda x: self.w.nodes[x]
        if n == 'triple':
            return self.w.cands[at[1]] in self.g
        if n == 'reach':
            return (node(at[2]), node(at[3])) in self.r[at[1]]
        if n == 'conforms':
            return self.conforms(at[1], node(at[2]))
        if n == 'target':
            return self.focus(at[1], node(at[2]))
        i = at[1]
        s, k = self.w.constraints[i]
        f = self.form(k)
        if n == 'good':
            return self.passes(f, node(at[2]))
        a = node(at[2])
        V = self.value(s, a)
        if n == 'marked':
            return self.marked(V, a, f, node(at[3]))
        if n == 'count':
            return self.counts(V, a, self.value(s, a, self.w.full), f, at[3], at[4])
        if n == 'differ':
            return f[0] == 'same' and node(at[3]) not in V and (a, f[1], node(at[3])) in self.g
        if n == 'twin':
            return node(at[3]) in V and node(at[4]) in V
        return self.holds(i, a)


def tag(t):
    return None if isinstance(t, str) else t[1]


class Table:
    """the table of atoms and parts"""
    def __init__(self, w):
        self.w = w
        self.poss = {(p, x): sorted(w.num[b] for (a, b) in r if a == w.nodes[x]) for p, r in enumerate(w.full) for x in range(len(w.nodes))}

    def vals(self, s, x):
        p = self.w.shapes[s]['path']
        return [x] if p is None else self.poss[p, x]

    def triple(self, a, q, b, sign=True):
        t = self.w.cand.get((a, q, b))
        return (not sign) if t is None else (sign, ('triple', t))

    def reach(self, p, x, y):
        if y is None or y not in self.poss[p, x]:
            return False
        return (True, ('reach', p, x, y))

    def V(self, s, x, y):
        p = self.w.shapes[s]['path']
        return (x == y) if p is None else self.reach(p, x, y)

    def neg(self, part):
        return not part if isinstance(part, bool) else (not part[0], part[1])

    def items(self, i, x):
        s, k = self.w.constraints[i]
        if k[0] in ('min', 'max'):
            return [self.V(s, x, y) for y in self.vals(s, x)]
        if k[0] in ('qmin', 'qmax'):
            return [(True, ('marked', i, x, y)) for y in self.vals(s, x)]
        return [(True, ('conforms', u, x)) for u in k[1]]

    def need(self, k):
        return {'min': lambda: k[1], 'qmin': lambda: k[1], 'max': lambda: k[1] + 1, 'qmax': lambda: k[1] + 1, 'xone': lambda: 2}[k[0]]()

    def count(self, i, x, j, m):
        if m == 0:
            return True
        if m > j:
            return False
        return (True, ('count', i, x, j, m))

    def good(self, i, y):
        k = self.w.constraints[i][1]
        if k[0] == 'test':
            return self.w.nodes[y] in k[1]
        if k[0] == 'closed' and not k[1]:
            return True
        return (True, ('good', i, y))

    def twin_atom(self, i, x, y, z):
        s, k = self.w.constraints[i]
        vs = self.vals(s, x)
        a, b = tag(self.w.nodes[y]), tag(self.w.nodes[z])
        return k == ('unique', True) and y < z and y in vs and z in vs and a is not None and a == b

    def differ_atom(self, i, x, y):
        k = self.w.constraints[i][1]
        return k[0] == 'equals' and (self.w.nodes[x], k[1], self.w.nodes[y]) in self.w.cand

    def atoms(self):
        w = self.w
        N = range(len(w.nodes))
        for i, (s, k) in enumerate(w.constraints):
            for x in N:
                yield ('holds', i, x)
                if k[0] in ('class', 'node', 'property', 'not', 'and', 'or', 'xone', 'qmin', 'qmax') or k[0] == 'closed' and k[1]:
                    yield ('good', i, x)
                if k[0] not in ('min', 'max', 'has', 'unique'):
                    for y in self.vals(s, x):
                        yield ('marked', i, x, y)
                if k[0] in ('min', 'max', 'qmin', 'qmax', 'xone'):
                    for j in range(1, len(self.items(i, x)) + 1):
                        for m in range(1, min(j, self.need(k)) + 1):
                            yield ('count', i, x, j, m)
                for y in N:
                    if self.differ_atom(i, x, y):
                        yield ('differ', i, x, y)
                    for z in N:
                        if self.twin_atom(i, x, y, z):
                            yield ('twin', i, x, y, z)
        for s in range(len(w.shapes)):
            for x in N:
                yield ('conforms', s, x)
                yield ('target', s, x)

    def parts(self, at):
        w = self.w
        n = at[0]
        node = lambda x: w.nodes[x]
        if n == 'conforms':
            sh = w.shapes[at[1]]
            return True, [] if sh['off'] else [(True, ('holds', i, at[2])) for i in sh['is']]
        if n == 'target':
            out, x = [], at[2]
            for t in w.shapes[at[1]]['targets']:
                if t[0] == 'node':
                    out.append(node(x) == t[1])
                elif t[0] == 'class':
                    out.append(self.reach(3, x, w.num.get(t[1])))
                else:
                    e = 0 if t[0] == 'subjects' else 2
                    out += [(True, ('triple', c)) for c, tr in enumerate(w.cands) if tr[e] == node(x) and tr[1] == t[1]]
            return False, out
        i = at[1]
        s, k = w.constraints[i]
        if n == 'good':
            y = at[2]
            if k[0] == 'class':
                return False, [self.reach(3, y, w.num.get(k[1]))]
            if k[0] in ('node', 'property'):
                return False, [(True, ('conforms', k[1], y))]
            if k[0] == 'not':
                return True, [(False, ('conforms', k[1], y))]
            if k[0] in ('and', 'or'):
                return k[0] == 'and', [(True, ('conforms', u, y)) for u in k[1]]
            if k[0] == 'xone':
                J = len(k[1])
                return True, [self.count(i, y, J, 1), self.neg(self.count(i, y, J, 2))]
            if k[0] == 'closed':
                return True, [(False, ('triple', c)) for c, tr in enumerate(w.cands) if tr[0] == node(y) and tr[1] not in k[2]]
            return True, [(True, ('conforms', k[2], y))] + [(False, ('conforms', u, y)) for u in k[3]]
        x = at[2]
        if n == 'marked':
            y = at[3]
            v = self.V(s, x, y)
            if k[0] == 'disjoint':
                return True, [v, self.triple(node(x), k[1], node(y))]
            if k[0] == 'equals':
                return True, [v, self.triple(node(x), k[1], node(y), False)]
            return True, [v, self.good(i, y) if k[0] in ('qmin', 'qmax') else self.neg(self.good(i, y))]
        if n == 'differ':
            y = at[3]
            return True, [self.neg(self.V(s, x, y)), self.triple(node(x), k[1], node(y))]
        if n == 'twin':
            return True, [self.V(s, x, at[3]), self.V(s, x, at[4])]
        # holds
        vs = self.vals(s, x)
        if k[0] in ('min', 'qmin'):
            return False, [self.count(i, x, len(self.items(i, x)), k[1])]
        if k[0] in ('max', 'qmax'):
            return True, [self.neg(self.count(i, x, len(self.items(i, x)), k[1] + 1))]
        if k[0] == 'has':
            o = w.num.get(k[1])
            return False, [False if o is None else self.V(s, x, o)]
        if k[0] == 'equals':
            return True, [(False, ('marked', i, x, y)) for y in vs] + [(False, ('differ', i, x, y)) for y in range(len(w.nodes)) if self.differ_atom(i, x, y)]
        if k[0] == 'unique':
            return True, [(False, ('twin', i, x, y, z)) for y in range(len(w.nodes)) for z in range(len(w.nodes)) if self.twin_atom(i, x, y, z)]
        return True, [(False, ('marked', i, x, y)) for y in vs]


def main():
    seed, count = int(sys.argv[1]), int(sys.argv[2])
    tried = {}
    for c in range(count):
        rng = random.Random(seed * 100000 + c)
        w = World(rng)
        t = Table(w)
        n = len(w.cands)
        for bits in (range(2 ** n) if n <= 4 else [rng.randrange(2 ** n) for _ in range(16)]):
            e = Graph(w, {x for i, x in enumerate(w.cands) if bits >> i & 1})
            truth = lambda p: p if isinstance(p, bool) else e.means(p[1]) == p[0]
            for a in t.atoms():
                if a[0] == 'count':
                    _, i, x, j, m = a
                    item = t.items(i, x)[j - 1]
                    want = truth(t.count(i, x, j - 1, m)) or truth(t.count(i, x, j - 1, m - 1)) and truth(item)
                else:
                    every, ps = t.parts(a)
                    want = all(map(truth, ps)) if every else any(map(truth, ps))
                assert e.means(a) == want, (c, a, w.constraints[a[1]] if a[0] not in ('conforms', 'target') else w.shapes[a[1]], bits)
                key = (a[0], w.constraints[a[1]][1][0] if a[0] not in ('conforms', 'target') else '')
                tried[key] = tried.get(key, 0) + 1
    for k in sorted(tried):
        print(*k, tried[k])
    print('all', sum(tried.values()))


main()
