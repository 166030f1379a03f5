#!/usr/bin/env python3
"""rules_oracle.py CASES: prints what rule_cases has to print for a text of cases, by its own reading of the rules of
atoms, parts and clauses. With --draw SEED COUNT it writes a text of drawn cases instead. With --check it also tries each
atom and each clause in every edited graph (or in 16 drawn ones): an atom has the truth of its parts, a counter that of
the two lower ones and the item, each clause is true, those of roots where the graph conforms."""
import os, random, re, sys

RDF = 'http://www.w3.org/1999/02/22-rdf-syntax-ns#'
RDFS = 'http://www.w3.org/2000/01/rdf-schema#'
SH = 'http://www.w3.org/ns/shacl#'
XSD = 'http://www.w3.org/2001/XMLSchema#'
EX = 'http://example.org/'
TERM = re.compile(r'<([^>]*)>|_:([A-Za-z0-9]+)|"([^"]*)"(?:\^\^<([^>]*)>|@([A-Za-z0-9-]+))?')

here = os.path.dirname(os.path.abspath(__file__))
others = {}
exec(open(os.path.join(here, 'path_parts_oracle.py')).read().rsplit('main()', 1)[0], others)
Paths, compose = others['Paths'], others['compose']


def iri(text):
    return (0, text)


def sh(name):
    return (0, SH + name)


def term_of(m, scope):
    if m.group(1) is not None:
        return (0, m.group(1))
    if m.group(2) is not None:
        return (1, scope, m.group(2))
    if m.group(5) is not None:
        return (2, m.group(3), RDF + 'langString', (1, m.group(5).lower()))
    return (2, m.group(3), m.group(4) or XSD + 'string', (0,))


def graph_of(lines, scope):
    out = set()
    for line in lines:
        ts = [term_of(m, scope) for m in TERM.finditer(line)]
        assert len(ts) == 3, line
        out.add(tuple(ts))
    return out


def spell(t):
    if t[0] == 0:
        return f'<{t[1]}>'
    if t[0] == 1:
        return f'_:{t[2]}'
    if t[3] != (0,):
        return f'"{t[1]}"@{t[3][1]}'
    return f'"{t[1]}"' if t[2] == XSD + 'string' else f'"{t[1]}"^^<{t[2]}>'


def tag_of(t):
    return t[3][1] if t[0] == 2 and t[3] != (0,) else None


def integer(t):
    return int(t[1]) if t[0] == 2 and t[2] == XSD + 'integer' and re.fullmatch(r'[+-]?[0-9]+', t[1]) else None


NODE_TESTS = ['datatype', 'nodeKind', 'minExclusive', 'minInclusive', 'maxExclusive', 'maxInclusive', 'minLength', 'maxLength', 'languageIn', 'in']
GOOD = ['class', 'node', 'property', 'not', 'and', 'or', 'xone', 'closed', 'qualifiedMinCount', 'qualifiedMaxCount']
CONSTRAINTS = NODE_TESTS + GOOD + ['disjoint', 'equals', 'hasValue', 'uniqueLang', 'minCount', 'maxCount']
PARAMETERS = CONSTRAINTS + ['qualifiedValueShapesDisjoint', 'ignoredProperties', 'qualifiedValueShape']
TARGETS = ['targetNode', 'targetClass', 'targetSubjectsOf', 'targetObjectsOf']
COUNTS = ['minCount', 'maxCount', 'qualifiedMinCount', 'qualifiedMaxCount']


class Shapes:
    """the shapes of a graph in the profile"""
    def __init__(self, graph):
        self.s = graph
        self.triples = sorted(graph)
        classes = {sh('NodeShape'), sh('PropertyShape')}
        found = set()
        for (x, p, o) in graph:
            if p == iri(RDF + 'type') and self.above(o) & classes:
                found.add(x)
            if p in [sh(n) for n in TARGETS + PARAMETERS]:
                found.add(x)
            if p in [sh(n) for n in ('not', 'node', 'property', 'qualifiedValueShape')]:
                found.add(o)
            if p in [sh(n) for n in ('and', 'or', 'xone')]:
                found |= set(self.members(o))
        self.shapes = sorted(found)
        self.number = {x: i for i, x in enumerate(self.shapes)}
        self.paths = Paths(graph)
        self.kinds = [self.kind(t) for t in self.triples]
        self.constraints_of = [[i for i, t in enumerate(self.triples) if t[0] == x and self.kinds[i]] for x in self.shapes]
        self.off = [self.is_true(x, 'deactivated') for x in self.shapes]
        self.path = [self.paths.number[self.values(x, 'path')[0]] if self.values(x, 'path') else None for x in self.shapes]
        self.targets = [self.targets_of(x) for x in self.shapes]

    def above(self, c):
        seen, todo = set(), [c]
        while todo:
            x = todo.pop()
            if x not in seen:
                seen.add(x)
                todo += [o for (s, p, o) in self.s if s == x and p == iri(RDFS + 'subClassOf')]
        return seen

    def is_instance(self, x, c):
        return any(c in self.above(o) for (s, p, o) in self.s if s == x and p == iri(RDF + 'type'))

    def values(self, x, name):
        return sorted(o for (s, p, o) in self.s if s == x and p == sh(name))

    def is_true(self, x, name):
        return any(v[:3] == (2, 'true', XSD + 'boolean') for v in self.values(x, name))

    def members(self, x):
        out = []
        while x != iri(RDF + 'nil'):
            out.append(next(o for (s, p, o) in self.s if s == x and p == iri(RDF + 'first')))
            x = next(o for (s, p, o) in self.s if s == x and p == iri(RDF + 'rest'))
        return out

    def siblings(self, x):
        if not self.is_true(x, 'qualifiedValueShapesDisjoint') or not (self.values(x, 'qualifiedMinCount') or self.values(x, 'qualifiedMaxCount')):
            return []
        owners = [s for (s, p, o) in self.s if p == sh('property') and o == x]
        other = {q for s in owners for p in self.values(s, 'property') for q in self.values(p, 'qualifiedValueShape')}
        return sorted(other - set(self.values(x, 'qualifiedValueShape')))

    def kind(self, t):
        """None, or the shape, the name of the constraint, and what it says"""
        x, p, o = t
        name = p[1][len(SH):] if p[1].startswith(SH) else ''
        if name not in CONSTRAINTS or x not in self.number:
            return None
        n = lambda u: self.number[u]
        if name.startswith('qualified'):
            q = self.values(x, 'qualifiedValueShape')
            return (n(x), name, (int(o[1]), n(q[0]), [n(u) for u in self.siblings(x)])) if q else None
        if name in ('minCount', 'maxCount'):
            return (n(x), name, int(o[1]))
        if name in ('not', 'node', 'property'):
            return (n(x), name, n(o))
        if name in ('and', 'or'):
            return (n(x), name, [n(u) for u in self.members(o)])
        if name == 'xone':
            return (n(x), name, sorted({n(u) for u in self.members(o)}))
        if name in ('in', 'languageIn'):
            return (n(x), name, self.members(o))
        if name == 'uniqueLang':
            return (n(x), name, o[1] == 'true')
        if name == 'closed':
            allowed = {v for p in self.values(x, 'property') for v in self.values(p, 'path') if v[0] == 0}
            for l in self.values(x, 'ignoredProperties'):
                allowed |= set(self.members(l))
            return (n(x), name, (o[1] == 'true', allowed))
        return (n(x), name, o)

    def targets_of(self, x):
        out = [(p[1][len(SH):], o) for (s, p, o) in self.triples if s == x and p in [sh(n) for n in TARGETS]]
        if x[0] == 0 and self.is_instance(x, iri(RDFS + 'Class')) and (self.is_instance(x, sh('NodeShape')) or self.is_instance(x, sh('PropertyShape'))):
            out.append(('targetClass', x))
        return out


class Problem:
    def __init__(self, shapes, data, offered):
        self.sh = Shapes(shapes)
        self.g = sorted(data)
        self.h = sorted(offered - data)
        self.candidates = self.g + self.h
        ends = {t for c in self.candidates for t in (c[0], c[2])}
        ends |= {o for (s, p, o) in shapes if p == sh('targetNode')}
        self.nodes = sorted(ends)
        self.at = {t: i for i, t in enumerate(self.nodes)}
        self.cand = {c: i for i, c in enumerate(self.candidates)}
        self.full = self.relations(set(self.candidates))
        self.poss = {(p, x): sorted(self.at[b] for (a, b) in r if a == self.nodes[x])
                     for p, r in enumerate(self.full) for x in range(len(self.nodes))}

    def relations(self, graph):
        unit = {(n, n) for n in self.nodes}
        forms, done = self.sh.paths.forms, {}

        def rel(p):
            if p not in done:
                f = forms[p]
                if f[0] == 'pred':
                    r = {(s, o) for (s, q, o) in graph if q == (0, f[1])}
                elif f[0] == 'inv':
                    r = {(b, a) for (a, b) in rel(f[1])}
                elif f[0] == 'seq':
                    r = compose(rel(f[1]), rel(f[2]))
                elif f[0] == 'alt':
                    r = set().union(*[rel(m) for m in f[1]])
                elif f[0] == 'opt':
                    r = unit | rel(f[1])
                else:
                    r = rel(f[1])
                    while True:
                        more = r | compose(r, rel(f[1]))
                        if more == r:
                            break
                        r = more
                    r = r | unit if f[0] == 'star' else r
                done[p] = r
            return done[p]
        return [rel(p) for p in range(len(forms))]

    def possible(self, p, x):
        return self.poss.get((p, x), [])

    def is_node(self, x):
        return x < len(self.nodes)

    # a part is True, False, or a sign and an atom
    def values(self, s, x):
        p = self.sh.path[s]
        return [x] if p is None else self.possible(p, x)

    def reach(self, p, x, y):
        return (True, ('reach', p, x, y)) if y is not None and y in self.possible(p, x) else False

    def value(self, s, x, y):
        p = self.sh.path[s]
        return (x == y) if p is None else self.reach(p, x, y)

    def triple(self, x, q, y):
        t = self.cand.get((self.nodes[x], q, self.nodes[y]))
        return False if t is None else (True, ('triple', t))

    def count(self, i, x, j, m):
        return True if m == 0 else False if m > j else (True, ('count', i, x, j, m))

    def passes(self, name, v, y):
        """whether a term passes a test of single terms"""
        if name == 'datatype':
            return y[0] == 2 and y[2] == v[1] and (y[2] != XSD + 'integer' or integer(y) is not None)
        if name == 'nodeKind':
            return {0: 'IRI', 1: 'BlankNode', 2: 'Literal'}[y[0]] in v[1][len(SH):].split('Or')
        if name in ('minLength', 'maxLength'):
            if y[0] == 1:
                return False
            return len(y[1]) >= int(v[1]) if name == 'minLength' else len(y[1]) <= int(v[1])
        if name == 'in':
            return y in v
        if name == 'languageIn':
            t = tag_of(y)
            return t is not None and any(m[1] == '*' or t == m[1].lower() or t.startswith(m[1].lower() + '-') for m in v)
        n, b = integer(y), int(v[1])
        return n is not None and {'minExclusive': b < n, 'minInclusive': b <= n, 'maxExclusive': b > n, 'maxInclusive': b >= n}[name]

    def good(self, i, y):
        s, name, v = self.sh.kinds[i]
        if name in NODE_TESTS:
            return self.passes(name, v, self.nodes[y])
        if name == 'closed' and not v[0]:
            return True
        return (True, ('good', i, y))

    def items(self, i, x):
        s, name, v = self.sh.kinds[i]
        if name == 'xone':
            return [(True, ('conforms', u, x)) for u in v]
        if name in ('minCount', 'maxCount'):
            return [self.value(s, x, y) for y in self.values(s, x)]
        return [(True, ('marked', i, x, y)) for y in self.values(s, x)]

    def need(self, i):
        s, name, v = self.sh.kinds[i]
        if name == 'xone':
            return 2
        n = v[0] if isinstance(v, tuple) else v
        return n if 'min' in name.lower() else n + 1

    def kind_at(self, i):
        return self.sh.kinds[i] if i < len(self.sh.kinds) else None

    def is_atom(self, a):
        n = a[0]
        if n == 'triple':
            return a[1] < len(self.candidates)
        if n in ('reach', 'level', 'middle'):
            return self.is_path_atom(a)
        if n in ('conforms', 'target'):
            return a[1] < len(self.sh.shapes) and self.is_node(a[2])
        k = self.kind_at(a[1])
        if not k or not all(self.is_node(x) for x in (a[2:] if n != 'count' else a[2:3])):
            return False
        s, name, v = k
        if n == 'good':
            return name in GOOD and not (name == 'closed' and not v[0])
        if n == 'marked':
            return name not in ('minCount', 'maxCount', 'hasValue', 'uniqueLang') and a[3] in self.values(s, a[2])
        if n == 'count':
            return name in COUNTS + ['xone'] and 1 <= a[4] <= min(a[3], self.need(a[1])) and a[3] <= len(self.items(a[1], a[2]))
        if n == 'differ':
            return name == 'equals' and (self.nodes[a[2]], v, self.nodes[a[3]]) in self.cand
        if n == 'twin':
            vs = self.values(s, a[2])
            tags = [tag_of(self.nodes[y]) for y in a[3:]]
            return name == 'uniqueLang' and v and a[3] < a[4] and a[3] in vs and a[4] in vs and tags[0] is not None and tags[0] == tags[1]
        return True

    def is_path_atom(self, a):
        if a[0] == 'reach':
            return a[3] in self.possible(a[1], a[2])
        p, forms = a[1], self.sh.paths.forms
        if p >= len(forms):
            return False
        f = forms[p]
        if a[0] == 'level':
            _, p, k, x, y = a
            return f[0] in ('star', 'plus') and y in self.possible(p, x) and (f[0] == 'star') <= k <= len(self.possible(p, x)) - 1
        _, p, k, x, z, y = a
        if f[0] == 'seq':
            return k == 0 and z in self.possible(f[1], x) and y in self.possible(f[2], z)
        return f[0] in ('star', 'plus') and k < len(self.possible(p, x)) - 1 and z in self.possible(p, x) and y in self.possible(f[1], z)

    def guarded(self, a):
        return (True, a) if self.is_atom(a) else False

    def level(self, p, k, x, y):
        return (x == y) if self.sh.paths.forms[p][0] == 'star' and k == 0 else self.guarded(('level', p, k, x, y))

    def path_parts(self, a):
        p = a[1]
        f = self.sh.paths.forms[p]
        if a[0] == 'reach':
            _, p, x, y = a
            if f[0] == 'pred':
                return False, [self.triple(x, (0, f[1]), y)]
            if f[0] == 'inv':
                return False, [self.guarded(('reach', f[1], y, x))]
            if f[0] == 'seq':
                return False, [self.guarded(('middle', p, 0, x, z, y)) for z in self.possible(f[1], x)]
            if f[0] == 'alt':
                return False, [self.guarded(('reach', q, x, y)) for q in f[1]]
            if f[0] == 'opt':
                return False, [x == y, self.guarded(('reach', f[1], x, y))]
            return False, [self.level(p, len(self.possible(p, x)) - 1, x, y)]
        if a[0] == 'level':
            _, p, k, x, y = a
            if k == 0:
                return False, [self.guarded(('reach', f[1], x, y))]
            return False, [self.level(p, k - 1, x, y)] + [self.guarded(('middle', p, k - 1, x, z, y)) for z in self.possible(p, x)]
        _, p, k, x, z, y = a
        if f[0] == 'seq':
            return True, [self.guarded(('reach', f[1], x, z)), self.guarded(('reach', f[2], z, y))]
        return True, [self.level(p, k, x, z), self.guarded(('reach', f[1], z, y))]

    def parts(self, a):
        """None, or whether all are meant, and the parts"""
        if a[0] in ('triple', 'count') or not self.is_atom(a):
            return None
        if a[0] in ('reach', 'level', 'middle'):
            return self.path_parts(a)
        if a[0] == 'conforms':
            return True, [] if self.sh.off[a[1]] else [(True, ('holds', i, a[2])) for i in self.sh.constraints_of[a[1]]]
        if a[0] == 'target':
            return False, self.target_parts(a[1], a[2])
        i = a[1]
        s, name, v = self.sh.kinds[i]
        if a[0] == 'good':
            return self.good_parts(i, name, v, a[2])
        x = a[2]
        if a[0] == 'marked':
            y = a[3]
            value = self.value(s, x, y)
            if name == 'disjoint':
                return True, [value, self.triple(x, v, y)]
            if name == 'equals':
                return True, [value, negate(self.triple(x, v, y))]
            good = self.good(i, y)
            return True, [value, good if name in COUNTS else negate(good)]
        if a[0] == 'differ':
            return True, [negate(self.value(s, x, a[3])), self.triple(x, v, a[3])]
        if a[0] == 'twin':
            return True, [self.value(s, x, a[3]), self.value(s, x, a[4])]
        return self.holds_parts(i, s, name, v, x)

    def good_parts(self, i, name, v, y):
        conforms = lambda u, sign=True: (sign, ('conforms', u, y))
        if name == 'class':
            return False, [self.reach(3, y, self.at.get(v))]
        if name in ('node', 'property'):
            return False, [conforms(v)]
        if name == 'not':
            return True, [conforms(v, False)]
        if name in ('and', 'or'):
            return name == 'and', [conforms(u) for u in v]
        if name == 'xone':
            return True, [self.count(i, y, len(v), 1), negate(self.count(i, y, len(v), 2))]
        if name == 'closed':
            return True, [(False, ('triple', t)) for t, c in enumerate(self.candidates) if c[0] == self.nodes[y] and c[1] not in v[1]]
        return True, [conforms(v[1])] + [conforms(u, False) for u in v[2]]

    def holds_parts(self, i, s, name, v, x):
        n = len(self.nodes)
        if name in COUNTS:
            J = len(self.items(i, x))
            if 'min' in name.lower():
                return False, [self.count(i, x, J, self.need(i))]
            return True, [negate(self.count(i, x, J, self.need(i)))]
        if name == 'hasValue':
            o = self.at.get(v)
            return False, [False if o is None else self.value(s, x, o)]
        if name == 'uniqueLang':
            return True, [(False, ('twin', i, x, y, z)) for y in range(n) for z in range(n) if self.is_atom(('twin', i, x, y, z))]
        marked = [(False, ('marked', i, x, y)) for y in self.values(s, x)]
        if name == 'equals':
            marked += [(False, ('differ', i, x, y)) for y in range(n) if self.is_atom(('differ', i, x, y))]
        return True, marked

    def target_parts(self, s, x):
        out = []
        for name, v in self.sh.targets[s]:
            if name == 'targetNode':
                out.append(self.nodes[x] == v)
            elif name == 'targetClass':
                out.append(self.reach(3, x, self.at.get(v)))
            else:
                e = 0 if name == 'targetSubjectsOf' else 2
                out += [(True, ('triple', t)) for t, c in enumerate(self.candidates) if c[e] == self.nodes[x] and c[1] == v]
        return out

    def clauses(self, a):
        """the parts of the clause at each place"""
        if not self.is_atom(a) or a[0] == 'triple':
            return []
        if a[0] == 'count':
            _, i, x, j, m = a
            here, same, less, item = (True, a), self.count(i, x, j - 1, m), self.count(i, x, j - 1, m - 1), self.items(i, x)[j - 1]
            return [[here, negate(same)], [here, negate(less), negate(item)], [negate(here), same, less], [negate(here), same, item]]
        every, ps = self.parts(a)
        if every:
            return [[(False, a), p] for p in ps] + [[(True, a)] + [negate(p) for p in ps]]
        return [[(True, a), negate(p)] for p in ps] + [[(False, a)] + ps]

    def rule(self, chain, name, ns):
        """the parts of the clause of a rule, or None"""
        lengths = {'reach': 3, 'level': 4, 'middle': 5, 'good': 2, 'marked': 3, 'count': 4, 'differ': 3, 'twin': 4, 'holds': 2, 'conforms': 2, 'target': 2}
        unchanged = lambda t: (t < len(self.g), ('triple', t))
        if name == 'root':
            if len(ns) != 2 or not self.is_atom(('conforms', ns[0], ns[1])):
                return None
            return [(False, ('target',) + tuple(ns)), (True, ('conforms',) + tuple(ns))]
        if name == 'outside':
            if len(ns) != 2 or ns[0] >= len(chain) or ns[1] >= len(self.candidates) or ns[1] in chain[ns[0]]:
                return None
            return [unchanged(ns[1])]
        if name == 'undo':
            return [unchanged(t) for t in chain[ns[0]]] if len(ns) == 1 and ns[0] < len(chain) else None
        if len(ns) != lengths[name] + 1:
            return None
        cs = self.clauses((name,) + tuple(ns[:-1]))
        return cs[ns[-1]] if ns[-1] < len(cs) else None

    def all_atoms(self):
        n = len(self.nodes)
        for i in range(len(self.sh.triples) + 1):
            for x in range(n + 1):
                yield ('holds', i, x)
                yield ('good', i, x)
                for y in range(n + 1):
                    yield ('marked', i, x, y)
                    yield ('differ', i, x, y)
                    for m in range(7):
                        yield ('count', i, x, y, m)
                for y in range(n + 1):
                    for z in range(n + 1):
                        yield ('twin', i, x, y, z)
        for s in range(len(self.sh.shapes) + 1):
            for x in range(n + 1):
                yield ('conforms', s, x)
                yield ('target', s, x)


def negate(p):
    return (not p) if isinstance(p, bool) else (not p[0], p[1])


def words(a):
    return ' '.join(str(v) for v in a)


def part_text(p):
    return 'true' if p is True else 'false' if p is False else ('' if p[0] else 'not ') + words(p[1])


def finish(ps):
    """the literals of a clause, or None for a tautology"""
    if any(p is True for p in ps):
        return None
    out = []
    for p in ps:
        if p is not False:
            if negate(p) in ps:
                return None
            if p not in out:
                out.append(p)
    return out


def clause_text(ps):
    c = finish(ps)
    return ': tautology' if c is None else ': clause' + ''.join(', ' + part_text(p) for p in c)


def atom_lines(prob, a):
    if not prob.is_atom(a):
        return [words(a) + ': no atom']
    r = prob.parts(a)
    first = words(a) + (': an atom without parts' if r is None else (': all of' if r[0] else ': any of') + ''.join(', ' + part_text(p) for p in r[1]))
    return [first] + [clause_text(ps) for ps in prob.clauses(a)]


class Graph:
    """an edited graph: what validation says of it"""
    def __init__(self, prob, graph):
        self.p, self.g = prob, graph
        self.r = prob.relations(graph)
        self.memo, self.steps_of = {}, {}

    def steps(self, p, k):
        if (p, k) not in self.steps_of:
            f = self.p.sh.paths.forms[p]
            inner = self.r[f[1]]
            if k == 0:
                r = {(a, a) for a in self.p.nodes} if f[0] == 'star' else inner
            else:
                r = self.steps(p, k - 1) | compose(self.steps(p, k - 1), inner)
            self.steps_of[p, k] = r
        return self.steps_of[p, k]

    def values(self, s, a):
        p = self.p.sh.path[s]
        return {a} if p is None else {b for (x, b) in self.r[p] if x == a}

    def objects(self, a, q):
        return {o for (s, p, o) in self.g if s == a and p == q}

    def good(self, i, a, y):
        s, name, v = self.p.sh.kinds[i]
        C = self.conforms
        if name in NODE_TESTS:
            return self.p.passes(name, v, y)
        if name == 'class':
            return (y, v) in self.r[3]
        if name in ('node', 'property'):
            return C(v, y)
        if name == 'not':
            return not C(v, y)
        if name == 'and':
            return all(C(u, y) for u in v)
        if name == 'or':
            return any(C(u, y) for u in v)
        if name == 'xone':
            return sum(C(u, y) for u in v) == 1
        if name == 'closed':
            return not v[0] or all(q in v[1] for (z, q, o) in self.g if z == y)
        if name == 'disjoint':
            return y not in self.objects(a, v)
        return C(v[1], y) and not any(C(u, y) for u in v[2])

    def holds(self, i, a):
        s, name, v = self.p.sh.kinds[i]
        V = self.values(s, a)
        if name == 'hasValue':
            return v in V
        if name == 'equals':
            return V == self.objects(a, v)
        if name == 'uniqueLang':
            tags = [tag_of(y) for y in V if tag_of(y) is not None]
            return not v or len(tags) == len(set(tags))
        if name in COUNTS:
            n = len(V) if name in ('minCount', 'maxCount') else sum(self.good(i, a, y) for y in V)
            least = v[0] if isinstance(v, tuple) else v
            return n >= least if 'min' in name.lower() else n <= least
        return all(self.good(i, a, y) for y in V)

    def conforms(self, s, a):
        if (s, a) not in self.memo:
            self.memo[s, a] = self.p.sh.off[s] or all(self.holds(i, a) for i in self.p.sh.constraints_of[s])
        return self.memo[s, a]

    def focus(self, s, a):
        for name, v in self.p.sh.targets[s]:
            if name == 'targetNode' and a == v or name == 'targetClass' and (a, v) in self.r[3]:
                return True
            e = 0 if name == 'targetSubjectsOf' else 2
            if name in ('targetSubjectsOf', 'targetObjectsOf') and any(c[e] == a and c[1] == v for c in self.g):
                return True
        return False

    def conforming(self):
        return all(self.conforms(s, a) for s in range(len(self.p.sh.shapes)) for a in self.p.nodes if self.focus(s, a))

    def means(self, a):
        p, n, node = self.p, a[0], lambda x: self.p.nodes[x]
        if n == 'triple':
            return p.candidates[a[1]] in self.g
        if n == 'reach':
            return (node(a[2]), node(a[3])) in self.r[a[1]]
        if n == 'level':
            return (node(a[3]), node(a[4])) in self.steps(a[1], a[2])
        if n == 'middle':
            _, q, k, x, z, y = a
            f = p.sh.paths.forms[q]
            if f[0] == 'seq':
                return (node(x), node(z)) in self.r[f[1]] and (node(z), node(y)) in self.r[f[2]]
            return (node(x), node(z)) in self.steps(q, k) and (node(z), node(y)) in self.r[f[1]]
        if n == 'conforms':
            return self.conforms(a[1], node(a[2]))
        if n == 'target':
            return self.focus(a[1], node(a[2]))
        i = a[1]
        s, name, v = p.sh.kinds[i]
        if n == 'good':
            return self.good(i, None, node(a[2]))
        if n == 'holds':
            return self.holds(i, node(a[2]))
        x = node(a[2])
        V = self.values(s, x)
        if n == 'marked':
            y = node(a[3])
            if name == 'equals':
                return y in V and y not in self.objects(x, v)
            return y in V and self.good(i, x, y) == (name in COUNTS)
        if n == 'differ':
            return node(a[3]) not in V and node(a[3]) in self.objects(x, v)
        if n == 'twin':
            return node(a[3]) in V and node(a[4]) in V
        if name == 'xone':
            return sum(self.conforms(u, x) for u in v[:a[3]]) >= a[4]
        first = [node(y) for y in p.values(s, a[2])[:a[3]]]
        return sum(y in V and (name in ('minCount', 'maxCount') or self.good(i, x, y)) for y in first) >= a[4]


def check(prob, atoms, tried):
    n = len(prob.candidates)
    for bits in (range(2 ** n) if n <= 4 else [random.randrange(2 ** n) for _ in range(16)]):
        e = Graph(prob, {c for i, c in enumerate(prob.candidates) if bits >> i & 1})
        truth = lambda q: q if isinstance(q, bool) else e.means(q[1]) == q[0]
        for a in atoms:
            if a[0] == 'count':
                _, i, x, j, m = a
                want = truth(prob.count(i, x, j - 1, m)) or truth(prob.count(i, x, j - 1, m - 1)) and truth(prob.items(i, x)[j - 1])
            else:
                every, ps = prob.parts(a)
                want = all(map(truth, ps)) if every else any(map(truth, ps))
            assert e.means(a) == want, (a, prob.parts(a), bits)
            for ps in prob.clauses(a):
                for q in ps:
                    assert isinstance(q, bool) or prob.is_atom(q[1]), (a, q)
                assert any(map(truth, ps)), (a, ps, bits)
            tried[a[0]] = tried.get(a[0], 0) + 1
        if e.conforming():
            for s in range(len(prob.sh.shapes)):
                for x in range(len(prob.nodes)):
                    assert any(map(truth, prob.rule([], 'root', [s, x])))
                    tried['root'] = tried.get('root', 0) + 1


def below(prob, a, memo, path):
    """the depth of an atom, which fails where it stands below itself"""
    if a not in memo:
        assert a not in path, a
        lower = []
        if a[0] == 'count':
            _, i, x, j, m = a
            lower = [prob.count(i, x, j - 1, m), prob.count(i, x, j - 1, m - 1), prob.items(i, x)[j - 1]]
        elif a[0] != 'triple':
            lower = prob.parts(a)[1]
        memo[a] = 1 + max([0] + [below(prob, q[1], memo, path | {a}) for q in lower if not isinstance(q, bool)])
    return memo[a]


def answer(case, checking, tried):
    prob = Problem(graph_of(case['shapes'], 1), graph_of(case['data'], 0), graph_of(case['offered'], 0))
    out = [f"== {case['name']}"]
    out += [f"triple {i} {' '.join(map(spell, t))} ." for i, t in enumerate(prob.sh.triples)]
    out += [f'shape {i} {spell(t)}' for i, t in enumerate(prob.sh.shapes)]
    out += [f"data {i} {' '.join(map(spell, t))} ." for i, t in enumerate(prob.g)]
    out += [f"offer {i} {' '.join(map(spell, t))} ." for i, t in enumerate(prob.h)]
    out += [f'node {i} {spell(t)}' for i, t in enumerate(prob.nodes)]
    chain = []
    for ask in case['ask']:
        ws = ask.split(' ')
        if ws[0] == 'chain':
            chain.append([int(w) for w in ws[1:]])
        elif ws[0] == 'rule':
            ps = prob.rule(chain, ws[1], [int(w) for w in ws[2:]])
            if any(t >= len(prob.candidates) for pair in chain for t in pair):
                text = ': no candidate in the chain'
            elif ps is None:
                text = ': the numbers of the rule are out of range'
            else:
                text = clause_text(ps).replace(': tautology', ': the clause of the rule is a tautology')
            out.append(ask + text)
        elif ws[0] == 'atom':
            out += atom_lines(prob, (ws[1],) + tuple(int(w) for w in ws[2:]))
        else:
            for a in prob.all_atoms():
                if prob.is_atom(a):
                    out += atom_lines(prob, a)
    if checking:
        atoms = [a for a in prob.all_atoms() if prob.is_atom(a)]
        check(prob, atoms, tried)
        memo = {}
        for a in atoms:
            below(prob, a, memo, frozenset())
    return out


def draw(seed, count):
    rng = random.Random(seed)
    out = []
    for c in range(count):
        labels = list(range(100))
        rng.shuffle(labels)
        shapes, lines = [], []
        integer_text = lambda n: f'"{n}"^^<{XSD}integer>'

        def blank():
            return f'_:b{labels.pop():02d}'

        def list_of(items):
            cells = [blank() for _ in items]
            for k, (cell, item) in enumerate(zip(cells, items)):
                lines.append(f'{cell} <{RDF}first> {item} .')
                lines.append(f'{cell} <{RDF}rest> ' + (cells[k + 1] if k + 1 < len(cells) else f'<{RDF}nil>') + ' .')
            return cells[0] if cells else f'<{RDF}nil>'

        def path(depth):
            if depth == 0 or rng.random() < 0.6:
                return rng.choice([f'<{EX}p>', f'<{EX}p>', f'<{EX}q>', f'<{RDF}type>'])
            kind = rng.choice(['inversePath', 'zeroOrMorePath', 'oneOrMorePath', 'zeroOrOnePath', 'seq', 'alt'])
            if kind == 'seq':
                return list_of([path(depth - 1), path(depth - 1)])
            me = blank()
            if kind == 'alt':
                lines.append(f'{me} <{SH}alternativePath> {list_of([path(depth - 1), path(depth - 1)])} .')
            else:
                lines.append(f'{me} <{SH}{kind}> {path(depth - 1)} .')
            return me
        things = [f'<{EX}{v}>' for v in 'abcd'[:rng.choice([2, 3, 4])]] + ['_:x'][:rng.choice([0, 1])]
        classes = [f'<{EX}C>', f'<{EX}D>']
        literals = rng.choice([['"v"'], ['"v"', '"v"@en', '"w"@en'], ['"7"^^<%sinteger>' % XSD, '"v"@de', '"u"@en', '"w"@en']])
        terms = things + classes + literals
        # names are drawn, so that shapes refer to greater and to lesser ones, but never in a circle
        names = rng.sample([f'<{EX}S{k}>' for k in range(8)], rng.choice([1, 2, 3, 4]))
        paths_of = {}
        for k, s in enumerate(names):
            lower = names[:k]
            has_path = rng.random() < 0.65
            paths_of[s] = has_path
            if has_path:
                lines.append(f'{s} <{SH}path> {path(rng.choice([0, 1, 2]))} .')
            say = lambda p, o: lines.append(f'{s} <{SH}{p}> {o} .')
            props = [u for u in lower if paths_of[u]]
            for _ in range(rng.choice([1, 1, 2, 3])):
                kinds = ['class', 'nodeKind', 'minLength', 'in', 'closed', 'disjoint', 'equals', 'hasValue', 'datatype', 'languageIn', 'minInclusive']
                if lower:
                    kinds += ['not', 'node', 'and', 'or', 'xone', 'and', 'or', 'xone']
                if props:
                    kinds += ['property', 'property', 'property']
                if has_path:
                    kinds += ['uniqueLang', 'minCount', 'maxCount', 'uniqueLang', 'minCount', 'maxCount']
                    if lower:
                        kinds += ['qualified', 'qualified', 'qualified']
                kind = rng.choice(kinds)
                if any(l.startswith(f'{s} <{SH}{kind}>') for l in lines) and kind not in ('class', 'not', 'node', 'and', 'or', 'xone', 'property', 'hasValue', 'disjoint', 'equals'):
                    continue
                if kind == 'qualified':
                    if any(l.startswith(f'{s} <{SH}qualifiedValueShape>') for l in lines):
                        continue
                    say('qualifiedValueShape', rng.choice(lower))
                    for which in rng.choice([['qualifiedMinCount'], ['qualifiedMaxCount'], ['qualifiedMinCount', 'qualifiedMaxCount']]):
                        say(which, integer_text(rng.randrange(3)))
                    if rng.random() < .7:
                        say('qualifiedValueShapesDisjoint', f'"true"^^<{XSD}boolean>')
                elif kind == 'class':
                    say(kind, rng.choice(classes))
                elif kind == 'nodeKind':
                    say(kind, f'<{SH}{rng.choice(["IRI", "BlankNode", "Literal", "BlankNodeOrIRI", "IRIOrLiteral"])}>')
                elif kind == 'minLength':
                    say(kind, integer_text(rng.choice([1, 2, 20])))
                elif kind == 'minInclusive':
                    say(kind, integer_text(rng.choice([7, 8])))
                elif kind == 'datatype':
                    say(kind, f'<{rng.choice([XSD + "string", XSD + "integer", RDF + "langString"])}>')
                elif kind == 'in':
                    say(kind, list_of(rng.sample([t for t in terms if t != '_:x'], 2)))
                elif kind == 'languageIn':
                    say(kind, list_of(['"en"', '"fr"']))
                elif kind == 'closed':
                    say(kind, f'"{rng.choice(["true", "true", "false"])}"^^<{XSD}boolean>')
                    if rng.random() < .5:
                        say('ignoredProperties', list_of([f'<{RDF}type>']))
                elif kind in ('disjoint', 'equals'):
                    say(kind, rng.choice([f'<{EX}p>', f'<{EX}q>']))
                elif kind == 'hasValue':
                    say(kind, rng.choice([t for t in terms if t != '_:x'] + [f'<{EX}z>']))
                elif kind in ('not', 'node'):
                    say(kind, rng.choice(lower))
                elif kind in ('and', 'or', 'xone'):
                    say(kind, list_of([rng.choice(lower) for _ in range(rng.choice([0, 1, 2, 3]))]))
                elif kind == 'property':
                    say(kind, rng.choice(props))
                elif kind == 'uniqueLang':
                    say(kind, f'"{rng.choice(["true", "true", "true", "false"])}"^^<{XSD}boolean>')
                else:
                    say(kind, integer_text(rng.choice([0, 1, 1, 2, 3])))
            if rng.random() < .1:
                say('deactivated', f'"true"^^<{XSD}boolean>')
            for _ in range(rng.choice([0, 1, 1, 2])):
                t = rng.choice(TARGETS)
                say(t, {'targetNode': rng.choice([f'<{EX}a>', f'<{EX}z>', '"v"']), 'targetClass': rng.choice(classes)}.get(t, rng.choice([f'<{EX}p>', f'<{EX}q>'])))
            if rng.random() < .1:
                lines.append(f'{s} <{RDF}type> <{RDFS}Class> .')
                lines.append(f'{s} <{RDF}type> <{SH}{"PropertyShape" if has_path else "NodeShape"}> .')

        def triples(n):
            found = set()
            for _ in range(n):
                kind = rng.random()
                if kind < .15:
                    found.add(f'{rng.choice(things)} <{RDF}type> {rng.choice(classes)} .')
                elif kind < .22:
                    found.add(f'<{EX}D> <{RDFS}subClassOf> <{EX}C> .')
                else:
                    found.add(f'{rng.choice(things)} <{rng.choice([EX + "p", EX + "p", EX + "q"])}> {rng.choice(things + literals)} .')
            return sorted(found)
        data, offered = triples(rng.randrange(0, 6)), triples(rng.randrange(0, 4))
        if any('uniqueLang' in l for l in lines):
            data = sorted(set(data) | {f'{things[0]} <{EX}p> {l} .' for l in rng.sample(['"v"@en', '"w"@en', '"u"@en', '"v"@de', '"w"@de'], 3)})
        offered = sorted(set(offered) | set(rng.sample(data, min(len(data), rng.randrange(2)))))
        out += [f'== {c}'] + sorted(set(lines)) + ['-- data'] + data + ['-- offered'] + offered
        total = len(set(data) | set(offered))
        for _ in range(rng.choice([0, 1, 2])):
            ns = [t for t in range(total) if rng.random() < 0.5]
            out.append(' '.join(['-- chain'] + [str(t) for t in ns]))
        for _ in range(12):
            name = rng.choice(['root', 'outside', 'undo', 'outside', 'reach', 'level', 'middle', 'good', 'marked', 'count', 'differ', 'twin', 'holds', 'conforms', 'target'])
            length = {'root': 2, 'outside': 2, 'undo': 1, 'reach': 4, 'level': 5, 'middle': 6, 'good': 3, 'marked': 4, 'count': 5, 'differ': 4, 'twin': 5, 'holds': 3, 'conforms': 3, 'target': 3}[name]
            length += rng.choice([0] * 8 + [1, -1])
            top = {'outside': 6, 'undo': 3, 'root': 5}.get(name, 7)
            out.append('-- rule ' + ' '.join([name] + [str(rng.randrange(top)) for _ in range(length)]))
        out.append('-- all')
    return out


def main():
    args = sys.argv[1:]
    if args[0] == '--draw':
        print('\n'.join(draw(int(args[1]), int(args[2]))))
        return
    checking = '--check' in args
    tried = {}
    text = open([a for a in args if a != '--check'][0]).read()
    for case in others['cases_of'](text):
        print('\n'.join(answer(case, checking, tried)))
    if checking:
        print(tried, sum(tried.values()), file=sys.stderr)


main()
