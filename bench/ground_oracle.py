#!/usr/bin/env python3
"""ground_oracle.py CASES: prints what ground_cases has to print for a text of cases, by the rules of rules_oracle.py: the
premises of the nodes that can be focus nodes, and of each atom that stands in one, with no tautologies. With
--draw SEED COUNT it writes a text of drawn cases instead. With --check it also tries the clauses in every assignment
of the candidates (where there are up to 10): one that can be extended to make all true is an edited graph that
conforms, and each such graph is one."""
import os, sys

here = os.path.dirname(os.path.abspath(__file__))
rules = {'__file__': os.path.join(here, 'rules_oracle.py')}
exec(open(rules['__file__']).read().rsplit('main()', 1)[0], rules)
Problem, graph_of, finish, clause_text, words = (rules[n] for n in ('Problem', 'graph_of', 'finish', 'clause_text', 'words'))


def can_be_focus(prob, s, x):
    """whether some part of the target isn't fixed false"""
    return any(p is not False for p in prob.target_parts(s, x))


def ground(prob):
    """the premises, as the words of the rule and the literals, and the atoms in order"""
    premises, atoms, known = [], [], set()

    def add(name, literals):
        if literals is None:
            return
        premises.append((name, literals))
        for sign, a in literals:
            if a not in known:
                known.add(a)
                atoms.append(a)
    for s in range(len(prob.sh.shapes)):
        for x in range(len(prob.nodes)):
            if can_be_focus(prob, s, x):
                add(f'root {s} {x}', finish(prob.rule([], 'root', [s, x])))
    done = 0
    while done < len(atoms):
        for k, ps in enumerate(prob.clauses(atoms[done])):
            add(f'{words(atoms[done])} {k}', finish(ps))
        done += 1
    return premises, atoms


def check(prob, premises, atoms):
    """tries the clauses: each variable but those of candidates follows from lower ones, so that one walk decides"""
    n, number = len(prob.candidates), {a: v for v, a in enumerate(atoms)}
    clauses = [[(number[a] + 1) * (1 if sign else -1) for sign, a in ls] for name, ls in premises]
    for bits in range(2 ** n):
        graph = {c for i, c in enumerate(prob.candidates) if bits >> i & 1}
        free = [t for t in range(n) if ('triple', t) not in number]
        if any((bits >> t & 1) != (t < len(prob.g)) for t in free):
            continue
        value = {number[('triple', t)] + 1: bool(bits >> t & 1) for t in range(n) if ('triple', t) in number}
        true = complete(clauses, value)
        edited = rules['Graph'](prob, graph)
        assert (true is not None) == edited.conforming(), (prob.candidates, bits)
        if true is not None:
            assert len(true) == len(atoms), 'an atom is free'
            for a, v in number.items():
                assert true[v + 1] == edited.means(a), (a, bits)


def complete(clauses, value):
    """what unit propagation makes of an assignment, or None where a clause is false"""
    value, changed = dict(value), True
    while changed:
        changed = False
        for c in clauses:
            if any(value.get(abs(l)) == (l > 0) for l in c):
                continue
            left = [l for l in c if abs(l) not in value]
            if not left:
                return None
            if len(left) == 1:
                value[abs(left[0])] = left[0] > 0
                changed = True
    return value


def answer(case, checking):
    prob = Problem(graph_of(case['shapes'], 1), graph_of(case['data'], 0), graph_of(case['offered'], 0))
    premises, atoms = ground(prob)
    out = [f"== {case['name']}"]
    for ask in case['ask']:
        if ask == 'ground':
            out += [f'rule {name}' + clause_text(ls) for name, ls in premises]
            out += [f'triple {t}: in no clause' for t in range(len(prob.candidates)) if ('triple', t) not in atoms]
        else:
            stars = sum(a[0] in ('level', 'middle') for a in atoms)
            literals = sum(len(ls) for name, ls in premises)
            out.append(f'premises {len(premises)}, atoms {len(atoms)}, of them levels and middles {stars}, literals {literals}')
    if checking and len(prob.candidates) <= 10:
        check(prob, premises, atoms)
    return out


def drawn(seed, count):
    """drawn cases of rules_oracle.py, with other questions"""
    out = []
    for line in rules['draw'](seed, count):
        if line.startswith('== ') and out:
            out += ['-- ground', '-- counts']
        if not line.startswith('-- ') or line in ('-- data', '-- offered'):
            out.append(line)
    return out + ['-- ground', '-- counts']


def main():
    args = sys.argv[1:]
    if args[0] == '--draw':
        print('\n'.join(drawn(int(args[1]), int(args[2]))))
        return
    text = open([a for a in args if a != '--check'][0]).read()
    for case in rules['others']['cases_of'](text):
        print('\n'.join(answer(case, '--check' in args)))


main()
