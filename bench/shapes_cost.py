#!/usr/bin/env python3
"""Times the built `shape_cases` on large and hostile shapes graphs, each at one size and at a tenth of it.

usage: bench/shapes_cost.py [KIND..]    (all kinds where none is given)

`mixed`     20,000 triples: 2,000 shapes, a list of 5,000 members, a chain of 128 references, a path of depth 32
`list`      a list of 100,000 cells
`cycle`     a list of 100,000 cells whose last one has the first as its rest
`recursion` 10,000 shapes of which each refers to the next, and the last to the first
`siblings`  300 parents that share 300 property shapes, with qualified shapes that are disjoint; 30 and 30 at a tenth

The chain and the path of `mixed` are as long at a tenth. Each graph is a text of one case in N-Triples. Prints what
the program says first, the seconds of one run, and by how much these and the triples grow. Exit status 1 where the
program says something else than it should.
"""
import os
import subprocess
import sys
import tempfile
import time

TOP = os.path.dirname(os.path.dirname(os.path.abspath(__file__)))
PROGRAM = os.path.join(TOP, 'crates', 'shape_cases', 'out', 'shape_cases')
EXAMPLE = 'http://example.org/'
FIRST, REST, NIL = (f'<http://www.w3.org/1999/02/22-rdf-syntax-ns#{name}>' for name in ('first', 'rest', 'nil'))
CHAIN, PATH_DEPTH = 128, 32


def iri(name):
    return f'<{EXAMPLE}{name}>'


def sh(name):
    return f'<http://www.w3.org/ns/shacl#{name}>'


def literal(text, datatype):
    return f'"{text}"^^<http://www.w3.org/2001/XMLSchema#{datatype}>'


def triple(subject, predicate, value):
    return f'{subject} {predicate} {value} .\n'


def cells(count, last):
    """A list of so many cells, whose last one has this rest."""
    for i in range(count):
        yield triple(f'_:c{i}', FIRST, iri(f'm{i}'))
        yield triple(f'_:c{i}', REST, f'_:c{i + 1}' if i + 1 < count else last)


def nested_path():
    """The deepest path, from `_:p1` on."""
    for i in range(1, PATH_DEPTH + 1):
        yield triple(f'_:p{i}', sh('inversePath'), f'_:p{i + 1}' if i < PATH_DEPTH else iri('p'))


def plain_shape(number):
    shape = iri(f's{number:05d}')
    yield triple(shape, sh('targetNode'), iri(f'n{number}'))
    yield triple(shape, sh('class'), iri(f'C{number % 7}'))
    yield triple(shape, sh('nodeKind'), sh('IRI'))
    yield triple(shape, sh('minLength'), literal(number, 'integer'))
    if number < CHAIN:
        yield triple(shape, sh('node'), iri(f's{number + 1:05d}'))


def mixed(shapes):
    """So many shapes, and ten triples a shape altogether."""
    members = shapes * 5 // 2
    made = [line for number in range(shapes) for line in plain_shape(number)]
    last = iri(f's{shapes - 1:05d}')
    made += [triple(last, sh('in'), '_:c0'), triple(last, sh('path'), '_:p1'), *cells(members, NIL), *nested_path()]
    made += [triple(last, sh('hasValue'), iri(f'v{i}')) for i in range(shapes * 10 - len(made))]
    return made, f'triples {shapes * 10}, constraints '


def plain_list(count):
    return [triple(iri('S'), sh('in'), '_:c0'), *cells(count, NIL)], f'triples {2 * count + 1}, constraints 1, '


def cyclic_list(count):
    return [triple(iri('S'), sh('in'), '_:c0'), *cells(count, '_:c0')], f'ill formed {iri("S")} rule 7'


def recursion(count):
    made = [triple(iri(f's{i:05d}'), sh('node'), iri(f's{(i + 1) % count:05d}')) for i in range(count)]
    return made, f'recursive {iri("s00000")}'


def qualified(number):
    """A property shape with a qualified shape that is disjoint with its siblings."""
    shape = iri(f'p{number:05d}')
    yield triple(shape, sh('path'), iri('q'))
    yield triple(shape, sh('qualifiedValueShape'), iri(f'v{number:05d}'))
    yield triple(shape, sh('qualifiedValueShapesDisjoint'), literal('true', 'boolean'))
    yield triple(shape, sh('qualifiedMinCount'), literal(1, 'integer'))


def siblings(count):
    """So many parents that share so many property shapes."""
    made = [line for number in range(count) for line in qualified(number)]
    made += [triple(iri(f's{i:05d}'), sh('property'), iri(f'p{j:05d}')) for i in range(count) for j in range(count)]
    return made, f'triples {count * (count + 4)}, constraints {count * (count + 1)}, shapes {count * 3}, paths 5'


KINDS = {
    'mixed': (mixed, 2000),
    'list': (plain_list, 100_000),
    'cycle': (cyclic_list, 100_000),
    'recursion': (recursion, 10_000),
    'siblings': (siblings, 300),
}


def run(made):
    """The first line that the program says of the graph, and the seconds that it takes."""
    with tempfile.TemporaryDirectory() as folder:
        with open(os.path.join(folder, 'case.txt'), 'w', encoding='utf-8') as out:
            out.writelines(['== case\n', *made])
        with open(os.path.join(folder, 'out.txt'), 'w+', encoding='utf-8') as out:
            started = time.monotonic()
            done = subprocess.run([PROGRAM, 'case.txt'], cwd=folder, stdout=out, stderr=subprocess.PIPE)
            seconds = time.monotonic() - started
            out.seek(0)
            out.readline()
            first = out.readline().rstrip('\n')
    return (first if done.returncode == 0 else done.stderr.decode('utf-8', 'replace').strip()), seconds


def main():
    kinds = sys.argv[1:] or list(KINDS)
    if any(kind not in KINDS for kind in kinds):
        sys.exit(__doc__)
    if not os.path.exists(PROGRAM):
        sys.exit(f'{PROGRAM} is not built: run rt ci once')
    status = 0
    for kind in kinds:
        make, size = KINDS[kind]
        measured = []
        for count in (size // 10, size):
            made, wanted = make(count)
            said, seconds = run(made)
            note = '' if said.startswith(wanted) else f', BUT WANTED {wanted}'
            status = 1 if note else status
            print(f'{kind}, {len(made)} triples: {seconds:.2f} s, said {said}{note}', flush=True)
            measured.append((len(made), seconds))
        (few, short), (many, long) = measured
        print(f'{kind}: {many / few:.0f} times the triples in {long / max(short, 0.001):.0f} times the seconds')
    return status


if __name__ == '__main__':
    sys.exit(main())
