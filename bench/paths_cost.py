#!/usr/bin/env python3
"""Times the built `path_cases` on large data, each kind at one size and at a tenth of it.

usage: bench/paths_cost.py [--instructions] [KIND..]    (all kinds where none is given)

`chain`     a star from the first node of a chain of 100,000 triples
`random`    a star over a random graph of 100,000 triples and 50,000 nodes
`shared`    `( [ sh:inversePath p ] p )` from one of 1,000 nodes that share 1,000 objects; 100 nodes at a tenth
`nested`    six stars in one another over a chain of 100,000 triples
`classes`   the focus nodes of a class with 1,000 subclasses, of which each has 100 instances; 10 at a tenth

Each kind is a text of one case in N-Triples, whose terms are counted and not listed. It is run a second time with no
shape and nothing asked, which is what reading the data takes. The rest is one call that seeks focus nodes and, for
paths, one that follows them; each numbers the nodes of the graph. Prints what the program says, the processor seconds
of both (the fewest of three runs), and by how much their difference and the triples grow; with `--instructions` the
instructions in place of the seconds, from one run each. Exit status 1 where the program says something else than it
should.
"""
import os
import random
import resource
import subprocess
import sys
import tempfile

from instructions import counted

TOP = os.path.dirname(os.path.dirname(os.path.abspath(__file__)))
PROGRAM = os.path.join(TOP, 'crates', 'path_cases', 'out', 'path_cases')
EXAMPLE = 'http://example.org/'
RDF = 'http://www.w3.org/1999/02/22-rdf-syntax-ns#'
FIRST, REST, NIL, TYPE = (f'<{RDF}{name}>' for name in ('first', 'rest', 'nil', 'type'))
SUBCLASS_OF = '<http://www.w3.org/2000/01/rdf-schema#subClassOf>'


def iri(name):
    return f'<{EXAMPLE}{name}>'


def sh(name):
    return f'<http://www.w3.org/ns/shacl#{name}>'


def triple(subject, predicate, value):
    return f'{subject} {predicate} {value} .\n'


SHAPE, STEP = iri('S'), iri('p')
RUNS = 3


def property_shape(node, lines):
    """A property shape with the path that this node is by these triples."""
    return [triple(SHAPE, TYPE, sh('PropertyShape')), triple(SHAPE, sh('path'), node), *lines]


def stars(count):
    """So many stars in one another."""
    nodes = [f'_:n{i}' for i in range(count)] + [STEP]
    lines = [triple(nodes[i], sh('zeroOrMorePath'), nodes[i + 1]) for i in range(count)]
    return property_shape(nodes[0], lines)


def chain_triples(count):
    return [triple(iri(f'n{i}'), STEP, iri(f'n{i + 1}')) for i in range(count)]


def chain(count):
    return stars(1), chain_triples(count), iri('n0'), count + 1


def nested(count):
    return stars(6), chain_triples(count), iri('n0'), count + 1


def random_graph(count):
    drawn = random.Random(count)
    edges = {(0, 1)}
    while len(edges) < count:
        edges.add((drawn.randrange(count // 2), drawn.randrange(count // 2)))
    data = [triple(iri(f'n{x}'), STEP, iri(f'n{y}')) for x, y in sorted(edges)]
    return stars(1), data, iri('n0'), len(reached(edges))


def reached(edges):
    """The nodes to which edges lead from node 0, that node with them."""
    after = {}
    for x, y in edges:
        after.setdefault(x, []).append(y)
    found, open_nodes = {0}, [0]
    while open_nodes:
        for y in after.get(open_nodes.pop(), []):
            if y not in found:
                found.add(y)
                open_nodes.append(y)
    return found


def shared(count):
    """So many nodes that share 1,000 objects."""
    cells = [('_:c0', FIRST, '_:i'), ('_:c0', REST, '_:c1'), ('_:c1', FIRST, STEP), ('_:c1', REST, NIL)]
    shapes = property_shape('_:c0', [triple('_:i', sh('inversePath'), STEP), *(triple(*cell) for cell in cells)])
    data = [triple(iri(f's{i}'), STEP, iri(f'o{j}')) for i in range(count) for j in range(1000)]
    return shapes, data, iri('o0'), 1000


def classes(count):
    """A class with 1,000 subclasses, of which each has so many instances."""
    data = [triple(iri(f'C{i}'), SUBCLASS_OF, iri('C')) for i in range(1000)]
    data += [triple(iri(f'x{i}-{j}'), TYPE, iri(f'C{i}')) for i in range(1000) for j in range(count)]
    return [triple(SHAPE, sh('targetClass'), iri('C'))], data, None, 1000 * count


KINDS = {
    'chain': (chain, 100_000),
    'random': (random_graph, 100_000),
    'shared': (shared, 1000),
    'nested': (nested, 100_000),
    'classes': (classes, 100),
}


def processor_seconds():
    """What the runs so far took."""
    used = resource.getrusage(resource.RUSAGE_CHILDREN)
    return used.ru_utime + used.ru_stime


def timed(folder):
    """A run over the case, and the fewest seconds of some."""
    taken = []
    for _ in range(RUNS):
        before = processor_seconds()
        done = subprocess.run([PROGRAM, 'case.txt'], cwd=folder, capture_output=True, check=False)
        taken.append(processor_seconds() - before)
    return done, min(taken)


def run(shapes, data, asked, counts):
    """The last line that the program says of the graphs, and the seconds or the instructions that it takes."""
    with tempfile.TemporaryDirectory() as folder:
        with open(os.path.join(folder, 'case.txt'), 'w', encoding='utf-8') as out:
            out.writelines(['== case\n', *shapes, '-- data\n', *data, '-- count\n', *asked])
        done, taken = counted([PROGRAM, 'case.txt'], folder) if counts else timed(folder)
    said = done.stdout if done.returncode == 0 else done.stderr
    return said.decode('utf-8', 'replace').strip().split('\n')[-1].strip(), taken


def measure(kind, count, counts):
    """The triples of a kind at this size, what it takes beyond reading, and whether the answer is right."""
    shapes, data, start, wanted = KINDS[kind][0](count)
    asked = [f'-- from {start}\n'] if start else []
    _, reading = run([], data, [], counts)
    said, taken = run(shapes, data, asked, counts)
    right = said.endswith(f': count {wanted}')
    note = '' if right else f', BUT WANTED {wanted}'
    unit = 'million instructions' if counts else 's'
    scale, digits = (1_000_000, 1) if counts else (1, 3)
    times = f'{taken / scale:.{digits}f} {unit}, of which reading {reading / scale:.{digits}f} {unit}'
    print(f'{kind}, {len(data)} triples: {times}, said {said}{note}', flush=True)
    return len(data), max(taken - reading, 0.001), right


def main():
    words = sys.argv[1:]
    counts = words[:1] == ['--instructions']
    kinds = words[counts:] or list(KINDS)
    if any(kind not in KINDS for kind in kinds):
        sys.exit(__doc__)
    if not os.path.exists(PROGRAM):
        sys.exit(f'{PROGRAM} is not built: run rt ci once')
    status = 0
    for kind in kinds:
        size = KINDS[kind][1]
        few, short, first = measure(kind, size // 10, counts)
        many, long, second = measure(kind, size, counts)
        status = status if first and second else 1
        print(f'{kind}: {many / few:.0f} times the triples, beyond reading {long / short:.1f} times as much')
    return status


if __name__ == '__main__':
    sys.exit(main())
