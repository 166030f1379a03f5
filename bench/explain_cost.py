#!/usr/bin/env python3
"""Times the built program's `explain`, and then its `check` of the document that was written.

usage: bench/explain_cost.py [--budget STEPS] [--timeout SECONDS] [KIND [N..]]..

`customers`  the documents of `examples/customers`, copied N times with names of their own
`sample`     N persons, each of whom has to have a name and may have one mail. Of every three, the first has no name,
             and one is offered; the second has two mails; the third is as it should be
`pigeons`    N pigeons, each of which has to be put into one of N - 1 holes. Every place is offered, and no hole may
             have two: no pair explains
`made`       a chain of N nodes, each with a link to the next. The middle link isn't there, but offered, and the first
             node has to reach the last over any number of links
`broken`     the same chain with all of its links, and the first node may not reach the last
`woven`      as `broken`, and each node has a link to the next but one too

Where no kind is given, all are timed; where no number is given of a kind, customers at 1, 10 and 100, sample at 400,
pigeons at 5 to 8, and the others at 12, 30 and 60. Prints for each how many triples the data and the offers have, what
is claimed, how many triples the pair adds and deletes, the pairs of the document's chain, its steps, its rules and its
bytes, and the processor seconds and the peak memory of one run of both commands.

A run of the program is ended after so many processor seconds (60 where none is given), and printed as such. With a
budget, a search without a limit below makes so many steps at most, and may claim nothing where it has made these. Exit
status 1 where a limit is passed or an answer is wrong. `explain` may take 5 seconds of customers 10 and of sample 400,
and neither is to be ended. No pair is claimed of pigeons, and one of all others; the status is that of the claim, and
`check` accepts the document. Sample N adds (N + 2) / 3 triples and deletes (N + 1) / 3, rounded down. `made` adds one,
and `broken` deletes one. Copies of the customers have nothing in common but the shapes, and are searched alike: the
pair takes so many times the triples that it takes of one copy.
"""
import contextlib
import os
import re
import resource
import signal
import subprocess
import sys
import tempfile
from typing import NamedTuple, Optional

TOP = os.path.dirname(os.path.dirname(os.path.abspath(__file__)))
PROGRAM = os.path.join(TOP, 'crates', 'shacl_explain', 'out', 'shacl_explain')
EXAMPLE = os.path.join(TOP, 'examples', 'customers')
NAMES = 'shapes.nt', 'data.nt', 'offered.nt'
INTEGER = 'http://www.w3.org/2001/XMLSchema#integer'
SIZES = {
    'customers': (1, 10, 100),
    'sample': (400,),
    'pigeons': (5, 6, 7, 8),
    'made': (12, 30, 60),
    'broken': (12, 30, 60),
    'woven': (12, 30, 60),
}
# the least size of a kind where it isn't 1
LEAST = {'made': 2, 'broken': 2, 'woven': 2}
MOST_SECONDS = {('sample', 400): 5.0, ('customers', 10): 5.0}
TIMEOUT = 60
# the status with which `explain` says a claim
STATUSES = {'pair': 0, 'none': 1, 'spent': 8}
# what is renamed: the customers, employees and orders, and no class or property
NAME = re.compile(r'<http://example\.org/([ceo]\d)>')


class Run(NamedTuple):
    """A run of the program. It has no status where it was ended."""
    status: Optional[int]
    seconds: float
    mib: float


class Document(NamedTuple):
    """What a document claims, and how many it has of each kind of lines."""
    claim: str
    added: int
    deleted: int
    pairs: int
    steps: int
    rules: int
    bytes: int


def line(*terms):
    return ' '.join(terms) + ' .\n'


def own(name):
    return f'<http://example.org/{name}>'


def shacl(name):
    return f'<http://www.w3.org/ns/shacl#{name}>'


def number(value):
    return f'"{value}"^^<{INTEGER}>'


def targets(shape, nodes):
    return ''.join(line(own(shape), shacl('targetNode'), node) for node in nodes)


def sample(count):
    persons = [own(f'p{i}') for i in range(count)]
    shapes = targets('S', persons) + ''.join([
        line(own('S'), shacl('property'), own('N')),
        line(own('S'), shacl('property'), own('M')),
        line(own('N'), shacl('path'), own('name')),
        line(own('N'), shacl('minCount'), number(1)),
        line(own('M'), shacl('path'), own('mail')),
        line(own('M'), shacl('maxCount'), number(1)),
    ])
    names = [line(person, own('name'), f'"n{i}"') for i, person in enumerate(persons)]
    mails = [line(person, own('mail'), f'"m{i}"') for i, person in enumerate(persons) if i % 3 != 0]
    more = [line(person, own('mail'), f'"w{i}"') for i, person in enumerate(persons) if i % 3 == 1]
    present = [name for i, name in enumerate(names) if i % 3 != 0]
    return shapes, ''.join(present + mails + more), ''.join(names[::3])


def customers(count):
    texts = []
    for name in NAMES:
        with open(os.path.join(EXAMPLE, name), encoding='utf-8') as read:
            texts.append(''.join(text for text in read if text.strip() and not text.startswith('#')))
    shapes, *others = texts
    return shapes, *(''.join(NAME.sub(rf'<http://example.org/\1-{i}>', text) for i in range(count)) for text in others)


def pigeons(count):
    birds = [own(f'bird{i}') for i in range(count)]
    holes = [own(f'hole{i}') for i in range(count - 1)]
    shapes = targets('Bird', birds) + targets('Hole', holes) + ''.join([
        line(own('Bird'), shacl('property'), own('Put')),
        line(own('Put'), shacl('path'), own('in')),
        line(own('Put'), shacl('minCount'), number(1)),
        line(own('Hole'), shacl('property'), own('Room')),
        line(own('Room'), shacl('path'), '_:holds'),
        line(own('Room'), shacl('maxCount'), number(1)),
        line('_:holds', shacl('inversePath'), own('in')),
    ])
    return shapes, '', ''.join(line(bird, own('in'), hole) for bird in birds for hole in holes)


def nodes_of(count):
    """The nodes of a chain, whose names are in the order of the chain."""
    return [own(f'n{i:03}') for i in range(count)]


def links(nodes, step):
    """From each node to the one that many places further."""
    return [line(node, own('next'), other) for node, other in zip(nodes, nodes[step:])]


def reaching(nodes, *lines):
    """Shapes that ask of the first node by these lines what it reaches over any number of links."""
    return targets('S', nodes[:1]) + ''.join([
        line(own('S'), shacl('property'), own('Reached')),
        line(own('Reached'), shacl('path'), '_:links'),
        line('_:links', shacl('zeroOrMorePath'), own('next')),
        *lines,
    ])


def made(count):
    nodes = nodes_of(count)
    present = links(nodes, 1)
    offered = present.pop(len(present) // 2)
    return reaching(nodes, line(own('Reached'), shacl('hasValue'), nodes[-1])), ''.join(present), offered


def without_end(nodes):
    """Shapes that ask that the first node doesn't reach the last."""
    return reaching(nodes, line(own('Reached'), shacl('not'), own('End')),
                    line(own('End'), shacl('hasValue'), nodes[-1]))


def broken(count):
    nodes = nodes_of(count)
    return without_end(nodes), ''.join(links(nodes, 1)), ''


def woven(count):
    nodes = nodes_of(count)
    return without_end(nodes), ''.join(links(nodes, 1) + links(nodes, 2)), ''


KINDS = {'sample': sample, 'customers': customers, 'pigeons': pigeons, 'made': made, 'broken': broken, 'woven': woven}


def run(words, timeout, out):
    """Runs the program, which writes to that file, for at most so many seconds."""
    process = subprocess.Popen([PROGRAM, *words], stdout=out, stderr=subprocess.DEVNULL)
    with contextlib.suppress(ProcessLookupError):
        resource.prlimit(process.pid, resource.RLIMIT_CPU, (timeout, timeout + 1))
    _, state, used = os.wait4(process.pid, 0)
    status = os.waitstatus_to_exitcode(state)
    return Run(None if status == -signal.SIGXCPU else status, used.ru_utime + used.ru_stime, used.ru_maxrss / 1024)


def document(text):
    """What a document says."""
    lines = text.decode('utf-8').split('\n')
    claim = lines[1].partition(' ')[2] if len(lines) > 1 else ''
    words = ('add ', 'delete ', 'chain', 'step ', 'rule ')
    return Document(claim, *(sum(one.startswith(word) for one in lines) for word in words), len(text))


def explained(folder, texts, options, timeout):
    """The run of `explain` over these documents, what it wrote, the run of `check` of that, and its answer."""
    paths = [os.path.join(folder, name) for name in (*NAMES, 'document.txt', 'answer.txt')]
    for path, text in zip(paths, texts):
        with open(path, 'w', encoding='utf-8') as out:
            out.write(text)
    *graphs, written, answer = paths
    with open(written, 'w+b') as out:
        search = run(['explain', *graphs, *options], timeout, out)
        out.seek(0)
        found = document(out.read())
    if search.status not in STATUSES.values():
        return search, found, None, b''
    with open(answer, 'w+b') as out:
        check = run(['check', *graphs, written], timeout, out)
        out.seek(0)
        return search, found, check, out.read()


def wanted_size(kind, count, one):
    """How many triples a pair has to add and to delete, where that is known; `one`: of one copy of the customers."""
    if kind == 'customers':
        return one and (count * one[0], count * one[1])
    return {'sample': ((count + 2) // 3, (count + 1) // 3), 'made': (1, 0), 'broken': (0, 1)}.get(kind)


def faults(kind, count, budget, search, found, check, answer, one):
    """What is wrong with an answer."""
    limit = MOST_SECONDS.get((kind, count))
    if limit and search.seconds > limit:
        yield f'more than {limit} s'
    if limit and any(done and done.status is None for done in (search, check)):
        yield 'a run was ended'
    if search.status is None:
        return
    if search.status != STATUSES.get(found.claim):
        yield f'status {search.status}'
    claim = 'none' if kind == 'pigeons' else 'pair'
    if found.claim == 'spent' and budget is not None:
        if found.steps != budget:
            yield f'a budget of {budget}'
    elif found.claim != claim:
        yield f'claim {claim} wanted'
    accepted = 0, f'accepted {found.claim}\n'.encode()
    if check and check.status is not None and (check.status, answer) != accepted:
        yield f'check ended with status {check.status}'
    size = wanted_size(kind, count, one)
    if found.claim == 'pair' and size and (found.added, found.deleted) != size:
        yield f'a pair of {size[0]} and {size[1]} triples wanted'


def shown(name, done):
    if done is None:
        return f'no {name}'
    ended = '' if done.status is not None else ', ENDED THERE'
    return f'{name} {done.seconds:.2f} s, {done.mib:.0f} MiB{ended}'


def measure(kind, count, budget, timeout, one):
    """Prints the line of one size, and answers whether all is as it should be, and what the pair adds and deletes."""
    limited = budget if (kind, count) not in MOST_SECONDS else None
    options = [] if limited is None else ['--conflicts', str(limited)]
    texts = KINDS[kind](count)
    with tempfile.TemporaryDirectory() as folder:
        search, found, check, answer = explained(folder, texts, options, timeout)
    wrong = list(faults(kind, count, limited, search, found, check, answer, one))
    said = f'{kind} {count}, {texts[1].count(chr(10))} triples and {texts[2].count(chr(10))} offers: '
    if found.claim:
        size = f' of {found.added} added, {found.deleted} deleted' if found.claim == 'pair' else ''
        said += (f'{found.claim}{size}; pairs {found.pairs}, steps {found.steps}, rules {found.rules}, '
                 f'bytes {found.bytes}; ')
    note = ''.join(f', BUT {fault}' for fault in wrong)
    print(f'{said}{shown("explain", search)}; {shown("check", check)}{note}', flush=True)
    return not wrong, (found.added, found.deleted) if found.claim == 'pair' else None


def parse_words(words):
    """The kinds and numbers, the budget and the timeout of the command line."""
    kind, sizes, options = None, {}, {'--budget': None, '--timeout': TIMEOUT}
    words = iter(words)
    for word in words:
        if word in KINDS:
            kind = word
            sizes.setdefault(kind, [])
        elif word in options:
            value = next(words, '')
            if not value.isdigit() or int(value) == 0:
                sys.exit(__doc__)
            options[word] = int(value)
        elif kind and word.isdigit() and int(word) >= LEAST.get(kind, 1):
            sizes[kind].append(int(word))
        else:
            sys.exit(__doc__)
    chosen = [(kind, count) for kind in sizes or SIZES for count in sizes.get(kind) or SIZES[kind]]
    return chosen, options['--budget'], options['--timeout']


def main():
    chosen, budget, timeout = parse_words(sys.argv[1:])
    if not os.path.exists(PROGRAM):
        sys.exit(f'{PROGRAM} is not built: run rt ci or ./shacl-explain once')
    all_right, one = True, None
    if any(kind == 'customers' for kind, _ in chosen):
        # What one copy takes is asked first.
        chosen = [('customers', 1), *(size for size in chosen if size != ('customers', 1))]
    for kind, count in chosen:
        right, changed = measure(kind, count, budget, timeout, one)
        all_right = all_right and right
        if (kind, count) == ('customers', 1):
            one = changed
    return 0 if all_right else 1


if __name__ == '__main__':
    sys.exit(main())
