#!/usr/bin/env python3
"""Times the built program's `check` over long documents.

usage: bench/check_cost.py [--instructions] [ROWS..]    (1000 10000 where none is given)

The data is so many rows of five nodes, each but the last of a row with an edge to the next, so 40,000 triples for
10,000 rows. The shapes ask that two nodes are reached from each node with an edge. A document claims the empty pair,
which changes nothing. Above the premise that refutes it stand ten lines for each row: nine premises, which by turns of
the rows are of ten kinds, and a step of seven clauses; so 10,000 rows have a document of 100,005 lines. Prints the
processor seconds and the peak memory of the whole program (the fewest and the least of three runs), its start and the
reading of all four documents included, and by how much the seconds grow from one size to the next; with
`--instructions` the instructions of one run in place of seconds and memory. Then the last step of each document cites
another clause, and the document has to be refused at that line. Exit status 1 where an answer is wrong.
"""
import os
import subprocess
import sys
import tempfile

from instructions import counted

TOP = os.path.dirname(os.path.dirname(os.path.abspath(__file__)))
PROGRAM = os.path.join(TOP, 'crates', 'shacl_explain', 'out', 'shacl_explain')
RUNS = 3
NODES = 5
INTEGER = 'http://www.w3.org/2001/XMLSchema#integer'


def line(*terms):
    return ' '.join(terms) + ' .\n'


def own(name):
    return f'<http://example.org/{name}>'


def shacl(name):
    return f'<http://www.w3.org/ns/shacl#{name}>'


# In the order of triples these have the numbers from 0. The shapes P and S are 0 and 1; the path of an edge is 4, and
# that of any number of edges 5.
SHAPES = ''.join([
    line(own('P'), shacl('minCount'), f'"2"^^<{INTEGER}>'),
    line(own('P'), shacl('path'), '_:any'),
    line(own('S'), shacl('property'), own('P')),
    line(own('S'), shacl('targetSubjectsOf'), own('next')),
    line('_:any', shacl('zeroOrMorePath'), own('next')),
])


def data(rows):
    """The rows of nodes. The number of a node is its place among all, as their names stand in order."""
    return ''.join(line(own(f'n{row:06}{k}'), own('next'), own(f'n{row:06}{k + 1}'))
                   for row in range(rows) for k in range(NODES - 1))


def premises(row):
    """Of the first node of a row: seven that chain to one clause, and two more."""
    x = NODES * row
    more = (
        (f'level 5 2 {x} {x + 2} 6', f'middle 5 2 {x} {x + 2} {x + 3} 2'),
        (f'reach 5 {x} {x + 3} 1', f'level 5 2 {x} {x + 2} 2'),
        (f'count 0 {x} 3 2 1', f'reach 4 {x} {x + 1} 0'),
        (f'holds 0 {x} 1', f'middle 5 2 {x} {x + 2} {x + 3} 1'),
    )
    return (f'root 1 {x}', f'target 1 {x} 0', f'conforms 1 {x} 0', f'holds 2 {x} 0', f'marked 2 {x} {x} 2',
            f'good 2 {x} 1', f'conforms 0 {x} 0') + more[row % len(more)]


def document(rows, last_id):
    """The lines of a document; the last step cites this clause last, or its own where none is given."""
    lines = ['explanation 1', 'claim pair', 'chain']
    numbered = 0
    for row in range(rows):
        stated = premises(row)
        ids = list(range(numbered, numbered + 7))
        if row == rows - 1 and last_id is not None:
            ids[-1] = last_id
        lines += [f'rule {premise}' for premise in stated]
        lines.append('step ' + ' '.join(map(str, ids)))
        numbered += len(stated) + 1
    return lines + ['rule undo 0', 'end']


def write(path, text):
    with open(path, 'w', encoding='utf-8') as out:
        out.write(text)


def timed(words):
    """The status, the two outputs, the processor seconds and the peak memory in MiB of one run."""
    with tempfile.TemporaryFile() as out, tempfile.TemporaryFile() as notes:
        process = subprocess.Popen([PROGRAM, 'check'] + words, stdout=out, stderr=notes)
        _, state, used = os.wait4(process.pid, 0)
        for file in (out, notes):
            file.seek(0)
        return (os.waitstatus_to_exitcode(state), out.read(), notes.read(), used.ru_utime + used.ru_stime,
                used.ru_maxrss / 1024)


def measure(folder, rows, counts):
    """The seconds or instructions for so many rows, and whether both answers are right."""
    words = [os.path.join(folder, name) for name in ('shapes.nt', 'data.nt', 'offered.nt', 'document.txt')]
    lines = document(rows, None)
    for path, text in zip(words, (SHAPES, data(rows), '', '\n'.join(lines) + '\n')):
        write(path, text)
    if counts:
        done, taken = counted([PROGRAM, 'check'] + words)
        status, answer = done.returncode, done.stdout
        said = f'{taken / 1e6:.1f} million instructions'
    else:
        runs = [timed(words) for _ in range(RUNS)]
        status, answer = runs[0][:2]
        taken = min(run[3] for run in runs)
        said = f'{taken:.2f} s, {min(run[4] for run in runs):.0f} MiB'
    accepted = (status, answer) == (0, b'accepted pair\n')
    write(words[3], '\n'.join(document(rows, 0)) + '\n')
    status, _, notes, _, _ = timed(words)
    refused = (status, notes) == (1, f'rejected: bad step at line {len(lines) - 2}\n'.encode())
    note = ('' if accepted else ', BUT NOT ACCEPTED') + ('' if refused else ', BUT ANOTHER CLAUSE IS NOT REFUSED')
    print(f'{rows} rows, {(NODES - 1) * rows} triples, {len(lines)} lines: {said}{note}', flush=True)
    return taken, accepted and refused


def main():
    words = sys.argv[1:]
    counts = words[:1] == ['--instructions']
    sizes = [int(word) for word in words[counts:]] or [1000, 10000]
    if not os.path.exists(PROGRAM):
        sys.exit(f'{PROGRAM} is not built: run rt ci or ./shacl-explain once')
    with tempfile.TemporaryDirectory() as folder:
        measured = [measure(folder, rows, counts) for rows in sizes]
    for (few, (short, _)), (many, (long, _)) in zip(zip(sizes, measured), list(zip(sizes, measured))[1:]):
        print(f'{few} to {many} rows: {long / max(short, 0.001):.1f} times as much')
    return 0 if all(right for _, right in measured) else 1


if __name__ == '__main__':
    sys.exit(main())
