#!/usr/bin/env python3
"""Times the ground that the built `ground_cases` makes of large repair problems, by how many premises, atoms and
literals it has.

usage: bench/ground_cost.py [--instructions] [COPIES..]    (100 1000 where none is given)

The customer documents of `examples/customers` have 40 triples and eight offers. Data and offers are copied so many
times, with names of its own for each copy, and grounded against the shapes of the example. Last comes a star over a chain of 60 nodes, of whose paths each node has two steps: it has
10,620 levels and middles. Prints the processor seconds and the peak memory of the whole program (the fewest and the
least of three runs), its start and the reading of the documents included, what of it reading takes (the same data and
offers with an empty shapes graph), and by how much the seconds less reading grow from one size to the next; with
`--instructions` the instructions of one run in place of seconds and memory. Exit status 1 where a run fails, a
ground isn't so many copies of that of one, a star has another number of levels and middles, a size of 100 copies
takes more than 2 seconds, or of 1,000 more than 20 seconds or 2 GiB, or a growth by ten is more than 13-fold.
"""
import os
import re
import subprocess
import sys
import tempfile

from instructions import counted

TOP = os.path.dirname(os.path.dirname(os.path.abspath(__file__)))
PROGRAM = os.path.join(TOP, 'crates', 'ground_cases', 'out', 'ground_cases')
EXAMPLE = os.path.join(TOP, 'examples', 'customers')
CASES = os.path.join(TOP, 'crates', 'ground_cases', 'data', 'cases.txt')
STAR = '== a star over 60 nodes'
STAR_ATOMS = 10620
RUNS = 3
MOST_SECONDS = {100: 2.0, 1000: 20.0}
MOST_MIB = 2048
MOST_GROWTH = 1.3
# what is renamed: the customers, employees and orders, and no class or property
NAME = re.compile(r'<http://example\.org/([ceo]\d)>')
COUNTS = re.compile(r'premises (\d+), atoms (\d+), of them levels and middles (\d+), literals (\d+)\n')


def example(name):
    with open(os.path.join(EXAMPLE, name), encoding='utf-8') as read:
        return ''.join(line for line in read if line.strip() and not line.startswith('#'))


def copies(text, count):
    """The text so many times, with names of its own for each copy."""
    return ''.join(NAME.sub(rf'<http://example.org/\1-{i}>', text) for i in range(count))


def case(shapes, data, offers):
    return f'== case\n{shapes}-- data\n{data}-- offered\n{offers}-- counts\n'


def star():
    """The case of the star among the cases of the program."""
    with open(CASES, encoding='utf-8') as read:
        text = read.read()
    at = text.index(STAR)
    return text[at:text.index('\n== ', at) + 1]


def timed(name):
    """The status, the output, the processor seconds and the peak memory in MiB of one run."""
    with tempfile.TemporaryFile() as out:
        process = subprocess.Popen([PROGRAM, name], stdout=out, stderr=subprocess.DEVNULL)
        _, state, used = os.wait4(process.pid, 0)
        out.seek(0)
        return os.waitstatus_to_exitcode(state), out.read(), used.ru_utime + used.ru_stime, used.ru_maxrss / 1024


def run(name, counts):
    """The numbers of a ground, and the fewest seconds and the least memory of some runs, or the instructions."""
    if counts:
        done, taken = counted([PROGRAM, name])
        status, said, memory = done.returncode, done.stdout, 0
    else:
        runs = [timed(name) for _ in range(RUNS)]
        (status, said), taken, memory = runs[0][:2], min(r[2] for r in runs), min(r[3] for r in runs)
    found = COUNTS.search(said.decode() if isinstance(said, bytes) else said)
    if status != 0 or not found:
        sys.exit(f'ground_cases ended with status {status}')
    return tuple(map(int, found.groups())), taken, memory


def measure(folder, shapes, data, offers, counts):
    """The numbers of a ground, what making it takes, and what of it reading takes."""
    name = os.path.join(folder, 'case.txt')
    results = []
    for used in (shapes, ''):
        with open(name, 'w', encoding='utf-8') as out:
            out.write(case(used, data, offers))
        results.append(run(name, counts))
    (numbers, taken, memory), (_, reading, _) = results
    return numbers, taken, memory, reading


def amount(taken, memory, reading, counts):
    if counts:
        return f'{taken / 1e6:.1f} million instructions, of which reading {reading / 1e6:.1f}'
    return f'{taken:.2f} s, {memory:.0f} MiB, of which reading {reading:.2f} s'


def customers(folder, sizes, counts):
    """Prints the lines of the sizes, and answers whether all is as wanted."""
    shapes, data, offers = (example(name) for name in ('shapes.nt', 'data.nt', 'offered.nt'))
    small = [measure(folder, shapes, copies(data, k), copies(offers, k), counts)[0] for k in (2, 3)]
    step = [b - a for a, b in zip(*small)]
    right, before = True, None
    for count in sizes:
        many = copies(data, count), copies(offers, count)
        numbers, taken, memory, reading = measure(folder, shapes, *many, counts)
        wanted = tuple(a + d * (count - 2) for a, d in zip(small[0], step))
        triples = sum(text.count('\n') for text in many)
        print(f'{count} copies, {triples} triples and offers: {numbers[0]} premises, {numbers[1]} atoms, '
              f'{numbers[3]} literals in {amount(taken, memory, reading, counts)}', flush=True)
        if numbers != wanted:
            right = False
            print(f'  BUT WANTED {wanted}')
        if not counts and (taken > MOST_SECONDS.get(count, taken) or count == 1000 and memory > MOST_MIB):
            right = False
            print('  TOO MUCH')
        if before:
            growth, more = (taken - reading) / before[1], count / before[0]
            print(f'  growth {growth:.1f}-fold for {more:.0f} times the copies')
            right = right and growth <= MOST_GROWTH * more
        before = count, taken - reading
    return right


def main():
    words = sys.argv[1:]
    counts = '--instructions' in words
    sizes = [int(word) for word in words if not word.startswith('--')] or [100, 1000]
    with tempfile.TemporaryDirectory() as folder:
        right = customers(folder, sizes, counts)
        name = os.path.join(folder, 'star.txt')
        with open(name, 'w', encoding='utf-8') as out:
            out.write(star())
        numbers, taken, memory = run(name, counts)
        said = f'{taken / 1e6:.1f} million instructions' if counts else f'{taken:.2f} s, {memory:.0f} MiB'
        print(f'a star over 60 nodes: {numbers[2]} levels and middles, {numbers[0]} premises in {said}')
        right = right and numbers[2] == STAR_ATOMS
    sys.exit(0 if right else 1)


main()
