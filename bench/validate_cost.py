#!/usr/bin/env python3
"""Times the built program's `validate` over many copies of the example of customers.

usage: bench/validate_cost.py [--instructions] [COPIES..]    (1000 10000 where none is given)

The data of `examples/customers` has 40 triples and five results. It is copied so many times, with names of its own
for each copy, and validated against the shapes of the example. Prints the processor seconds and the peak memory of
the whole program (the fewest and the least of three runs), its start and the reading of both documents included, what
of it reading takes (the same data with an empty shapes graph), and by how much the seconds grow from one size to the
next; with `--instructions` the instructions of one run in place of seconds and memory. Exit status 1 where the program
does not report five results for each copy.
"""
import os
import re
import subprocess
import sys
import tempfile

from instructions import counted

TOP = os.path.dirname(os.path.dirname(os.path.abspath(__file__)))
PROGRAM = os.path.join(TOP, 'crates', 'shacl_explain', 'out', 'shacl_explain')
EXAMPLE = os.path.join(TOP, 'examples', 'customers')
RESULTS = 5
RUNS = 3
# what is renamed: the customers, employees and orders, and no class or property
NAME = re.compile(r'<http://example\.org/([ceo]\d)>')


def copies(text, count):
    """The text so many times, with names of its own for each copy."""
    return ''.join(NAME.sub(rf'<http://example.org/\1-{i}>', text) for i in range(count))


def timed(shapes, data):
    """The status, the output, the processor seconds and the peak memory in MiB of one run."""
    with tempfile.TemporaryFile() as out:
        process = subprocess.Popen([PROGRAM, 'validate', shapes, data], stdout=out, stderr=subprocess.DEVNULL)
        _, state, used = os.wait4(process.pid, 0)
        out.seek(0)
        return os.waitstatus_to_exitcode(state), out.read(), used.ru_utime + used.ru_stime, used.ru_maxrss / 1024


def best(shapes, data):
    """The status and the output, and the fewest seconds and the least memory of some runs."""
    runs = [timed(shapes, data) for _ in range(RUNS)]
    return runs[0][0], runs[0][1], min(run[2] for run in runs), min(run[3] for run in runs)


def instructions(shapes, data):
    """The status and the output of a run, and its instructions."""
    done, taken = counted([PROGRAM, 'validate', shapes, data])
    return done.returncode, done.stdout, taken


def measure(folder, count, counts):
    """The seconds or instructions for so many copies, and whether the report has all results."""
    with open(os.path.join(EXAMPLE, 'data.nt'), encoding='utf-8') as read:
        text = copies(read.read(), count)
    data, empty = os.path.join(folder, 'data.nt'), os.path.join(folder, 'empty.nt')
    for name, content in ((data, text), (empty, '')):
        with open(name, 'w', encoding='utf-8') as out:
            out.write(content)
    shapes = os.path.join(EXAMPLE, 'shapes.nt')
    if counts:
        status, report, taken = instructions(shapes, data)
        _, _, reading = instructions(empty, data)
        said = f'{taken / 1e6:.1f} million instructions, of which reading {reading / 1e6:.1f}'
    else:
        status, report, taken, memory = best(shapes, data)
        _, _, reading, _ = best(empty, data)
        said = f'{taken:.2f} s, {memory:.0f} MiB, of which reading {reading:.2f} s'
    found = report.count(b'shacl#result> ')
    right = status == 1 and found == RESULTS * count
    note = '' if right else f', BUT WANTED {RESULTS * count}'
    print(f'{count} copies, {text.count(chr(10))} triples: {said}; {found} results{note}', flush=True)
    return taken, right


def main():
    words = sys.argv[1:]
    counts = words[:1] == ['--instructions']
    copied = [int(word) for word in words[counts:]] or [1000, 10000]
    if not os.path.exists(PROGRAM):
        sys.exit(f'{PROGRAM} is not built: run rt ci or ./shacl-explain once')
    with tempfile.TemporaryDirectory() as folder:
        measured = [measure(folder, count, counts) for count in copied]
    for (few, (short, _)), (many, (long, _)) in zip(zip(copied, measured), list(zip(copied, measured))[1:]):
        print(f'{few} to {many} copies: {long / max(short, 0.001):.1f} times as much')
    return 0 if all(right for _, right in measured) else 1


if __name__ == '__main__':
    sys.exit(main())
