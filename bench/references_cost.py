#!/usr/bin/env python3
"""Times the built `reference_cases` on references whose paths have many dot segments, and tries its answers.

usage: bench/references_cost.py [--instructions]

Resolves a reference of each of these kinds against one base, at 100,000 and at 1,000,000 dot segments:

`up`        segments `..` alone, far more than the base has
`there`     as many names, and then as many segments `..`
`turns`     a name and a `..` behind it, again and again
`long`      one name as long as all of these, and a `..` behind it
`stays`     segments `.` alone

Prints the processor seconds of each (the fewest of three runs), and by how much they and the references grow; with
`--instructions` the instructions in place of the seconds, from one run each. Exit status 1 where an answer is wrong.
"""
import os
import resource
import subprocess
import sys
import tempfile

from instructions import counted

TOP = os.path.dirname(os.path.dirname(os.path.abspath(__file__)))
PROGRAM = os.path.join(TOP, 'crates', 'reference_cases', 'out', 'reference_cases')
BASE = 'http://example.org/a/b/c?q'
SIZES = 100_000, 1_000_000
# each reference of a kind, and the path that it leads to
KINDS = {
    'up': lambda n: ('../' * n + 'g', '/g'),
    'there': lambda n: ('x/' * n + '../' * n + 'g', '/a/b/g'),
    'turns': lambda n: ('x/../' * n + 'g', '/a/b/g'),
    'long': lambda n: ('x' * 5 * n + '/../g', '/a/b/g'),
    'stays': lambda n: ('./' * n + 'g', '/a/b/g'),
}


def seconds_of_children():
    """The processor seconds of all finished processes."""
    used = resource.getrusage(resource.RUSAGE_CHILDREN)
    return used.ru_utime + used.ru_stime


def timed(folder):
    """The finished process, and the fewest processor seconds of three runs."""
    seconds = []
    for _ in range(3):
        before = seconds_of_children()
        done = subprocess.run([PROGRAM, 'cases.txt'], cwd=folder, capture_output=True, check=False)
        seconds.append(seconds_of_children() - before)
    return done, min(seconds)


def measure(kind, count, counts):
    """The bytes of the reference, what it takes to resolve it, and whether the answer is right."""
    reference, path = KINDS[kind](count)
    with tempfile.TemporaryDirectory() as folder:
        with open(os.path.join(folder, 'cases.txt'), 'w', encoding='ascii') as out:
            out.write(f'== {BASE}\n{reference}\n')
        done, taken = counted([PROGRAM, 'cases.txt'], folder) if counts else timed(folder)
    wanted = f'== {BASE}\n<{reference}> is <http://example.org{path}>\n'
    return len(reference), taken, done.stdout.decode('utf-8', 'replace') == wanted


def main(counts):
    """The number of wrong answers."""
    wrong = 0
    for kind in KINDS:
        small, large = (measure(kind, count, counts) for count in SIZES)
        right = small[2] and large[2]
        wrong += not right
        unit, shown = ('instructions', 'd') if counts else ('s', '.3f')
        growth = large[1] / small[1] if small[1] else float('nan')
        print(f'{kind:8} {large[0]:>9,} bytes {large[1]:12{shown}} {unit}, {growth:.1f} times as much for '
              f'{large[0] / small[0]:.1f} times as many bytes{"" if right else "  WRONG"}')
    return wrong


if __name__ == '__main__':
    if not os.path.exists(PROGRAM):
        sys.exit(f'{PROGRAM} is not built: run `rt ci reference_cases` or `rt run` in its folder')
    sys.exit(1 if main(sys.argv[1:] == ['--instructions']) else 0)
