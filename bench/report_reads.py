#!/usr/bin/env python3
"""Has `rapper` (Debian's raptor2-utils) read the reports that the built program writes, as N-Triples.

usage: bench/report_reads.py [SHAPES DATA]    (the documents of examples/customers where none is given)

Validates, gives the report to `rapper -i ntriples`, and compares how many triples it reads with how many lines the
report has. Says so and ends with 0 where `rapper` is not installed. Exit status 1 where it refuses the report, or
reads another number of triples.
"""
import os
import re
import shutil
import subprocess
import sys
import tempfile

TOP = os.path.dirname(os.path.dirname(os.path.abspath(__file__)))
PROGRAM = os.path.join(TOP, 'crates', 'shacl_explain', 'out', 'shacl_explain')
EXAMPLE = os.path.join(TOP, 'examples', 'customers')


def main():
    words = sys.argv[1:] or [os.path.join(EXAMPLE, 'shapes.nt'), os.path.join(EXAMPLE, 'data.nt')]
    if len(words) != 2:
        sys.exit(__doc__)
    if not os.path.exists(PROGRAM):
        sys.exit(f'{PROGRAM} is not built: run rt ci or ./shacl-explain once')
    if not shutil.which('rapper'):
        print('rapper is not installed: nothing was tried')
        return 0
    report = subprocess.run([PROGRAM, 'validate', *words], capture_output=True, check=False).stdout
    with tempfile.NamedTemporaryFile(suffix='.nt') as file:
        file.write(report)
        file.flush()
        read = subprocess.run(['rapper', '-i', 'ntriples', '-c', file.name], capture_output=True, check=False)
    said = read.stderr.decode('utf-8', 'replace')
    counted = re.search(r'returned (\d+) triple', said)
    wanted = report.count(b'\n')
    right = read.returncode == 0 and counted is not None and int(counted.group(1)) == wanted
    print(f'{wanted} lines; rapper: {said.strip().splitlines()[-1] if said.strip() else "nothing"}')
    return 0 if right else 1


if __name__ == '__main__':
    sys.exit(main())
