#!/usr/bin/env python3
"""Compares what `shape_cases` says of drawn shapes graphs with answers that are known.

usage: bench/profile_cases.py [--try] [FILE]    (FILE is ../shared/cases/profile.jsonl.gz where none is given)

FILE has a case a line, as JSON: `files` by name, the `words` of a call of `validate`, its `status` and its
`notes`. A case is taken where its words name the shapes graph `s.nt` and its notes don't refuse that document
as N-Triples. Notes that begin with `input: SHAPES: ` say for what cause the shapes are refused; with any other
notes they are read. All cases are written as one text, which the built program reads; with --try it is built by
`rt try`, without a proof, which takes some minutes. Prints how many cases agree and the first ten that don't.
Exit status 1 where there is one; where FILE is missing, nothing is compared.
"""
import base64
import collections
import gzip
import json
import os
import subprocess
import sys
import tempfile

TOP = os.path.dirname(os.path.dirname(os.path.abspath(__file__)))
CRATE = os.path.join(TOP, 'crates', 'shape_cases')
PROGRAM = os.path.join(CRATE, 'out', 'shape_cases')
CASES = os.path.join(os.path.dirname(TOP), 'shared', 'cases', 'profile.jsonl.gz')
SHAPES = 'input: SHAPES: '
READ = 'read'


def text_of(content):
    """The text of a file, or None where it is none."""
    if isinstance(content, str):
        return content
    try:
        return base64.b64decode(content['base64']).decode('utf-8')
    except UnicodeDecodeError:
        return None


def cause_of(notes):
    """The cause for which notes say that shapes are refused, or that they are read."""
    return notes.removeprefix(SHAPES).removesuffix('\n') if notes.startswith(SHAPES) else READ


def is_no_triples(cause):
    """Whether the cause is that a document is no N-Triples."""
    return cause.startswith(('line ', 'too long'))


def taken(lines):
    """The number, shapes graph and wanted cause of each case that is taken."""
    for number, line in enumerate(lines):
        case = json.loads(line)
        text = text_of(case['files'].get('s.nt', {'base64': '/w=='}))
        wanted = cause_of(case['notes'])
        if case['words'][:2] == ['validate', 's.nt'] and text is not None and not is_no_triples(wanted):
            yield number, text, wanted


def case_text(number, document):
    """A case as the program reads it."""
    if any(line.startswith('== ') for line in document.split('\n')):
        sys.exit(f'case {number} has a line that would begin a case')
    ended = document if document.endswith('\n') or not document else document + '\n'
    return f'== {number}\n{ended}'


def command(folder, name, tried):
    """The command that reads the text of that name in the folder, and where it is run."""
    if tried:
        return ['rt', 'try', '--seconds', '1800', '--data', f'{name}={os.path.join(folder, name)}', '--', name], CRATE
    if not os.path.exists(PROGRAM):
        sys.exit(f'{PROGRAM} is not built: run rt ci once, or give --try')
    return [PROGRAM, name], folder


def answers(text, tried):
    """What the program says for each case, by its number."""
    with tempfile.TemporaryDirectory() as folder:
        with open(os.path.join(folder, 'cases.txt'), 'w', encoding='utf-8', newline='') as out:
            out.write(text)
        argv, where = command(folder, 'cases.txt', tried)
        done = subprocess.run(argv, cwd=where, capture_output=True)
    if done.returncode != 0:
        sys.exit(done.stderr.decode('utf-8', 'replace'))
    parts = ('\n' + done.stdout.decode('utf-8')).split('\n== ')[1:]
    return {int(number): said for number, _, said in (part.partition('\n') for part in parts)}


def said_of(answer):
    """The cause of a refusal in an answer, or that the shapes are read."""
    first = answer.split('\n', 1)[0]
    return READ if first.startswith('triples ') else first


def main():
    words = [word for word in sys.argv[1:] if word != '--try']
    if len(words) > 1:
        sys.exit(__doc__)
    file = words[0] if words else CASES
    if not os.path.exists(file):
        print(f'{file} is missing: nothing is compared')
        return 0
    with gzip.open(file, 'rt', encoding='utf-8') as lines:
        cases = list(taken(lines))
    got = answers(''.join(case_text(number, document) for number, document, _ in cases), '--try' in sys.argv[1:])
    wrong = [(number, wanted, said_of(got.get(number, ''))) for number, _, wanted in cases
             if said_of(got.get(number, '')) != wanted]
    counts = collections.Counter('read' if wanted == READ else 'refused' for _, _, wanted in cases)
    print(f'{len(cases)} cases, {counts["read"]} read and {counts["refused"]} refused: '
          f'{len(cases) - len(wrong)} agree, {len(wrong)} differ')
    for number, wanted, said in wrong[:10]:
        print(f'case {number}: wanted {wanted}, said {said}')
    return 1 if wrong else 0


if __name__ == '__main__':
    sys.exit(main())
