#!/usr/bin/env python3
"""Tries the lines of shell by which the README turns a document into N-Triples, an RDF Patch and a SPARQL Update.

usage: bench/try_repair_lines.py

The lines are taken from the README and run over each document `repair.txt` of the examples. What they make of the data
is compared with the data as the document edits it: read here, and, where the program is built, by its command `apply`
over the data as N-Triples and as Turtle.
Where Python's `rdflib` is installed, it carries out the update, and where `rapper` is, it reads the N-Triples. Prints a
line for each example, and ends with status 0 exactly where all is as it should be.
"""
import os
import re
import shutil
import subprocess
import sys
import tempfile

TOP = os.path.dirname(os.path.dirname(os.path.abspath(__file__)))
PROGRAM = os.path.join(TOP, 'crates', 'shacl_explain', 'out', 'shacl_explain')
EXAMPLES = os.path.join(TOP, 'examples')
UPDATE = re.compile(r'DELETE DATA \{\n(.*?)\} ;\nINSERT DATA \{\n(.*?)\}\n', re.DOTALL)


def read(*path):
    with open(os.path.join(*path), encoding='utf-8') as file:
        return file.read()


def triples(text):
    """The lines of triples of N-Triples."""
    return {line for line in text.split('\n') if line and not line.startswith('#')}


def shell_lines():
    """The lines of shell of the README's section, which are indented behind its items."""
    section = read(TOP, 'README.md').split('### Hand a repair on\n')[1].split('\n### ')[0]
    return [line.strip() for line in section.split('\n') if line.startswith('      ')]


def patched(data, text):
    """The data after an RDF Patch of one transaction."""
    rows = text.split('\n')
    assert rows[0] == 'TX .' and rows[-2:] == ['TC .', ''], rows
    made = set(data)
    for row in rows[1:-2]:
        kind, line = row.split(' ', 1)
        assert kind in ('A', 'D') and line.endswith(' .'), row
        assert (line in made) == (kind == 'D'), row
        made = made - {line} if kind == 'D' else made | {line}
    return made


def updated(data, text):
    """The data after the update: first the deletions."""
    found = UPDATE.fullmatch(text)
    assert found, text
    return data - triples(found.group(1)) | triples(found.group(2))


def by_rdflib(data, text):
    """What rdflib makes of the update, as sorted lines; nothing where it isn't installed."""
    try:
        import rdflib
    except ImportError:
        return None
    graph = rdflib.Graph()
    graph.parse(data='\n'.join(sorted(data)) + '\n', format='nt')
    graph.update(text)
    return triples(graph.serialize(format='nt'))


def try_example(name, folder):
    """Tries all lines in that folder, and tells how many changes there are and who judged them."""
    data = triples(read(EXAMPLES, name, 'data.nt'))
    document = read(EXAMPLES, name, 'repair.txt')
    adds, deletes = ({line[len(word):] for line in document.split('\n') if line.startswith(word)} for word in ('add ', 'delete '))
    shutil.copy(os.path.join(EXAMPLES, name, 'repair.txt'), folder)
    for line in shell_lines():
        subprocess.run(['sh', '-c', line], cwd=folder, check=True)
    wanted = data - deletes | adds
    assert triples(read(folder, 'added.nt')) == adds and triples(read(folder, 'deleted.nt')) == deletes, name
    assert patched(data, read(folder, 'repair.rdfp')) == wanted, name
    assert updated(data, read(folder, 'repair.ru')) == wanted, name
    judges = []
    if os.path.exists(PROGRAM):
        for format in ('nt', 'ttl'):
            applied = subprocess.run([PROGRAM, 'apply', os.path.join(EXAMPLES, name, f'data.{format}'), 'repair.txt'],
                                     cwd=folder, capture_output=True, check=True).stdout.decode('utf-8')
            assert triples(applied) == wanted, (name, format)
        judges.append('apply')
    made = by_rdflib(data, read(folder, 'repair.ru'))
    if made is not None:
        assert len(made) == len(wanted), name
        judges.append('rdflib')
    if shutil.which('rapper'):
        for part, lines in (('added.nt', adds), ('deleted.nt', deletes)):
            done = subprocess.run(['rapper', '-q', '-i', 'ntriples', part], cwd=folder, capture_output=True, check=True)
            assert len(triples(done.stdout.decode('utf-8'))) == len(lines), part
        judges.append('rapper')
    return f'{len(adds)} added, {len(deletes)} deleted' + (f'; also by {", ".join(judges)}' if judges else '')


def main():
    names = [name for name in sorted(os.listdir(EXAMPLES)) if os.path.exists(os.path.join(EXAMPLES, name, 'repair.txt'))]
    lines = shell_lines()
    assert names and len(lines) == 4, (names, lines)
    for name in names:
        with tempfile.TemporaryDirectory() as folder:
            print(f'{name}: {try_example(name, folder)}')
    sys.exit(0)


if __name__ == '__main__':
    main()
