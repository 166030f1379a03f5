#!/usr/bin/env python3
"""Times the built program on large N-Triples data.

usage: bench/large_data.py [people TRIPLES..] [customers COPIES..]
       (people 20000 200000 customers 1000 10000 where no word is given)

`people` are triples of people in that number; `customers` are the data of a small shop with 40 triples,
copied so many times under names of their own. Each is written as it is made (one person or one copy
after another), in sorted and in shuffled order. `validate` reads it with an empty shapes graph, so what is
timed is reading, parsing and sorting. `apply` reads it with a document that
deletes every third triple and adds as many, and writes the edited graph. Where `rapper` (Debian's
raptor2-utils) is installed, it reads the same file in the same run and counts its triples; it doesn't
sort them. Prints the seconds and the peak memory of each process, the least of three runs.
"""
import os
import random
import resource
import shutil
import subprocess
import sys
import tempfile
import time

TOP = os.path.dirname(os.path.dirname(os.path.abspath(__file__)))
PROGRAM = os.path.join(TOP, 'crates', 'shacl_explain', 'out', 'shacl_explain')
DONE = 0


def lines(count):
    """Triples of people: a name, an age and a friend, with escapes and other alphabets among them."""
    made = []
    for i in range(count):
        person = f'<http://example.org/people/{i // 3:07d}>'
        kind = i % 3
        if kind == 0:
            made.append(f'{person} <http://example.org/name> "Zo\u00eb \\"{i}\\""@en .\n')
        elif kind == 1:
            made.append(f'{person} <http://example.org/age> "{i % 97}"^^<http://www.w3.org/2001/XMLSchema#integer> .\n')
        else:
            made.append(f'{person} <http://example.org/knows> <http://example.org/people/{(i * 7919) % count:07d}> .\n')
    return made


CUSTOMERS = """
c1 a Customer ; name "Ada" ; mail "ada@x" ; label "Ada"@en ; country "AT" ; manager e1 .
c2 a Customer ; mail "bo@x" , "bo2@x" ; label "Bo"@en ; country "DE" ; manager e1 .
c3 a Customer ; name "Cy" ; mail "cy@x" ; label "Cy"@en , "Zy"@en ; country "CH" ; manager e2 .
c4 a Customer ; name "Di" ; mail "di@x" ; label "Di"@de ; country "FR" ; manager e2 .
e1 a Employee ; age 41 ; name "Eve" .
e2 a Employee ; age 17 ; name "Flo" .
o1 a Order ; buyer c1 ; total 3 .
o2 a Order ; buyer c2 ; total 5 .
o3 a Order ; buyer c4 ; total 2 .
"""
PREDICATES = {'a': '<http://www.w3.org/1999/02/22-rdf-syntax-ns#type>', 'label': '<http://www.w3.org/2000/01/rdf-schema#label>'}
CLASSES = ('Customer', 'Employee', 'Order')


def shop(number):
    """The lines of the shop, its customers, employees and orders named for this copy."""
    def term(word):
        if word.startswith('"'):
            return word
        if word.isdigit():
            return f'"{word}"^^<http://www.w3.org/2001/XMLSchema#integer>'
        return f'<http://example.org/{word}>' if word in CLASSES else f'<http://example.org/{word}-{number}>'

    for line in CUSTOMERS.strip().splitlines():
        subject, rest = line.removesuffix(' .').split(' ', 1)
        for part in rest.split(' ; '):
            predicate, objects = part.split(' ', 1)
            for object_ in objects.split(' , '):
                yield f'{term(subject)} {PREDICATES.get(predicate, f"<http://example.org/{predicate}>")} {term(object_)} .\n'


def customers(copies):
    """The shop, so many times."""
    return [line for number in range(copies) for line in shop(number)]


def place_of(line):
    """What triples are ordered by, of a line whose subject and predicate are IRIs."""
    subject, predicate, rest = line.removesuffix(' .\n').split(' ', 2)
    if rest.startswith('<'):
        return subject[1:-1], predicate[1:-1], 0, rest[1:-1]
    lexical, kind = rest[1:].rsplit('"', 1)
    datatype, tag = ('http://www.w3.org/1999/02/22-rdf-syntax-ns#langString', kind[1:]) if kind.startswith('@') else (
        kind[3:-1] or 'http://www.w3.org/2001/XMLSchema#string', '')
    return subject[1:-1], predicate[1:-1], 1, lexical, datatype, tag


def repair(made):
    """A document that deletes every third of the sorted triples, and adds as many, under another name."""
    deletes = sorted(made, key=place_of)[::3]
    adds = sorted((line.replace('<http://example.org/', '<http://example.org/new/', 1) for line in deletes), key=place_of)
    changes = [f'add {line}' for line in adds] + [f'delete {line}' for line in deletes]
    return ''.join(['explanation 1\n', 'claim pair\n', *changes, 'chain\n', 'end\n'])


def least_of(argv, runs=3):
    """The status, and the least seconds and peak memory of some runs."""
    measured = [peak_of(argv) for _ in range(runs)]
    return measured[0][0], min(m[1] for m in measured), min(m[2] for m in measured)


def peak_of(argv):
    """Status, seconds and peak memory in MiB of one run, measured in a child that only waits for it."""
    reader, writer = os.pipe()
    child = os.fork()
    if child == 0:
        started = time.monotonic()
        done = subprocess.run(argv, stdout=subprocess.DEVNULL, stderr=subprocess.DEVNULL)
        seconds = time.monotonic() - started
        peak = resource.getrusage(resource.RUSAGE_CHILDREN).ru_maxrss / 1024
        os.write(writer, f'{done.returncode} {seconds} {peak}'.encode())
        os._exit(0)
    os.waitpid(child, 0)
    os.close(writer)
    status, seconds, peak = os.read(reader, 200).split()
    os.close(reader)
    return int(status), float(seconds), float(peak)


def parse_words(words):
    """The kinds and numbers of the command line."""
    kinds = {'people': lines, 'customers': customers}
    kind = None
    for word in words or 'people 20000 200000 customers 1000 10000'.split():
        if word in kinds:
            kind = word
        elif kind and word.isdigit():
            yield kind, kinds[kind], int(word)
        else:
            sys.exit(__doc__)


def main():
    work = list(parse_words(sys.argv[1:]))
    if not os.path.exists(PROGRAM):
        sys.exit(f'{PROGRAM} is not built: run ./shacl-explain once')
    with tempfile.TemporaryDirectory() as folder:
        empty, data, claimed = (os.path.join(folder, name) for name in ('empty.nt', 'data.nt', 'repair.txt'))
        open(empty, 'w').close()
        for kind, make, count in work:
            made = make(count)
            with open(claimed, 'w', encoding='utf-8') as out:
                out.write(repair(made))
            for order in ('as made', 'sorted', 'shuffled'):
                if order == 'sorted':
                    made.sort(key=place_of)
                if order == 'shuffled':
                    random.Random(1).shuffle(made)
                with open(data, 'w', encoding='utf-8') as out:
                    out.writelines(made)
                size = os.path.getsize(data) / 2 ** 20
                runs = [('validate', [PROGRAM, 'validate', empty, data], DONE),
                        ('apply', [PROGRAM, 'apply', data, claimed], DONE)]
                if shutil.which('rapper'):
                    runs.append(('rapper', ['rapper', '-q', '-c', '-i', 'ntriples', data], DONE))
                for name, argv, wanted in runs:
                    status, seconds, peak = least_of(argv)
                    note = '' if status == wanted else f', UNEXPECTED STATUS {status}'
                    print(f'{kind} {count}, {len(made)} triples, {size:.1f} MiB, {order}: '
                          f'{name} {seconds:.2f} s, {peak:.0f} MiB{note}', flush=True)


if __name__ == '__main__':
    main()
