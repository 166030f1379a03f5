#!/usr/bin/env python3
"""Times the built program on large documents of Turtle, beside N-Triples.

usage: bench/turtle_cost.py [--instructions]

Each document is the data of `validate` with shapes that are empty, so that little but its reading is timed:

`typical`      400,000 triples with prefixed names, `;` and `,`, and the same graph as N-Triples: Turtle takes at most 1.5
               times as much in all. By the byte it takes more, since a triple of Turtle has a quarter of the bytes: that
               ratio is printed and not judged. `apply` has to write the same text of both.
`prefixes`     prefixes that are declared again and again, with a triple behind each declaration
`collection`   one collection
`brackets`     statements of 128 brackets inside one another
`depth`        as many statements of 16 and of 128 brackets inside one another

Prints the processor seconds of each (the fewest of three runs) and by the byte, and of all but the first by how much they
and the documents grow; with `--instructions` the instructions in place of the seconds, from one run each. Exit status 1
where an answer is wrong, where Turtle takes more than it may, or where seconds or instructions by the byte grow by half or
more.
"""
import os
import resource
import subprocess
import sys
import tempfile

from instructions import counted

TOP = os.path.dirname(os.path.dirname(os.path.abspath(__file__)))
PROGRAM = os.path.join(TOP, 'crates', 'shacl_explain', 'out', 'shacl_explain')
NO_CHANGE = 'explanation 1\nclaim pair\nchain\nrule undo 0\nend\n'
PREFIXES = {'ex': 'http://example.org/', 'rdfs': 'http://www.w3.org/2000/01/rdf-schema#'}
MOST_IN_ALL = 1.5
MOST_GROWTH = 1.5


def iri(name):
    """The IRI of a prefixed name, as N-Triples writes it."""
    prefix, local = name.split(':')
    return f'<{PREFIXES[prefix]}{local}>'


def typical(count):
    """Customers of eight triples each, as Turtle and as N-Triples."""
    turtle = [f'@prefix {name}: <{start}> .\n' for name, start in PREFIXES.items()]
    lines = []
    for i in range(count // 8):
        who = f'ex:customer{i}'
        mails = [f'"c{i}@example.org"', f'"c{i}@example.com"']
        labels = [f'"Customer {i}"@en', f'"Kunde {i}"@de']
        knows = [f'ex:customer{i * 7 % count}', f'ex:customer{i * 11 % count + count}']
        turtle.append(f'{who} a ex:Customer ;\n  ex:mail {", ".join(mails)} ;\n  rdfs:label {", ".join(labels)} ;\n'
                      f'  ex:knows {", ".join(knows)} ;\n  ex:orders {i} .\n')
        parts = [('<http://www.w3.org/1999/02/22-rdf-syntax-ns#type>', [iri('ex:Customer')]), (iri('ex:mail'), mails),
                 (iri('rdfs:label'), labels), (iri('ex:knows'), [iri(name) for name in knows]),
                 (iri('ex:orders'), [f'"{i}"^^<http://www.w3.org/2001/XMLSchema#integer>'])]
        lines += [f'{iri(who)} {predicate} {value} .\n' for predicate, values in parts for value in values]
    return ''.join(turtle), ''.join(lines)


def nested(count, depth):
    return ''.join(f'<a:s{i}> <a:p> {"[ <a:p> " * depth}1{" ]" * depth} .\n' for i in range(count))


# of each kind a smaller and a larger document
KINDS = {
    'prefixes': [''.join(f'@prefix p{i % 10}: <http://example.org/{i}/> .\np{i % 10}:s <a:p> p{i % 10}:o .\n'
                         for i in range(n)) for n in (10_000, 100_000)],
    'collection': [f'<a:s> <a:p> ( {"1 " * n}) .\n' for n in (100_000, 1_000_000)],
    'brackets': [nested(n, 128) for n in (100, 1_000)],
    'depth': [nested(1_000, 16), nested(1_000, 128)],
}


def seconds_of_children():
    """The processor seconds of all finished processes."""
    used = resource.getrusage(resource.RUSAGE_CHILDREN)
    return used.ru_utime + used.ru_stime


def timed(words, folder):
    """The finished process, and the fewest processor seconds of three runs."""
    seconds = []
    for _ in range(3):
        before = seconds_of_children()
        done = subprocess.run(words, cwd=folder, capture_output=True, check=False)
        seconds.append(seconds_of_children() - before)
    return done, min(seconds)


def measured(folder, name, text, counts):
    """What the reading of the document takes, by the byte too, and whether it was read."""
    with open(os.path.join(folder, name), 'w', encoding='utf-8') as out:
        out.write(text)
    words = [PROGRAM, 'validate', 'none.nt', name]
    done, taken = counted(words, folder) if counts else timed(words, folder)
    return taken, taken / len(text.encode('utf-8')), done.returncode == 0


def try_typical(folder, counts):
    """Times one graph in both formats, and tells whether all is as it should be."""
    turtle, lines = typical(400_000)
    of_turtle, of_lines = (measured(folder, name, text, counts) for name, text in (('d.ttl', turtle), ('d.nt', lines)))
    written = [subprocess.run([PROGRAM, 'apply', name, 'e.txt'], cwd=folder, capture_output=True, check=False).stdout
               for name in ('d.ttl', 'd.nt')]
    in_all, by_byte = (of_turtle[i] / of_lines[i] if of_lines[i] else float('nan') for i in (0, 1))
    right = of_turtle[2] and of_lines[2] and written[0] == written[1] != b'' and in_all <= MOST_IN_ALL
    shown = 'd' if counts else '.3f'
    print(f'typical    Turtle {len(turtle):,} bytes {of_turtle[0]:{shown}}, '
          f'N-Triples {len(lines):,} bytes {of_lines[0]:{shown}}: '
          f'{in_all:.2f} times as much in all, {by_byte:.2f} by the byte{"" if right else "  WRONG"}')
    return right


def try_kind(folder, kind, counts):
    """Times the two documents of a kind, and tells whether all is as it should be."""
    small, large = KINDS[kind]
    first, second = (measured(folder, 'd.ttl', text, counts) for text in (small, large))
    growth = second[1] / first[1] if first[1] else float('nan')
    right = first[2] and second[2] and not growth >= MOST_GROWTH
    shown = 'd' if counts else '.3f'
    print(f'{kind:10} {len(small):,} bytes {first[0]:{shown}}, {len(large):,} bytes {second[0]:{shown}}: '
          f'{growth:.2f} times as much by the byte{"" if right else "  WRONG"}')
    return right


def main(counts):
    """Whether all is as it should be."""
    with tempfile.TemporaryDirectory() as folder:
        for name, text in (('none.nt', ''), ('e.txt', NO_CHANGE)):
            with open(os.path.join(folder, name), 'w', encoding='ascii') as out:
                out.write(text)
        return all([try_typical(folder, counts)] + [try_kind(folder, kind, counts) for kind in KINDS])


if __name__ == '__main__':
    if not os.path.exists(PROGRAM):
        sys.exit(f'{PROGRAM} is not built: run `rt ci shacl_explain` or `rt run` in its folder')
    sys.exit(0 if main(sys.argv[1:] == ['--instructions']) else 1)
