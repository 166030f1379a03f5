#!/usr/bin/env python3
"""Times the built `solver_cases` on sets of clauses, and tries its answers.

usage: bench/solver_cost.py [--drawn]

Times pigeons that are to be put into one hole less, and drawn clauses of three literals over 60 variables, 258 of them
(4.3 for each variable). Prints for each how the search ended, after how many steps, and the processor seconds, in which
the checker of steps has gone over the log too. With `--drawn` tries 400 drawn sets of clauses over twelve variables
instead, whose answers are found by trying all assignments. Exit status 1 where an answer is wrong: a search that ends
otherwise than the clauses ask, a log that the checker refuses, or no model.
"""
import itertools
import os
import random
import resource
import subprocess
import sys
import tempfile

TOP = os.path.dirname(os.path.dirname(os.path.abspath(__file__)))
PROGRAM = os.path.join(TOP, 'crates', 'solver_cases', 'out', 'solver_cases')
PIGEONS = range(5, 9)
DRAWN = 5


def pigeons(count):
    """So many pigeons, each in one of the holes, of which there is one less, and no two in one."""
    holes = count - 1
    in_hole = [[pigeon * holes + hole + 1 for hole in range(holes)] for pigeon in range(count)]
    pairs = itertools.combinations(range(count), 2)
    return in_hole + [[-in_hole[a][hole], -in_hole[b][hole]] for a, b in pairs for hole in range(holes)]


def drawn(seed, variables, clauses):
    """So many clauses of three literals over so many variables."""
    choice = random.Random(seed)
    numbers = range(1, variables + 1)
    return [[v if choice.random() < 0.5 else -v for v in choice.sample(numbers, 3)] for _ in range(clauses)]


def is_satisfiable(clauses, variables):
    """By trying all assignments."""
    return any(all(any((lit > 0) == signs[abs(lit) - 1] for lit in clause) for clause in clauses)
               for signs in itertools.product((False, True), repeat=variables))


def solved(cases):
    """What the program says of the cases, four lines each, and its processor seconds."""
    with tempfile.NamedTemporaryFile('w', suffix='.txt') as text:
        for name, clauses in cases:
            text.write(f'== {name}\n')
            text.writelines(' '.join(map(str, clause)) + ' 0\n' for clause in clauses)
        text.flush()
        before = resource.getrusage(resource.RUSAGE_CHILDREN).ru_utime
        done = subprocess.run([PROGRAM, text.name], capture_output=True, text=True, check=False)
        seconds = resource.getrusage(resource.RUSAGE_CHILDREN).ru_utime - before
    lines = done.stdout.splitlines()
    return [lines[k:k + 4] for k in range(0, len(lines), 4)], seconds


def is_right(answer, satisfiable):
    """Whether the answer is what the clauses ask, and shown; where it isn't known what they ask, `None` stands."""
    if len(answer) != 4:
        return False
    _, ended, checker, values = answer
    found = ended.startswith('model ')
    if satisfiable is not None and found != satisfiable:
        return False
    if found:
        return values not in ('values: none', 'values: no model')
    return ended.startswith('refuted ') and checker == 'checker: a refutation'


def try_drawn():
    """The number of wrong answers among drawn sets of clauses."""
    cases = [(f'drawn {seed}', drawn(seed, 12, 40 + seed % 25)) for seed in range(400)]
    answers, _ = solved(cases)
    wrong = [case for case, answer in itertools.zip_longest(cases, answers)
             if answer is None or not is_right(answer, is_satisfiable(case[1], 12))]
    print(f'{len(cases)} drawn sets of clauses, {len(wrong)} wrong answers')
    return len(wrong)


def time_all():
    """The number of wrong answers among the timed sets of clauses."""
    cases = [(f'{n} pigeons into {n - 1}', pigeons(n), False) for n in PIGEONS]
    cases += [(f'60 variables, 258 clauses, drawn {seed}', drawn(seed, 60, 258), None) for seed in range(DRAWN)]
    wrong = 0
    for name, clauses, satisfiable in cases:
        answers, seconds = solved([(name, clauses)])
        right = len(answers) == 1 and is_right(answers[0], satisfiable)
        wrong += not right
        print(f'{name:40} {answers[0][1] if answers else "no answer":28} {seconds:8.2f} s{"" if right else "  WRONG"}')
    return wrong


if __name__ == '__main__':
    if not os.path.exists(PROGRAM):
        sys.exit(f'{PROGRAM} is not built: run `rt ci solver_cases` or `rt run` in its folder')
    sys.exit(1 if (try_drawn() if sys.argv[1:] == ['--drawn'] else time_all()) else 0)
