#!/usr/bin/env python3
"""Tries the starter, ./shacl-explain, with a stand-in for the kit, and the built program where there is one.

usage: bench/try_starter.py

The stand-in `rt` writes a program of a few lines in the place of a proved one, after a pause. Each case
works on a small copy of the repository in a folder of its own. Prints a line a case, and ends with
status 0 exactly where all cases are as they should be.
"""
import os
import shutil
import signal
import subprocess
import sys
import tempfile
import time

TOP = os.path.dirname(os.path.dirname(os.path.abspath(__file__)))
EXAMPLE = 'claim pair\n'
PROGRAM = '''#!/bin/sh
# {mark}
if [ "$1" = explain ] && [ "$2" = shapes.nt ]; then printf 'claim pair\\n'; exit 0; fi
if [ "$1" = mark ]; then echo {mark}; exit 0; fi
if [ "$1" = cat ]; then cat; exit 0; fi
if [ "$1" = sleep ]; then exec sleep 30; fi
if [ "$1" = status ]; then echo note >&2; exit "$2"; fi
echo "$# $*"
'''
KIT = '''#!/bin/sh
if [ "$1" = version ]; then echo stand-in; exit 0; fi
echo build >>"$STAND_IN/builds"
mkdir -p out
# A part of the program is there before all of it is.
printf '#!/bin/sh\\nexit 0\\n' >out/shacl_explain; chmod +x out/shacl_explain
sleep "$(cat "$STAND_IN/pause")"
if [ -e "$STAND_IN/fails" ]; then echo the reason; exit 1; fi
cat src/main.rt >out/shacl_explain
'''


class Copy:
    """A small copy of the repository, and the stand-in for the kit that builds it."""

    def __init__(self, folder):
        self.folder = folder
        self.top = os.path.join(folder, 'a copy')
        self.kit = os.path.join(folder, 'kit')
        self.crate = os.path.join(self.top, 'crates', 'shacl_explain')
        for part in ('src', 'specs', 'proofs', 'data'):
            os.makedirs(os.path.join(self.crate, part))
        os.makedirs(self.kit)
        shutil.copy(os.path.join(TOP, 'shacl-explain'), self.top)
        for name in ('crates.txt', 'HANDLES'):
            self.write(os.path.join(self.top, name), '')
        for name in ('shapes.nt', 'data.nt', 'offered.nt'):
            self.write(os.path.join(self.crate, 'data', name), '')
        self.write(os.path.join(self.crate, 'stdout'), EXAMPLE)
        self.source('first')
        self.write(os.path.join(self.kit, 'rt'), KIT)
        os.chmod(os.path.join(self.kit, 'rt'), 0o755)
        self.pause(0)

    @staticmethod
    def write(path, text):
        with open(path, 'w', encoding='utf-8') as out:
            out.write(text)

    def source(self, mark):
        self.write(os.path.join(self.crate, 'src', 'main.rt'), PROGRAM.format(mark=mark))

    def pause(self, seconds):
        self.write(os.path.join(self.kit, 'pause'), str(seconds))

    def builds(self):
        try:
            with open(os.path.join(self.kit, 'builds'), encoding='utf-8') as lines:
                return len(lines.readlines())
        except FileNotFoundError:
            return 0

    def begin(self, *words, starter=None, cwd=None):
        env = dict(os.environ, PATH=self.kit + ':' + os.environ['PATH'], STAND_IN=self.kit)
        return subprocess.Popen([starter or os.path.join(self.top, 'shacl-explain'), *words], env=env, cwd=cwd or self.folder,
                                stdin=subprocess.PIPE, stdout=subprocess.PIPE, stderr=subprocess.PIPE, text=True)

    def start(self, *words, typed='', **kind):
        begun = self.begin(*words, **kind)
        out, notes = begun.communicate(typed, timeout=60)
        return begun.returncode, out, notes


def until(test, seconds=20):
    end = time.monotonic() + seconds
    while not test():
        if time.monotonic() > end:
            raise AssertionError('it did not come')
        time.sleep(0.02)


def builds_once_and_answers(copy):
    assert copy.start('mark')[:2] == (0, 'first\n')
    assert copy.start('mark') == (0, 'first\n', '')
    assert copy.builds() == 1


def words_streams_and_status_pass_as_they_are(copy):
    copy.start('mark')
    assert copy.start('a b', '', '*', cwd='/') == (0, '3 a b  *\n', '')
    assert copy.start('cat', typed='typed\n') == (0, 'typed\n', '')
    assert copy.start('status', '7') == (7, '', 'note\n')
    assert copy.start('--help', 'x') == (0, '2 --help x\n', '')


def help_and_version_need_no_program(copy):
    status, out, notes = copy.start('--help')
    assert (status, notes) == (0, '') and 'explain SHAPES DATA OFFERED' in out and out == copy.start('-h')[1]
    status, out, notes = copy.start('--version')
    assert (status, notes) == (0, '') and out.startswith('shacl-explain ') and copy.builds() == 0


def wrong_words_are_told_of_the_help(copy):
    copy.start('mark')
    assert copy.start('status', '2') == (2, '', "note\nsee 'shacl-explain --help'\n")


def edited_source_is_built_anew(copy):
    copy.start('mark')
    copy.source('second')
    assert copy.start('mark')[:2] == (0, 'second\n') and copy.builds() == 2


def edit_during_the_build_is_built_by_the_next_start(copy):
    copy.pause(1)
    begun = copy.begin('mark')
    until(lambda: copy.builds() == 1)
    copy.write(os.path.join(copy.crate, 'proofs', 'Lib.antt'), '-- edited\n')
    assert begun.communicate(timeout=60)[0] == 'first\n'
    copy.pause(0)
    assert copy.start('mark')[:2] == (0, 'first\n') and copy.builds() == 2


def killed_build_is_built_anew(copy):
    for end in (signal.SIGTERM, signal.SIGKILL):
        before = copy.builds()
        copy.pause(5)
        begun = copy.begin('mark')
        until(lambda: copy.builds() == before + 1)
        time.sleep(0.2)
        begun.send_signal(end)
        out, _ = begun.communicate(timeout=60)
        assert out == '' and begun.returncode != 0
        copy.pause(0)
        assert copy.start('mark')[:2] == (0, 'first\n') and copy.builds() == before + 2
        copy.source('first, again')
        copy.source('first')
        os.remove(os.path.join(copy.crate, 'out', 'shacl_explain.stamp'))


def program_that_was_cut_off_is_built_anew(copy):
    copy.start('mark')
    copy.write(os.path.join(copy.crate, 'out', 'shacl_explain'), '#!/bin/sh\nexit 0\n')
    assert copy.start('mark')[:2] == (0, 'first\n') and copy.builds() == 2


def failed_build_says_why(copy):
    copy.write(os.path.join(copy.kit, 'fails'), '')
    status, out, notes = copy.start('mark')
    assert (status, out) == (70, '') and 'the reason' in notes
    os.remove(os.path.join(copy.kit, 'fails'))
    assert copy.start('mark')[:2] == (0, 'first\n')


def program_that_fails_the_example_is_not_run(copy):
    copy.write(os.path.join(copy.crate, 'stdout'), 'another answer\n')
    status, out, _ = copy.start('mark')
    assert (status, out) == (70, '')


def two_at_once_build_once(copy):
    copy.pause(1)
    begun = [copy.begin('mark') for _ in range(3)]
    assert [b.communicate(timeout=60)[0] for b in begun] == ['first\n'] * 3
    assert copy.builds() == 1


def read_only_copy_hands_on_a_good_program(copy):
    copy.start('mark')
    other = os.path.join(copy.folder, 'read only')
    shutil.copytree(copy.top, other)
    os.remove(os.path.join(other, '.building'))
    subprocess.run(['chmod', '-R', 'a-w', other], check=True)
    before = sorted(os.listdir(other))
    try:
        assert copy.start('mark', starter=os.path.join(other, 'shacl-explain')) == (0, 'first\n', '')
        assert copy.builds() == 1 and sorted(os.listdir(other)) == before
    finally:
        subprocess.run(['chmod', '-R', 'u+w', other], check=True)


def link_and_folder_of_the_caller_do_not_matter(copy):
    link = os.path.join(copy.folder, 'a link')
    os.symlink(os.path.join(copy.top, 'shacl-explain'), link)
    assert copy.start('mark', starter=link, cwd='/')[:2] == (0, 'first\n')


def signal_ends_the_program(copy):
    copy.start('mark')
    begun = copy.begin('sleep')
    time.sleep(0.5)
    begun.send_signal(signal.SIGTERM)
    begun.communicate(timeout=10)
    assert begun.returncode == 143


def built_program_ends_with_its_status():
    """Of the real program: what a stored run of the gate, which ends with status 0, does not show."""
    program = os.path.join(TOP, 'crates', 'shacl_explain', 'out', 'shacl_explain')
    if not os.path.exists(program):
        return False
    done = subprocess.run([program], capture_output=True, text=True)
    assert (done.returncode, done.stdout, done.stderr) == (2, '', 'usage: word 0\n'), done
    done = subprocess.run([program, 'apply', '/missing/data.nt', '/missing/claim'], capture_output=True, text=True)
    assert (done.returncode, done.stdout, done.stderr) == (4, '', 'read: DATA\n'), done
    done = subprocess.run([program, b'\xff'], capture_output=True, text=True)
    assert (done.returncode, done.stdout, done.stderr) == (2, '', ''), done
    example = os.path.join(TOP, 'examples', 'nothing-offered')
    words = [os.path.join(example, name) for name in ('shapes.nt', 'data.nt', 'offered.nt')]
    done = subprocess.run([program, 'explain', *words], capture_output=True, text=True)
    assert done.returncode == 1 and 'claim none\n' in done.stdout, done
    with open('/dev/full', 'w', encoding='utf-8') as full:
        assert subprocess.run([program, 'explain', *words], stdout=full, stderr=subprocess.PIPE).returncode == 5
    return True


CASES = [
    builds_once_and_answers, words_streams_and_status_pass_as_they_are, help_and_version_need_no_program,
    wrong_words_are_told_of_the_help, edited_source_is_built_anew, edit_during_the_build_is_built_by_the_next_start,
    killed_build_is_built_anew, program_that_was_cut_off_is_built_anew, failed_build_says_why,
    program_that_fails_the_example_is_not_run, two_at_once_build_once, read_only_copy_hands_on_a_good_program,
    link_and_folder_of_the_caller_do_not_matter, signal_ends_the_program,
]


def main():
    wrong = 0
    for case in CASES:
        with tempfile.TemporaryDirectory(prefix='a starter ') as folder:
            try:
                case(Copy(folder))
                print(f'ok     {case.__name__}')
            except (AssertionError, subprocess.SubprocessError, OSError) as error:
                wrong += 1
                print(f'WRONG  {case.__name__}: {error!r} (line {error.__traceback__.tb_next.tb_lineno if error.__traceback__.tb_next else "?"})')
    tried = built_program_ends_with_its_status()
    print('ok     built_program_ends_with_its_status' if tried else 'skipped: no program is built')
    print(f'{len(CASES) + tried - wrong} as they should be, {wrong} not')
    return 1 if wrong else 0


if __name__ == '__main__':
    sys.exit(main())
