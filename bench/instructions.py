"""Counts the instructions of a run of a program, by callgrind of valgrind: the same for the same program and input, whatever
else the machine does. Seconds grow faster where the smaller input fits in the processor's caches."""
import re
import shutil
import subprocess
import sys

COLLECTED = re.compile(r'Collected : (\d+)')


def counted(words, folder=None):
    """The finished process, and how many instructions it took."""
    if not shutil.which('valgrind'):
        sys.exit('valgrind is not installed')
    command = ['valgrind', '--tool=callgrind', '--callgrind-out-file=/dev/null', *words]
    done = subprocess.run(command, cwd=folder, capture_output=True, check=False)
    found = COLLECTED.search(done.stderr.decode('utf-8', 'replace'))
    if not found:
        sys.exit('valgrind has counted nothing')
    return done, int(found.group(1))
