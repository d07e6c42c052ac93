"""What the scripts of tests/ share: the program and a sample, how the program is run, and how a script ends.

A script takes the program as its first argument (else bin/mrep) and numbers after it. It has the name of its folder."""

import os
import shutil
import subprocess
import sys

try:
    import sqlite3
except ImportError:
    sqlite3 = None

ROOT = os.path.abspath(os.path.join(os.path.dirname(os.path.abspath(__file__)), '..', '..'))
PROGRAM = os.path.abspath(sys.argv[1]) if len(sys.argv) > 1 else f'{ROOT}/bin/mrep'
NAME = os.path.basename(os.path.dirname(os.path.abspath(sys.argv[0])))
# A folder in memory, where there is one.
MEMORY = '/dev/shm' if os.access('/dev/shm', os.W_OK) else None
# The files beside a database that can be there, and its own.
SUFFIXES = ('', '-wal', '-shm')


class Wrong(Exception):
    """What the program did that it should not."""


def fail(text):
    raise Wrong(text)


def same(what, got, want):
    if got != want:
        raise Wrong(f'{what}:\n{got}\nand not\n{want}')


def content(name):
    with open(name, 'rb') as file:
        return file.read()


def write(name, data):
    with open(name, 'wb') as file:
        file.write(data)
    return name


def argument(place, usual):
    """The number that is the script's argument at this place, else the usual one."""
    return int(sys.argv[place]) if len(sys.argv) > place else usual


# The sample: one transaction of A that inserts (7, "ab") twice into shop.items. It begins with a greeting and two OKs.
SAMPLE = f'{ROOT}/samples/s1.bin'
S1 = content(SAMPLE)
OPENING = S1[:100]
A = '3e11fa47-71ca-11e1-9e33-c80aa9429562'


def done(*words, program=PROGRAM, data=b'', **how):
    """A run of the program, which reads the data, with what it wrote to standard output and to standard error."""
    given = {'input': data} if data else {'stdin': subprocess.DEVNULL}
    return subprocess.run([program, *words], **given, stdout=subprocess.PIPE, stderr=subprocess.PIPE, check=False, **how)


def run(*words, **how):
    """The status of a run, and what it wrote."""
    ran = done(*words, **how)
    return ran.returncode, ran.stdout.decode(errors='replace'), ran.stderr.decode(errors='replace')


def ended(*words, status=0):
    """What a run that ends with this status wrote to standard output and to standard error."""
    got = run(*words)
    if got[0] != status:
        raise Wrong(f'{" ".join(words)} ends with {got[0]}: {got[2]}')
    return got[1:]


def printed(*words, status=0):
    """What a run that ends with this status wrote: to standard output if it is 0, else to standard error."""
    return ended(*words, status=status)[1 if status else 0]


def remove(db):
    """Removes a database and what lies beside it. Answers its name."""
    for suffix in SUFFIXES:
        if os.path.exists(db + suffix):
            os.remove(db + suffix)
    return db


def copy(db, to):
    """Copies the files of a database that may be open. Answers the name of the copy."""
    remove(to)
    for suffix in ('', '-wal'):
        if os.path.exists(db + suffix):
            shutil.copyfile(db + suffix, to + suffix)
    return to


def compiled(source, library, *words):
    """Builds a library of a C file. Why it is not built, or None."""
    compiler = shutil.which('cc') or shutil.which('gcc') or shutil.which('clang')
    if not compiler:
        return 'there is no C compiler'
    built = subprocess.run([compiler, '-shared', '-fPIC', '-O1', '-o', library, source, *words], stdout=subprocess.PIPE, stderr=subprocess.PIPE, check=False)
    return f'the C compiler does not build {os.path.basename(source)}' if built.returncode else None


def say(text):
    print(f'{NAME}: {text}', flush=True)


def skip_without_sqlite3():
    if sqlite3 is None:
        say('skipped, since this python3 has no sqlite3')
        sys.exit(0)


def script(main):
    """Runs a script, which answers what it has shown."""
    try:
        say(main())
    except Wrong as wrong:
        say(str(wrong)[:10_000])
        sys.exit(1)
