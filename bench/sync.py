#!/usr/bin/env python3
"""What the syncs of a disk cost: a stream of transactions of one row is replayed, without a feed and with one, on disks whose syncs
take so long: files in memory (/dev/shm, where there is one), and a library that waits in fsync and fdatasync (sync.c).

    bench/sync.py PROGRAM [TRANSACTIONS [WORD..]]

TRANSACTIONS (20,000) are how many, and the words are given to `replay` too. It needs a C compiler, and prints rows of the table of
README.md, the best of RUNS runs where a sync takes less than a millisecond.
"""

import os
import subprocess
import sys
import tempfile
import time

sys.path.insert(0, os.path.join(os.path.dirname(os.path.abspath(__file__)), '..', 'tests', 'lib'))
from mrep import compiled, remove
from one_row import stream

PROGRAM = os.path.abspath(sys.argv[1])
COUNT, WORDS = int(sys.argv[2]) if len(sys.argv) > 2 else 20_000, sys.argv[3:]
# The milliseconds of a sync, and how often what is quick is run.
MILLISECONDS, RUNS = (0, 0.1, 1, 4), 3


def replayed(folder, milliseconds, words):
    """The seconds of a replay, how many syncs it had, and the seconds of these."""
    db, said = remove(f'{folder}/db'), f'{folder}/said'
    for name in (said, f'{db}.feed'):
        if os.path.exists(name):
            os.remove(name)
    environment = {**os.environ, 'LD_PRELOAD': f'{folder}/sync.so', 'SYNC_NANOSECONDS': f'{milliseconds * 1e6:.0f}', 'SYNC_SAID': said}
    begun = time.monotonic()
    ran = subprocess.run([PROGRAM, 'replay', '--db', db, *words, *WORDS, f'{folder}/stream'], env=environment, stdout=subprocess.PIPE,
                         stderr=subprocess.PIPE, check=False)
    took = time.monotonic() - begun
    if ran.returncode or not ran.stdout.endswith(f' applied {COUNT}\n'.encode()):
        sys.exit(f'sync: the replay ends with {ran.returncode}: {(ran.stdout + ran.stderr).decode()}')
    if not os.path.exists(said):
        sys.exit('sync: the library was not loaded')
    with open(said, encoding='ascii') as file:
        syncs, seconds = file.read().split()
    return took, int(syncs), float(seconds)


def main():
    with tempfile.TemporaryDirectory(dir='/dev/shm' if os.path.isdir('/dev/shm') else None) as folder:
        missing = compiled(os.path.join(os.path.dirname(os.path.abspath(__file__)), 'sync.c'), f'{folder}/sync.so', '-ldl')
        if missing:
            sys.exit(f'sync: {missing}')
        stream(f'{folder}/stream', 1, COUNT)
        print('| A sync, ms | measured | Feed | Transactions a second | Syncs a transaction | Of the time |\n|---|---|---|---|---|---|')
        for milliseconds in MILLISECONDS:
            for kind, words in (('none', []), ('`--changes`', ['--changes', f'{folder}/db.feed'])):
                runs = [replayed(folder, milliseconds, words) for _ in range(RUNS if milliseconds < 1 else 1)]
                took, syncs, seconds = min(runs)
                print(f'| {milliseconds} | {seconds / syncs * 1000:.3f} | {kind} | {COUNT / took:,.0f} | {syncs / COUNT:.2f} | {seconds / took:.0%} |', flush=True)


main()
