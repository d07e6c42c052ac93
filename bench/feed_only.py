#!/usr/bin/env python3
"""What a database without rows costs: streams of transactions of one row are replayed with a feed into a database that keeps rows
and into one that keeps none, each in pieces of the same size; transactions a second of the clock and of a processor, the size of
the database, its memory, and the seconds and the memory of opening it. Databases and feeds are in /dev/shm, where there is one.

    bench/feed_only.py PROGRAM [TRANSACTIONS]..

TRANSACTIONS (20,000) are how many; above 200,000 of a database without rows alone. It prints rows of the table of README.md.
"""

import os
import subprocess
import sys
import tempfile
import time

sys.path.insert(0, os.path.join(os.path.dirname(os.path.abspath(__file__)), '..', 'tests', 'lib'))
import scripted
from one_row import stream

PROGRAM = os.path.abspath(sys.argv[1])
COUNTS = [int(word) for word in sys.argv[2:]] or [20_000]
# The most transactions of a stream, and from how many on no rows are kept.
PIECE, LARGE, RUNS = 1_000_000, 200_000, 3


def measured(*words):
    """The seconds of a run, those of a processor, and its greatest memory in MiB."""
    begun = time.time()
    ran = subprocess.run([sys.executable, '-c', scripted.MEASURED, PROGRAM, *words], stdout=subprocess.DEVNULL, stderr=subprocess.PIPE, check=True)
    memory, processor, status = ran.stderr.split()[-3:]
    if int(status):
        sys.exit(f'feed_only: {words[0]} ends with {int(status)}: {ran.stderr.decode()}')
    return time.time() - begun, float(processor), float(memory)


def opening(db):
    """The seconds of a command that opens the database, and its greatest memory in MiB."""
    seconds = []
    for _ in range(RUNS):
        begun = time.time()
        subprocess.run([PROGRAM, 'gtids', '--db', db], stdout=subprocess.DEVNULL, check=True)
        seconds.append(time.time() - begun)
    return min(seconds), measured('gtids', '--db', db)[2]


def removed(db):
    for name in (db, f'{db}-wal', f'{db}.feed'):
        if os.path.exists(name):
            os.remove(name)


def run(folder, count, words):
    """Replays the transactions. Answers the seconds, those of a processor, and the greatest memory."""
    db = os.path.join(folder, 'db')
    removed(db)
    clock = processor = memory = 0.0
    for first in range(1, count + 1, PIECE):
        name = stream(os.path.join(folder, 'stream'), first, min(first + PIECE - 1, count))
        one = measured('replay', '--db', db, *words, '--changes', f'{db}.feed', name)
        clock, processor, memory = clock + one[0], processor + one[1], max(memory, one[2])
        # The feed of the pieces before is not looked at.
        with open(f'{db}.feed', 'r+b') as feed:
            feed.truncate(0)
            feed.write(b'{"type":"open","executed":"","bytes":"hex"}\n')
    return clock, processor, memory


def main():
    with tempfile.TemporaryDirectory(dir='/dev/shm' if os.path.isdir('/dev/shm') else None) as folder:
        db = os.path.join(folder, 'db')
        print('| Transactions | Rows | a second, by the clock | of a processor | MiB | database, KiB | opened in, s | with MiB |\n|---|---|---|---|---|---|---|---|')
        for count in COUNTS:
            for kind, words in (('kept', []), ('none', ['--feed-only'])):
                if kind == 'kept' and count > LARGE:
                    continue
                runs = [run(folder, count, words) for _ in range(RUNS if count <= LARGE else 1)]
                clock, processor, memory = (min(parts) for parts in zip(*runs))
                opened = opening(db)
                print(f'| {count:,} | {kind} | {count / clock:,.0f} | {count / processor:,.0f} | {memory:.0f} | {os.path.getsize(db) / 1024:,.0f} | {opened[0]:.3f} | {opened[1]:.0f} |', flush=True)


main()
