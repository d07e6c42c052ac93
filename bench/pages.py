#!/usr/bin/env python3
"""What a row costs by the size of a database's pages: instructions (valgrind) or the processor's time, bytes that are
written to the WAL and to the database file (strace), and the length of the file.

    pages.py PROGRAM [SIZES [TRANSACTIONS [PAGES]]]

SIZES are lengths of stored images, from 13 on, 20,50,100,200,400,700,1500,3000 if none is given; TRANSACTIONS are numbers of
rows of one, of 1,10,1000,100000; PAGES are sizes of pages in bytes, 1024,2048,4096,8192. For each it makes a new database with
sqlite3, inserts rows in any order, updates each once, deletes half of them, and opens it. A line has the size of a row,
the rows of a transaction, the size of a page, and for inserting, updating, deleting and opening what a row takes: thousands
of instructions; of transactions of 100,000 rows, or as many as have 70 MB, microseconds of a processor, the best of three runs.
Then for the first three the bytes that a row has written to the WAL and to the file, and the bytes a row of the file after
inserting.
"""

import concurrent.futures
import os
import random
import re
import resource
import shutil
import sqlite3
import subprocess
import sys
import tempfile

ROOT = os.path.abspath(os.path.join(os.path.dirname(os.path.abspath(__file__)), '..'))
sys.path.insert(0, f'{ROOT}/tests/lib')
import streams

PROGRAM = os.path.abspath(sys.argv[1])
MEMORY = '/dev/shm' if os.access('/dev/shm', os.W_OK) else None
with open(f'{ROOT}/samples/s1.bin', 'rb') as sample:
    S1 = sample.read()
OPENING, FORMAT = S1[:100], S1[104:221]
SOURCE = bytes(range(16))
# How many rows there are in all, by how many a transaction has, and how many bytes of images at most.
ROWS = {1: 1000, 10: 2000, 1000: 5000, 100000: 100000}
MOST = 70_000_000
# What an image has beside the bytes of its text.
BESIDE = 13


def numbers(place, default):
    return [int(word) for word in (sys.argv[place] if len(sys.argv) > place else default).split(',')]


def event(code, body):
    return b'\0' + bytes(4) + bytes([code]) + (1).to_bytes(4, 'little') + (19 + len(body)).to_bytes(4, 'little') + bytes(6) + body


def table_map():
    """shop.items, of a number of 4 bytes and a text of up to 65,535."""
    return event(19, (1).to_bytes(6, 'little') + b'\1\0' + b'\4shop\0' + b'\5items\0' + b'\2\3\xfc' + b'\1\2' + b'\3')


def cells(row):
    number, text = row
    return b'\0' + number.to_bytes(4, 'little') + len(text).to_bytes(2, 'little') + text


def transaction(number, code, changes):
    """The events of a transaction whose changes are lists of rows, of one or, updated, of two."""
    head = (1).to_bytes(6, 'little') + b'\1\0\2\0\2' + (b'\3\3' if code == 31 else b'\3')
    events, body = [], []
    for change in changes:
        body.append(b''.join(map(cells, change)))
        if sum(map(len, body)) > 8000:
            events.append(event(code, head + b''.join(body)))
            body = []
    if body:
        events.append(event(code, head + b''.join(body)))
    query = event(2, bytes(8) + b'\0' + bytes(4) + b'\0BEGIN')
    return [event(33, b'\0' + SOURCE + number.to_bytes(8, 'little')), query, table_map(), *events, event(16, bytes(8))]


def write_streams(folder, size, each):
    """The streams that insert rows, update them and delete half of them, and how many rows each changes."""
    chance = random.Random(size * 1000003 + each)
    count = min(ROWS[each], MOST // size)
    keys = chance.sample(range(2 ** 32), count)
    rows = [(key, chance.randbytes(size - BESIDE)) for key in keys]
    after = [(key, chance.randbytes(size - BESIDE)) for key, _ in rows]
    number, made = 1, []
    order = chance.sample(range(count), count)
    for name, code, changes in [('insert', 30, [[row] for row in rows]), ('update', 31, [[rows[at], after[at]] for at in order]), ('delete', 32, [[after[at]] for at in order[:count // 2]])]:
        payloads = [FORMAT]
        for at in range(0, len(changes), each):
            payloads += transaction(number, code, changes[at:at + each])
            number += 1
        with open(f'{folder}/{name}', 'wb') as file:
            file.write(OPENING + streams.packets(payloads, 1))
        made.append((name, len(changes)))
    return made


def make(db, page):
    """A database without tables, of pages of this size."""
    base = sqlite3.connect(db)
    base.execute(f'PRAGMA page_size = {page}')
    base.execute('PRAGMA journal_mode = WAL')
    base.execute('VACUUM')
    base.close()
    if os.path.getsize(db) != page:
        raise SystemExit(f'sqlite3 makes no empty database of pages of {page}')


def run(words, before=()):
    return subprocess.run([*before, PROGRAM, *words], stdin=subprocess.DEVNULL, stdout=subprocess.PIPE, stderr=subprocess.PIPE, check=True)


def instructions(words):
    done = run(words, ('valgrind', '--tool=callgrind', '--callgrind-out-file=/dev/null'))
    return int(re.search(rb'Collected : (\d+)', done.stderr)[1])


def processor(words):
    before = resource.getrusage(resource.RUSAGE_CHILDREN)
    run(words)
    after = resource.getrusage(resource.RUSAGE_CHILDREN)
    return after.ru_utime + after.ru_stime - before.ru_utime - before.ru_stime


def written(words, folder):
    """How many bytes a command writes to the WAL and to the database file."""
    run(words, ('strace', '-y', '-e', 'trace=pwrite64', '-s', '0', '-o', f'{folder}/calls'))
    found = {'wal': 0, 'db': 0}
    with open(f'{folder}/calls', encoding='utf-8') as calls:
        for name, count in re.findall(r'pwrite64\(\d+<([^>]*)>, .* = (\d+)$', calls.read(), re.MULTILINE):
            found['wal' if name.endswith('-wal') else 'db'] += int(count)
    return found['wal'], found['db']


def measured(task):
    size, each, page = task
    with tempfile.TemporaryDirectory(dir=MEMORY) as folder:
        db, spare = f'{folder}/db', f'{folder}/spare'
        made = write_streams(folder, size, each)
        costs, logs, files, length = [], [], [], 0
        make(db, page)

        def cost(words, count):
            """What a row costs: the command runs on a copy of the database, which stays as it was."""
            best = None
            for _ in range(1 if each < 100000 else 3):
                shutil.copyfile(db, spare)
                if os.path.exists(f'{spare}-wal'):
                    os.remove(f'{spare}-wal')
                took = instructions(words) / 1000 if each < 100000 else processor(words) * 1000000
                best = took if best is None else min(best, took)
            return best / count

        for name, count in made:
            costs.append(cost(['replay', '--db', spare, f'{folder}/{name}'], count))
            log, file = written(['replay', '--db', db, f'{folder}/{name}'], folder)
            logs.append(log / count)
            files.append(file / count)
            if name == 'insert':
                length = os.path.getsize(db) / count
                opened = cost(['gtids', '--db', spare], count)
        costs.append(opened)
    return task, costs, logs, files, length


def main():
    tasks = [(size, each, page) for size in numbers(2, '20,50,100,200,400,700,1500,3000') for each in numbers(3, '1,10,1000,100000') for page in numbers(4, '1024,2048,4096,8192')]
    with concurrent.futures.ProcessPoolExecutor(len(os.sched_getaffinity(0))) as workers:
        for (size, each, page), costs, logs, files, length in workers.map(measured, tasks):
            parts = [' '.join(f'{it:.1f}' for it in costs), ' '.join(f'{it:.0f}' for it in logs), ' '.join(f'{it:.0f}' for it in files), f'{length:.0f}']
            print(size, each, page, '|', ' | '.join(parts), flush=True)
    return 0


sys.exit(main())
