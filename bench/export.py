#!/usr/bin/env python3
"""What `mrep export` takes beside SQLite's C library: a table of rows with ten columns (an INT that is the key, a BIGINT, a
DOUBLE, a DATETIME and six texts) in one transaction, and the same rows by `executemany` of python3's sqlite3. Of each the best
of three runs, in seconds; the second in the order in which the export has the rows. An opening of the database, which each
command begins with, is measured apart, by `mrep gtids`. It prints a row of the table of README.md.

    bench/export.py PROGRAM [ROWS]
"""

import os
import sqlite3
import struct
import subprocess
import sys
import tempfile
import time

sys.path.insert(0, os.path.join(os.path.dirname(os.path.abspath(__file__)), '..', 'tests', 'lib'))
from events import BEGIN, FORMAT, XID, dump, event, gtid

PROGRAM = os.path.abspath(sys.argv[1])
ROWS = int(sys.argv[2]) if len(sys.argv) > 2 else 300_000
TABLE = (1).to_bytes(6, 'little')
# LONG, LONGLONG, DOUBLE, DATETIME2 and six VARCHARs of at most 80 bytes.
TYPES, METADATA = bytes([3, 8, 5, 18]) + bytes([15] * 6), bytes([8, 0]) + b'\x50\0' * 6
COLUMNS = [('id', 'int'), ('big', 'bigint'), ('real', 'double'), ('at', 'datetime')] + [(f't{n}', 'varchar(80)') for n in range(6)]
RUNS = 3
# The goal: at most this many times the C library, by a tenth more in each of three tries.
GOAL, SLACK, TRIES = 1.7, 1.1, 3


def row(number):
    day = (2020 * 13 + 1) << 22 | 1 << 17
    at = day | number % 24 << 12 | number % 60 << 6 | number % 60
    texts = [b'some text %d %d' % (number, place) for place in range(6)]
    return (b'\0\0' + struct.pack('<iqd', number, number * 7919, number * 0.5) + (at + (1 << 39)).to_bytes(5, 'big')
            + b''.join(bytes([len(text)]) + text for text in texts))


def stream():
    """One transaction that inserts the rows, fifty in an event."""
    table = event(19, TABLE + b'\1\0\4shop\0\5items\0' + bytes([10]) + TYPES + bytes([len(METADATA)]) + METADATA + b'\xff\x03')
    events = [FORMAT, gtid(1), BEGIN]
    for first in range(0, ROWS, 50):
        some = b''.join(map(row, range(first, min(first + 50, ROWS))))
        events += [table, event(30, TABLE + b'\1\0\2\0' + bytes([10]) + b'\xff\x03' + some)]
    return dump(*events, XID)


def ran(*words):
    """The seconds that a run takes, and its greatest resident size in MiB."""
    begun = time.time()
    process = subprocess.Popen([PROGRAM, *words], stdout=subprocess.DEVNULL)
    _, status, usage = os.wait4(process.pid, 0)
    if status:
        sys.exit(f'export: {words[0]} fails')
    return time.time() - begun, usage.ru_maxrss // 1024


def by_library(name, create, rows):
    """The seconds that the C library takes for these rows."""
    if os.path.exists(name):
        os.remove(name)
    begun = time.time()
    base = sqlite3.connect(name, isolation_level=None)
    base.execute('PRAGMA journal_mode = WAL')
    base.execute('BEGIN')
    base.execute(create)
    base.executemany(f'INSERT INTO "shop.items" VALUES ({", ".join("?" * 10)})', rows)
    base.execute('COMMIT')
    base.close()
    return time.time() - begun


def measured(folder):
    """The seconds of an export, of it without an opening, of the C library in the order in which the database has the rows, and
    of it in that of the key, and the memory of the export."""
    db, made, columns = f'{folder}/db', f'{folder}/made', f'{folder}/columns'
    with open(f'{folder}/stream', 'wb') as file:
        file.write(stream())
    with open(columns, 'w', encoding='utf-8') as file:
        for name, kind in COLUMNS:
            file.write(f'shop\titems\t{name}\t{kind}\t{"utf8mb4" if "char" in kind else "NULL"}\t{"PRI" if name == "id" else ""}\n')
    if not os.path.exists(db):
        ran('replay', '--db', db, f'{folder}/stream')
    opened = min(ran('gtids', '--db', db)[0] for _ in range(RUNS))
    export, memory = min(ran('export', '--db', db, '--columns', columns, made, '--force') for _ in range(RUNS))
    base = sqlite3.connect(made)
    create, = base.execute('SELECT sql FROM sqlite_schema').fetchone()
    rows = base.execute('SELECT * FROM "shop.items"').fetchall()
    base.close()
    # The order in which the store has them: of the images, whose numbers begin with the low byte.
    stored = sorted(rows, key=lambda it: it[0].to_bytes(4, 'little'))
    library = min(by_library(f'{folder}/library', create, stored) for _ in range(RUNS))
    ordered = min(by_library(f'{folder}/library', create, rows) for _ in range(RUNS))
    return export, export - opened, library, ordered, memory


def main():
    with tempfile.TemporaryDirectory(dir='/dev/shm' if os.path.isdir('/dev/shm') else None) as folder:
        for _ in range(TRIES):
            whole, export, library, ordered, memory = measured(folder)
            print(f'| `mrep export`, {ROWS:,} rows of ten columns, without the opening | {export:.3f} s | C: {library:.3f} s | '
                  f'{export / library:.2f} | {GOAL} | {memory} MiB; whole {whole:.3f} s; C by the key {ordered:.3f} s |', flush=True)
            if export <= SLACK * GOAL * library:
                return 0
    return 1


sys.exit(main())
