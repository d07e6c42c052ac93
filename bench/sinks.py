#!/usr/bin/env python3
"""What the sinks of `sinks/mrep-sink` take: changes a second, and the most memory, over a feed that is made here, beside the C
library of SQLite with the same changes and COPY of PostgreSQL with the rows that are inserted. A table of an INT that is the key, a
BIGINT, a DATETIME and three texts; of ten changes six are inserts, three updates and one a delete; where runs are long a
transaction has changes of one kind. It prints rows of the table of README.md. That memory and speed stay as they are is measured
up to MOST changes (1,000,000), in a feed that is 340 bytes a change.

    bench/sinks.py [CHANGES [MOST [KIND]..]]
"""

import itertools
import json
import os
import sqlite3
import subprocess
import sys
import tempfile
import time

ROOT = os.path.join(os.path.dirname(os.path.abspath(__file__)), '..')
sys.path.insert(0, os.path.join(ROOT, 'tests', 'lib'))
sys.dont_write_bytecode = True
import postgres
import sinks
from scripted import MEASURED

CHANGES = int(sys.argv[1]) if len(sys.argv) > 1 else 200_000
MOST = int(sys.argv[2]) if len(sys.argv) > 2 else 1_000_000
KINDS = sys.argv[3:] or ['sqlite', 'postgres', 'kafka']
A = '3e11fa47-71ca-11e1-9e33-c80aa9429562'
TYPES = [('id', 'int', 'NULL', 'PRI'), ('big', 'bigint', 'NULL', ''), ('at', 'datetime', 'NULL', ''),
         *((f't{it}', 'varchar(80)', 'utf8mb4', '') for it in range(3))]
# The most memory, in MiB, of how many runs the best one counts, and from how many changes on there is one.
MEMORY, RUNS, LONG = 64, 2, 1_000_000
UP_TO = sorted({CHANGES, *[MOST] * (MOST > LONG)})
# The mock cluster of Kafka's library, whose sockets get what those of a broker have, TCP_NODELAY: without it most commits wait some
# 40 ms for an acknowledgement of TCP.
MOCK = '''import os, socket, sys, threading, time
from confluent_kafka import Producer
client = Producer({'bootstrap.servers': 'mock', 'test.mock.num.brokers': 1, 'log_level': 0})
print(','.join(f'{it.host}:{it.port}' for it in client.list_topics(timeout=30).brokers.values()), flush=True)
def send_at_once():
    while True:
        for number in os.listdir('/proc/self/fd'):
            try:
                if os.readlink(f'/proc/self/fd/{number}').startswith('socket:'):
                    with socket.socket(fileno=os.dup(int(number))) as one:
                        one.setsockopt(socket.IPPROTO_TCP, socket.TCP_NODELAY, 1)
            except OSError:
                pass
        time.sleep(0.05)
threading.Thread(target=send_at_once, daemon=True).start()
sys.stdin.read()'''
compact = json.JSONEncoder(ensure_ascii=False, separators=(',', ':')).encode


def row(number, step=0):
    return {'id': number, 'big': 10**12 + number * 7, 'at': f'2026-11-{number % 28 + 1:02} 10:00:{number % 60:02}',
            't0': f'the name of {number}', 't1': f'a text of {step}', 't2': 'ü' * (number % 20)}


def changes(count, run):
    """Changes in the order of a feed: in runs of one kind of this length."""
    first, number, updated = 1, 1, 1
    kinds = ['insert'] * 6 + ['update'] * 3 + ['delete']
    for turn in range(count):
        kind = kinds[turn // run % 10]
        if kind == 'insert':
            yield {'key': {'id': number}, 'after': row(number)}, kind
            number += 1
        elif kind == 'update':
            yield {'key': {'id': updated}, 'before': row(updated), 'after': row(updated, 1)}, kind
            updated += 1
        else:
            yield {'key': {'id': first}, 'before': row(first, int(first < updated))}, kind
            first += 1
            updated = max(first, updated)


def commit(gtid, count):
    return {'type': 'commit', 'gtid': f'{A}:{gtid}', 'changes': count, 'committed_us': 1795811726000000 + gtid, 'server': 1,
            'xid': gtid}


def feed(name, count, size, run=1):
    """A feed of so many changes in transactions of this size."""
    with open(name, 'w', encoding='utf-8') as file:
        write = lambda item: file.write(compact(item) + '\n')
        write({'type': 'open', 'executed': '', 'bytes': 'base64'})
        at, gtid = 0, 0
        for rows, kind in changes(count, run):
            if at == 0:
                gtid += 1
            write({'type': kind, 'gtid': f'{A}:{gtid}', 'n': at, 'ts': 1795811726, 'schema': 'shop', 'table': 'items', **rows})
            at += 1
            if at == size:
                write(commit(gtid, at))
                at = 0
        if at:
            write(commit(gtid, at))
    return name


def measured(count, python, *words):
    """The seconds of a run of the sink, its seconds of a processor, and its most memory in MiB; the least of RUNS runs."""
    found = []
    for turn in range(RUNS if count < LONG else 1):
        to = [it.replace('TURN', str(turn)) for it in words]
        begun = time.time()
        ran = subprocess.run([python, '-c', MEASURED, python, sinks.SINK, *to], stdout=subprocess.DEVNULL, stderr=subprocess.PIPE,
                             check=True)
        seconds = time.time() - begun
        memory, spent, status = ran.stderr.split()[-3:]
        if int(status):
            sys.exit(f'sinks: {to} ends with {int(status)}: {ran.stderr.decode()}')
        found.append((seconds, float(spent), int(memory)))
    return tuple(map(min, zip(*found)))


def shown(job, count, goal, seconds, spent, memory, beside=None):
    """Prints a row. The goal is met by the seconds of a processor that the sink takes, since others share the machine."""
    is_met = count / spent >= goal and memory <= MEMORY
    wanted = f' (goal {goal:,})' * (goal > 0) + ', **missed**' * (not is_met)
    other = f'{beside:.2f} s | {seconds / beside:.2f}' if beside else ' | '
    print(f'| {job}, {count:,} changes | {seconds:.2f} s, {spent:.2f} | {other} | {count / seconds:,.0f}, '
          f'{count / spent:,.0f}{wanted} | {memory} MiB |', flush=True)
    return not is_met


def library(path, count, run, size):
    """The seconds of the C library of SQLite for the same changes, whose statements and values are there already."""
    base = sqlite3.connect(path, isolation_level=None)
    base.executescript('PRAGMA journal_mode = WAL; PRAGMA synchronous = FULL; CREATE TABLE items (id INTEGER PRIMARY KEY, big '
                       'INTEGER, at TEXT, t0 TEXT, t1 TEXT, t2 TEXT) STRICT')
    seconds, left = 0, changes(count, run)
    while made := [(kind, tuple((rows.get('after') or {}).values()), rows['key']['id'])
                   for rows, kind in itertools.islice(left, 1000 * size)]:
        begun = time.time()
        base.execute('BEGIN IMMEDIATE')
        for kind, after, key in made:
            if kind == 'insert':
                base.execute('INSERT INTO items VALUES (?, ?, ?, ?, ?, ?)', after)
            elif kind == 'update':
                base.execute('UPDATE items SET id = ?, big = ?, at = ?, t0 = ?, t1 = ?, t2 = ? WHERE id = ?', (*after, key))
            else:
                base.execute('DELETE FROM items WHERE id = ?', (key,))
        base.execute('COMMIT')
        seconds += time.time() - begun
    base.close()
    return seconds


def removed(*names):
    for name in names:
        for end in ('', '-wal', '-shm'):
            if os.path.exists(name + end):
                os.remove(name + end)


def in_sqlite(work, columns):
    bad = 0
    for job, size, words, goal, counts in (('transactions of ten', 10, [], 40_000, sorted({100_000, CHANGES, LONG, MOST})),
                                           ('of one row', 1, [], 20_000, [CHANGES]),
                                           ('of ten, `--history`', 10, ['--history'], 15_000, [CHANGES]),
                                           ('of one row, `--history`', 1, ['--history'], 15_000, [CHANGES])):
        for count in counts:
            name = feed(f'{work}/feed', count, size)
            found = measured(count, sys.executable, 'sqlite', f'{work}/sink-TURN', '--columns', columns, *words, name)
            removed(name, *(f'{work}/sink-{turn}' for turn in range(RUNS)))
            bad += shown(f'`mrep-sink sqlite`, {job}', count, goal, *found, library(f'{work}/library', count, 1, size))
            removed(f'{work}/library')
    return bad


def copied(server, base, work, count, run):
    """How many rows are inserted, and the seconds of COPY for them."""
    server.psql(base, 'CREATE TABLE copied (LIKE shop.items INCLUDING ALL)')
    rows = 0
    with open(f'{work}/rows', 'w', encoding='utf-8') as file:
        for it, kind in changes(count, run):
            if kind == 'insert':
                rows += 1
                file.write('\t'.join(map(str, it['after'].values())) + '\n')
    os.chmod(f'{work}/rows', 0o644)
    begun = time.time()
    server.psql(base, f"\\copy copied FROM '{work}/rows'")
    return rows, time.time() - begun


def in_postgres(work, columns):
    python = sinks.python_with('psycopg')
    why = postgres.missing() or not python and 'no python3 here has psycopg 3'
    if why:
        print(f'sinks: PostgreSQL is left out, since {why}', flush=True)
        return 0
    server, bad = postgres.Server(work), 0
    try:
        for job, size, run, count, goal in (*(('runs of 1,000 of one kind', 1000, 1000, count, 15_000) for count in UP_TO),
                                            ('transactions of ten', 10, 1, CHANGES, 0)):
            name = feed(f'{work}/feed', count, size, run)
            for turn in range(RUNS):
                server.make(f'base{turn}')
            found = measured(count, python, 'postgres', f'host={server.folder} user=postgres dbname=baseTURN', '--columns', columns,
                             name)
            removed(name)
            rows, seconds = copied(server, 'base0', work, count, run)
            bad += shown(f'`mrep-sink postgres`, {job}, beside COPY of its {rows:,} rows', count, goal, *found, seconds)
            for turn in range(RUNS):
                server.psql('postgres', f'DROP DATABASE base{turn}')
    finally:
        server.stop()
    return bad


def in_kafka(work, columns):
    python, bad = sinks.python_with('confluent_kafka'), 0
    if not python:
        print('sinks: Kafka is left out, since no python3 here has confluent_kafka', flush=True)
        return 0
    for count in UP_TO:
        with subprocess.Popen([python, '-c', MOCK], stdin=subprocess.PIPE, stdout=subprocess.PIPE) as cluster:
            brokers = cluster.stdout.readline().decode().strip()
            name = feed(f'{work}/feed', count, 10)
            found = measured(count, python, 'kafka', brokers, '--topics', 'tTURN', '--name', 'tTURN', '--unchecked', '--partitions',
                             '4', '--setting', 'log_level=0', '--columns', columns, name)
            removed(name)
            cluster.stdin.close()
        bad += shown('`mrep-sink kafka`, transactions of ten, to the mock of its library', count, 30_000, *found)
    return bad


def main():
    # A long feed has some gigabytes, which memory may not have.
    is_short = MOST <= LONG and os.path.isdir('/dev/shm')
    with tempfile.TemporaryDirectory(dir='/dev/shm' if is_short else None) as work:
        columns = f'{work}/columns'
        with open(columns, 'w', encoding='utf-8') as file:
            file.writelines('\t'.join(['shop', 'items', *it]) + '\n' for it in TYPES)
        bad = sum(found(work, columns) for name, found in (('sqlite', in_sqlite), ('postgres', in_postgres), ('kafka', in_kafka))
                  if name in KINDS)
    return int(bad > 0)


sys.exit(main())
