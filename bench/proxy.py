#!/usr/bin/env python3
"""What the proxy costs: 100,000 transactions of one row by `mrep follow`, and by the proxy with checksums, plain and inside TLS, in
seconds, the best of three runs; 300 MB in one transaction through the proxy alone; its memory; and how much later the first row
is there. The source is a script that sends what was made before. It prints rows of the table of README.md.

    bench/proxy.py PROGRAM [TRANSACTIONS]
"""

import os
import ssl
import subprocess
import sys
import tempfile
import time

sys.path.insert(0, os.path.join(os.path.dirname(os.path.abspath(__file__)), '..', 'tests', 'lib'))
import scripted
from scripted import EOF, NATIVE, OK, PROXY, Source, description, dump, event, greeting, gtid, image, insert, packet, previous, query, rotate, rows, table_map, xid
from streams import packets

PROGRAM = os.path.abspath(sys.argv[1])
TRANSACTIONS = int(sys.argv[2]) if len(sys.argv) > 2 else 100_000
RUNS, LARGE = 3, 300_000_000
# The goals: how much of the rate of `follow`, MB a second, MiB, seconds until the first row beyond those of `follow`.
RATE, SPEED, MEMORY, START = 0.9, 100, 64, 1
CERTIFICATES = os.path.join(os.path.dirname(os.path.abspath(__file__)), '..', 'tests', 'proxy', 'login')
HEAD = [rotate(b'binlog.000001'), description(), previous([])]
# Python as it is installed, with zstandard or not.
PYTHON = scripted.python_with_zstd() or sys.executable


def many():
    """The events of many transactions of one row."""
    events = [*HEAD]
    for number in range(1, TRANSACTIONS + 1):
        events += insert(number, number, b'some text %d' % number)
    return events


def serve(peer, stream, context=None):
    peer.say(greeting(NATIVE, tls=bool(context)), 0)
    if context:
        peer.tls(context)
    peer.hear()
    peer.say(OK)
    peer.ready()
    peer.socket.sendall(stream)
    peer.rest()


def timed(words, stream, context=None):
    """The seconds of a command that follows a scripted source, its greatest memory in MiB, and its seconds of a processor."""
    source = Source(lambda peer: serve(peer, stream, context))
    begun = time.time()
    ran = subprocess.run([PYTHON, '-c', scripted.MEASURED, *[it.replace('PORT', source.port) for it in words]], stdout=subprocess.DEVNULL, stderr=subprocess.PIPE, check=True)
    seconds = time.time() - begun
    source.close()
    memory, processor, status = ran.stderr.split()[-3:]
    if int(status):
        sys.exit(f'proxy: {words[0]} ends with {int(status)}: {ran.stderr.decode()}')
    return seconds, int(memory), float(processor)


def proxy_words(work, db, *mine, program=PROGRAM):
    return [PYTHON, PROXY, '--host', 'localhost', '--port', 'PORT', '--user', 'repl', '--password-file', f'{work}/password', '--server-id', '7', '--once',
            '--mrep', program, *mine, '--', 'replay', '--db', db, '-']


def main():
    bad = 0
    plain, tls = ['--ssl-mode', 'DISABLED'], ['--ssl-ca', f'{CERTIFICATES}/ca.pem']
    context = ssl.SSLContext(ssl.PROTOCOL_TLS_SERVER)
    context.load_cert_chain(f'{CERTIFICATES}/server.pem')
    with tempfile.TemporaryDirectory(dir='/dev/shm' if os.path.isdir('/dev/shm') else None) as work:
        scripted.password(work)
        events = many()
        profile = packets([*(b'\0' + it for it in events), EOF], 1)
        summed = dump(events, 1, [EOF])
        follow = [PROGRAM, 'follow', '--host', 'localhost', '--port', 'PORT', '--user', 'repl', '--password-file', f'{work}/password', '--server-id', '7', '--once', '--db']
        number = 0

        def best(words_of, stream, context=None):
            nonlocal number
            found = []
            for _ in range(RUNS):
                number += 1
                found.append(timed(words_of(f'{work}/F{number}'), stream, context))
            return min(found)

        alone, _, _ = best(lambda db: [*follow, db], profile)
        for name, mine, how in (('checksums', plain, None), ('checksums and TLS', tls, context)):
            seconds, memory, spent = best(lambda db: proxy_words(work, db, *mine), summed, how)
            met = alone / seconds >= RATE
            bad += not met
            print(f'| {TRANSACTIONS:,} transactions of one row through the proxy, {name}, against `follow` | {seconds:.3f} s | {alone:.3f} s | {seconds / alone:.2f}{"" if met else ", **missed**"} | '
                  f'{1 / RATE:.2f} | {memory} MiB; {spent:.2f} s of a processor |', flush=True)
        one = dump([*HEAD, *insert(1, 1)], 1, [EOF])
        first, _, _ = best(lambda db: proxy_words(work, db, *plain), one)
        alone, _, _ = best(lambda db: [*follow, db], packets([*(b'\0' + it for it in [*HEAD, *insert(1, 1)]), EOF], 1))
        bad += first - alone > START
        print(f'| one transaction, from start to end | {first:.3f} s | {alone:.3f} s | {first - alone:.2f} s more | {START} s |  |', flush=True)
        block = rows(30, *[image(it, b'z' * 20) for it in range(310)])
        large = dump([*HEAD, gtid(1), query(b'BEGIN'), table_map(), *[block] * (LARGE // len(block)), xid(1)], 1, [EOF])
        sink = f'{work}/sink'
        with open(sink, 'w', encoding='utf-8') as file:
            file.write('#!/bin/sh\nexec cat > /dev/null\n')
        os.chmod(sink, 0o755)
        for name, mine, how in (('plain', plain, None), ('inside TLS', tls, context)):
            seconds, memory, spent = best(lambda db: proxy_words(work, db, *mine, program=sink), large, how)
            speed = len(large) / seconds / 1e6
            bad += speed < SPEED or memory > MEMORY
            print(f'| {len(large) / 1e6:.0f} MB in one transaction through the proxy alone, {name} | {seconds:.3f} s | {speed:.0f} MB/s |  | {SPEED} MB/s | {memory} MiB (goal {MEMORY}); {spent:.2f} s of a processor |', flush=True)
    return int(bad > 0)


sys.exit(main())
