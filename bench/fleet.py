#!/usr/bin/env python3
"""Many sources on one machine: so many followers, each of a scripted source of its own, with a feed, a status and a sink in SQLite. Once
all are connected each source sends nothing for a while, and then so many transactions of one row a second. It prints rows of the
table of README.md: the memory of each process, alone and with its share of what several have (PSS), its part of a processor, and what
a thousand would need; and how long after the last transaction all sinks have it.

    bench/fleet.py PROGRAM [FOLLOWERS [RATE [SECONDS]]]
"""

import os
import re
import socket
import subprocess
import sys
import tempfile
import threading
import time
from typing import Callable, Dict, List

sys.path.insert(0, os.path.join(os.path.dirname(os.path.abspath(__file__)), '..', 'tests', 'lib'))
import scripted
from scripted import NATIVE, OK, Peer, description, insert, previous, rotate
from streams import packets

PROGRAM = os.path.abspath(sys.argv[1])
FOLLOWERS, RATE, SECONDS = [int(it) for it in sys.argv[2:]] + [100, 10, 60][len(sys.argv) - 2:]
ROOT = os.path.join(os.path.dirname(os.path.abspath(__file__)), '..')
PYTHON = sys.executable
COLUMNS = 'shop\titems\tid\tint\tNULL\tPRI\nshop\titems\tname\tvarchar(20)\tutf8mb4\t\n'
# How long all may take to be connected, and to have the last transaction; and what is shown in the end.
LONGEST, MANY = 120, 1000
TICK = os.sysconf('SC_CLK_TCK')

Group = List['subprocess.Popen[bytes]']


class Sources:
    """A server whose each connection is a source: after the login and the dump command it sends what it is told."""

    def __init__(self) -> None:
        self.server = socket.create_server(('127.0.0.1', 0), backlog=FOLLOWERS)
        self.port = str(self.server.getsockname()[1])
        # The connections that follow, and the number of the next packet of each.
        self.following: Dict[socket.socket, int] = {}
        threading.Thread(target=self.accept, daemon=True).start()

    def accept(self) -> None:
        while True:
            accepted, _ = self.server.accept()
            threading.Thread(target=self.begin, args=(accepted,), daemon=True).start()

    def begin(self, accepted: socket.socket) -> None:
        accepted.setsockopt(socket.IPPROTO_TCP, socket.TCP_NODELAY, 1)
        peer = Peer(accepted)
        peer.say(scripted.greeting(NATIVE), 0)
        peer.hear()
        peer.say(OK)
        while peer.hear()[:1] != b'\x1e':
            peer.say(OK, 1)
        head = [rotate(b'binlog.000001'), description(), previous([])]
        accepted.sendall(packets([b'\0' + it for it in head], 1))
        self.following[accepted] = 1 + len(head)

    def send(self, number: int) -> None:
        """The next transaction of each source."""
        events = [b'\0' + it for it in insert(number, number, b'text %d' % number)]
        for connection, sequence in self.following.items():
            connection.sendall(packets(events, sequence % 256))
            self.following[connection] = sequence + len(events)


def text_of(path: str) -> str:
    with open(path, encoding='utf-8') as file:
        return file.read()


def field(path: str, name: str) -> int:
    """A number of a file of /proc."""
    found = re.search(rf'^{name}:\s*(\d+)', text_of(path), re.M)
    return int(found[1]) if found else 0


def seconds_of(group: Group) -> float:
    """The seconds of a processor that these have used: fields 14 and 15 of proc(5), `stat`."""
    return sum(sum(map(int, text_of(f'/proc/{it.pid}/stat').rpartition(')')[2].split()[11:13])) for it in group) / TICK


def start(words: List[str]) -> 'subprocess.Popen[bytes]':
    return subprocess.Popen(words, stdin=subprocess.DEVNULL, stdout=subprocess.DEVNULL, stderr=subprocess.DEVNULL)


def value(path: str, name: str) -> float:
    """A value of a status file; -1 while it is not there."""
    found = re.search(rf'^{name} (\S+)$', text_of(path), re.M) if os.path.exists(path) else None
    return float(found[1]) if found else -1


def until(what: str, is_so: Callable[[int], bool]) -> float:
    """Waits until it is so for all, and answers for how long."""
    begun, left = time.monotonic(), [*range(FOLLOWERS)]
    while left:
        if time.monotonic() - begun > LONGEST:
            sys.exit(f'fleet: {what}: not after {LONGEST} s for {len(left)}')
        left = [it for it in left if not is_so(it)]
        time.sleep(0.05)
    return time.monotonic() - begun


def follower(work: str, number: int, port: str) -> List[str]:
    name = f'{work}/s{number}'
    return [PROGRAM, 'follow', '--host', '127.0.0.1', '--port', port, '--user', 'repl', '--password-file', f'{work}/password', '--server-id',
            str(number + 1), '--db', f'{name}.db', '--only', 'shop.items', '--columns', f'{work}/columns', '--changes', f'{name}.json',
            '--status', f'{name}.prom']


def sink(work: str, number: int) -> List[str]:
    name = f'{work}/s{number}'
    return [PYTHON, f'{ROOT}/sinks/mrep-sink', 'sqlite', f'{name}.sqlite', '--columns', f'{work}/columns', '--follow', '--status',
            f'{name}-sink.prom', f'{name}.json']


def paced(sources: Sources, count: int) -> None:
    """Sends so many transactions of each source, RATE a second."""
    begun = time.monotonic()
    for number in range(1, count + 1):
        sources.send(number)
        time.sleep(max(0, begun + number / RATE - time.monotonic()))


def shown(what: str, group: Group, idle: float, busy: float) -> None:
    """Prints a row: what these use, with the seconds of a processor in which nothing came and in which something did."""
    alone = [field(f'/proc/{it.pid}/status', 'VmHWM') / 1024 for it in group]
    share = sum(field(f'/proc/{it.pid}/smaps_rollup', 'Pss') for it in group) / 1024 / FOLLOWERS
    idle, busy = idle / SECONDS / FOLLOWERS, busy / SECONDS / FOLLOWERS
    print(f'| {what} | {sum(alone) / FOLLOWERS:.1f}, at most {max(alone):.1f} MiB | {share:.1f} MiB | {100 * idle:.3f} % | {100 * busy:.2f} % | '
          f'{share * MANY / 1024:.1f} GiB, {idle * MANY:.1f} and {busy * MANY:.1f} processors |', flush=True)


def measured(work: str, groups: Dict[str, Group]) -> None:
    """Starts all, and prints what they take."""
    sources, count = Sources(), RATE * SECONDS
    groups['`mrep follow`'] = [start(follower(work, it, sources.port)) for it in range(FOLLOWERS)]
    connected = until('connected', lambda it: value(f'{work}/s{it}.prom', 'mrep_connected') == 1)
    groups['`mrep-sink sqlite`'] = [start(sink(work, it)) for it in range(FOLLOWERS)]
    until('a sink', lambda it: value(f'{work}/s{it}-sink.prom', 'mrep_sink_commits_total') >= 0)
    first = {name: seconds_of(group) for name, group in groups.items()}
    time.sleep(SECONDS)
    idle = {name: seconds_of(group) for name, group in groups.items()}
    paced(sources, count)
    late = until('the last transaction', lambda it: value(f'{work}/s{it}-sink.prom', 'mrep_sink_transactions_total') >= count)
    for name, group in groups.items():
        shown(name, group, idle[name] - first[name], seconds_of(group) - idle[name])
    print(f'{FOLLOWERS} were connected after {connected:.1f} s; of {FOLLOWERS * count:,} transactions, {FOLLOWERS * RATE:,} a second, the '
          f'last was in the status of all sinks after {late:.1f} s', flush=True)


def main() -> int:
    groups: Dict[str, Group] = {}
    with tempfile.TemporaryDirectory(dir='/dev/shm' if os.path.isdir('/dev/shm') else None) as work:
        scripted.password(work)
        with open(f'{work}/columns', 'w', encoding='utf-8') as file:
            file.write(COLUMNS)
        try:
            measured(work, groups)
        finally:
            for process in [it for group in groups.values() for it in group]:
                process.kill()
                process.wait()
    return 0


sys.exit(main())
