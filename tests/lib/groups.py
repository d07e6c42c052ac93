"""Feeds in groups: several transactions share a commit of the database. The changes of all of them stand first, and then, in the
same order, a `commit` of each. Here are one that is written by hand, with what has to be used of it, feeds of chance, a feed that is
regrouped, and a reader that is killed."""

import json
import os
import signal
import subprocess
import sys

from mrep import A, ROOT, fail
from sinks import change, compact, item, opened, transaction

# Runs a program of Python, and kills it as it has used so many transactions and asks for one more.
KILLER = f'''
import os, runpy, signal, sys
sys.path.insert(0, '{ROOT}/sinks')
sys.dont_write_bytecode = True
from mrep_sink.feed import Reader
most, given = int(sys.argv[1]), Reader.transactions

def transactions(self, *words, **how):
    for count, it in enumerate(given(self, *words, **how)):
        if count == most:
            os.kill(os.getpid(), signal.SIGKILL)
        yield it

Reader.transactions = transactions
sys.argv = sys.argv[2:]
sys.path.insert(0, os.path.dirname(sys.argv[0]))
runpy.run_path(sys.argv[0], run_name='__main__')
'''


def killed_after(count, program, *words, python=sys.executable, **how):
    """Runs a reader that is killed after so many transactions, or ends with 0. Answers whether it was killed."""
    ran = subprocess.run([python, '-c', KILLER, str(count), program, *words], stdin=subprocess.DEVNULL, stdout=subprocess.PIPE,
                         stderr=subprocess.PIPE, check=False, timeout=120, **how)
    if ran.returncode not in (0, -signal.SIGKILL):
        fail(f'{os.path.basename(program)} ends with {ran.returncode}: {ran.stderr.decode(errors="replace")}')
    return ran.returncode != 0


# Lines of a feed

def changes(number, *given):
    """The changes of a transaction, which has not ended."""
    return transaction(number, *given, ends=False)


def end(number, count):
    """Its `commit`."""
    line = json.loads(transaction(number))
    return compact({**line, 'changes': count})


def rollback(number):
    return compact({'type': 'rollback', 'gtid': f'{A}:{number}'})


def made(row, name):
    return change(None, item(row, name))


def changed(row, before, after):
    return change(item(row, before), item(row, after))


def gone(row, name):
    return change(item(row, name), None)


def skipped(number):
    return compact({'type': 'skip', 'gtid': f'{A}:{number}'}) + end(number, 0)


HAND = b''.join([
    opened(),
    # A group of three, each of which needs the one before it.
    changes(1, made(1, 'a'), made(2, 'a')), changes(2, changed(1, 'a', 'b')), changes(3, gone(2, 'a'), made(3, 'a')),
    end(1, 2), end(2, 1), end(3, 2),
    # One alone.
    changes(4, changed(1, 'b', 'c')), end(4, 1),
    # A group that is refused, and comes one by one: the second is.
    changes(5, made(5, 'a')), changes(6, made(6, 'a')), rollback(5), rollback(6),
    changes(5, made(5, 'a')), end(5, 1), changes(6, made(6, 'a')), rollback(6),
    # A kill after the commit of the database, one before it, after which they come again, and one between the lines.
    changes(7, changed(5, 'a', 'b')), changes(8, changed(5, 'b', 'c')), opened(f'{A}:1-5:7-8'),
    changes(9, changed(5, 'c', 'x')), changes(10, changed(5, 'x', 'y')), opened(f'{A}:1-5:7-8'),
    changes(9, changed(5, 'c', 'd')), changes(10, changed(5, 'd', 'e')), end(9, 1), opened(f'{A}:1-5:7-10'),
    # They begin anew, without an `open`.
    changes(11, made(7, 'x'), made(8, 'x'), made(9, 'x')), changes(12, changed(7, 'x', 'y')),
    changes(11, made(7, 'a'), made(8, 'a')), changes(12, changed(7, 'a', 'b')), end(11, 2), end(12, 1),
    # A power failure leaves zeros, and whole lines after them.
    changes(13, changed(7, 'b', 'x')), bytes(99) + b'\n', changes(14, changed(7, 'x', 'y')), opened(f'{A}:1-5:7-12'),
    changes(13, changed(7, 'b', 'c')), changes(14, changed(7, 'c', 'd')), end(13, 1), end(14, 1),
    # One that is skipped, and one without changes between others.
    opened(f'{A}:1-5:7-14', ''), skipped(15), opened(f'{A}:1-5:7-15'),
    changes(16, changed(7, 'd', 'e')), changes(18, changed(7, 'e', 'f')), end(16, 1), end(17, 0), end(18, 1),
    # Two that are not committed yet.
    changes(19, changed(7, 'f', 'x')), changes(20, changed(7, 'x', 'y')),
])
# The transactions to be used, in order, each with its changes as (row, before, after); the set then, and the rows.
WANTED = [
    (1, [(1, None, 'a'), (2, None, 'a')]), (2, [(1, 'a', 'b')]), (3, [(2, 'a', None), (3, None, 'a')]), (4, [(1, 'b', 'c')]),
    (5, [(5, None, 'a')]), (7, [(5, 'a', 'b')]), (8, [(5, 'b', 'c')]), (9, [(5, 'c', 'd')]), (10, [(5, 'd', 'e')]),
    (11, [(7, None, 'a'), (8, None, 'a')]), (12, [(7, 'a', 'b')]), (13, [(7, 'b', 'c')]), (14, [(7, 'c', 'd')]), (15, []),
    (16, [(7, 'd', 'e')]), (17, []), (18, [(7, 'e', 'f')]),
]
EXECUTED = f'{A}:1-5:7-18'
ROWS = {1: 'c', 3: 'a', 5: 'e', 7: 'f', 8: 'a'}


def sides(it):
    """A change as WANTED has it."""
    before, after = it.get('before'), it.get('after')
    return (before or after)['id'], before and before['name'], after and after['name']


def rows_of(used):
    """The rows that changes make, by their keys; each has to find what it changes."""
    rows = {}
    for number, those in used:
        for row, before, after in those:
            if rows.get(row) != before:
                fail(f'transaction {number} changes {row} from {before}, and it is {rows.get(row)}')
            rows[row] = after
    return {row: name for row, name in rows.items() if name is not None}


def to_be_used(data):
    """What of a feed has to be used, as WANTED has it: the rules of a reader of docs/FORMATS.md, without places, files and memory."""
    waiting, used, is_cut, is_opened = [], [], False, False
    for line in data.split(b'\n')[:-1]:
        try:
            it = json.loads(line)
        except ValueError:
            is_cut = True
            continue
        number = int(it['gtid'].split(':')[1]) if 'gtid' in it else 0
        if is_cut and it['type'] != 'open':
            continue
        mine = [those for those in waiting if those[0] == number]
        if it['type'] == 'open':
            executed = {at for span in it['executed'].split(':')[1:] for lo, hi in [(span.split('-') * 2)[:2]] for at in range(int(lo), int(hi) + 1)}
            used += [those for those in waiting if is_opened and those[0] in executed]
            waiting, is_cut, is_opened = [], False, True
        elif it['type'] in ('commit', 'rollback'):
            waiting = [those for those in waiting if those[0] != number]
            is_new = it['type'] == 'commit' and number not in [those[0] for those in used]
            used += (mine or [(number, [])]) if is_new else []
        elif it['type'] != 'skip' and number not in [those[0] for those in used]:
            if it['n'] == 0:
                waiting = [those for those in waiting if those[0] != number] + [(number, [])]
            next(those for those in waiting if those[0] == number)[1].append(sides(it))
    return used


def regrouped(data, count):
    """A feed of groups of one in groups of so many."""
    out, begun, ends = [], [], []
    for line in [*data.splitlines(keepends=True), b'{"type":"open"']:
        kind = json.loads(line + b'}' * (line[-1:] != b'\n'))['type']
        if kind == 'commit':
            ends.append(line)
        elif kind not in ('open', 'rollback', 'skip'):
            begun.append(line)
            continue
        if kind != 'commit' or len(ends) == count:
            # Lines of a transaction that has not ended stay before what ends it.
            out += [*begun, *ends]
            begun, ends = [], []
        if kind != 'commit' and line[-1:] == b'\n':
            out.append(line)
    return b''.join(out)


class Writer:
    """A database and its feed by chance: `steps` are what is added to the feed, or to which length it is cut, and `used` what the
    database has executed, as WANTED has it."""

    def __init__(self, chance, count=30):
        self.chance, self.count, self.next = chance, count, 1
        self.data, self.rows, self.names = b'', {}, 0
        self.steps, self.used = [], []
        self.add(opened())
        while self.next <= count:
            self.group()

    def add(self, *lines):
        self.steps += [(True, line) for line in lines if line]
        self.data += b''.join(lines)

    def cut(self, size):
        self.steps.append((False, size))
        self.data = self.data[:size]

    def open(self):
        """A line that is cut gets its end."""
        done = [number for number, _ in self.used]
        self.add(b'\n' if self.data[-1:] != b'\n' else b'', opened(f'{A}:' + ':'.join(map(str, done)) if done else ''))

    def made(self, rows, least):
        """The changes of a transaction of these rows, which it changes."""
        found = []
        for _ in range(self.chance.randrange(least, 4)):
            row, self.names = self.chance.randrange(1, 6), self.names + 1
            before, after = rows.get(row), f'{self.names}{"y" * self.chance.choice([0, 0, 0, 40, 400])}'
            after = None if before and self.chance.random() < 0.2 else after
            found.append((row, before, after))
            rows[row] = after
        return found

    def lines(self, number, those):
        return changes(number, *(changed(*it) if it[1] and it[2] else made(it[0], it[2]) if it[2] else gone(it[0], it[1]) for it in those))

    def lost(self, text):
        """What a kill or a power failure leaves of lines that were not synced: they are cut, and zeros in some places."""
        left = bytearray(text[:self.chance.randrange(len(text) + 1)])
        for _ in range(self.chance.randrange(3)):
            begin = self.chance.randrange(len(left) + 1)
            part = self.chance.randrange(len(left) - begin + 1)
            left[begin:begin + part] = bytes(part)
        return bytes(left)

    def group(self):
        numbers = [*range(self.next, min(self.next + self.chance.choice([1, 1, 2, 3, 5]), self.count + 1))]
        kind = self.chance.choice(['commit', 'commit', 'commit', 'killed', 'lost', 'executed', 'refused', 'anew', 'cut', 'open'])
        rows = dict(self.rows)
        group = [(number, self.made(rows, int(kind == 'executed'))) for number in numbers]
        lines = [self.lines(number, those) for number, those in group]
        size = len(self.data)
        text = b''.join(lines)
        if kind == 'open':
            self.open()
            return
        if kind == 'killed':
            self.add(text[:self.chance.randrange(len(text) + 1)])
            self.open()
            return
        if kind == 'lost':
            self.add(self.lost(text))
            self.open()
            return
        if kind == 'cut':
            # What cannot be written to its end, as on a full disk, is cut off, and others come.
            self.add(text[:self.chance.randrange(len(text) + 1)])
            self.cut(size)
            return
        if kind == 'anew':
            self.add(b''.join(lines[:self.chance.randrange(len(lines) + 1)]))
        self.add(*lines)
        if kind == 'refused':
            self.add(*(rollback(number) for number, those in group if those))
            for (number, those), line in zip(group, lines):
                self.add(line, end(number, len(those)))
        else:
            ends = b''.join(end(number, len(those)) for number, those in group)
            self.add(self.lost(ends) if kind == 'executed' else ends)
        self.used, self.rows, self.next = self.used + group, rows, numbers[-1] + 1
        if kind == 'executed':
            self.open()
