"""The commands that are recorded: one of each that writes, with what its database comes from and to."""

import hashlib
import os
import random
import shutil
import uuid
from typing import Iterator, List, Sequence, Tuple

import copies
import reading
from events import BEGIN, FORMAT, MAP, dump, event, gtid, rows
from look import NOTHING, STATUS, TO, Abandoned, Content, Copied, Job, Reopened, read
from mrep import A, PROGRAM, Wrong, done, same, sqlite3, write
from record import Recording, Synced, Write

FEED, NEXT, ASIDE = 'feed.json', 'next.json', 'feeds/feed.json'
# MySQL's greatest transaction number.
LAST = 2 ** 63 - 2
COLUMNS = b'shop\titems\tid\tint\tNULL\t\nshop\titems\tname\tvarchar(20)\tutf8mb4\t\n'
LAYOUT_1 = '''PRAGMA journal_mode = WAL; CREATE TABLE meta (k TEXT PRIMARY KEY, v INTEGER NOT NULL);
CREATE TABLE held (schema_name BLOB NOT NULL, table_name BLOB NOT NULL, image BLOB NOT NULL, n INTEGER NOT NULL CHECK (n > 0),
PRIMARY KEY (schema_name, table_name, image));
CREATE TABLE executed (source BLOB NOT NULL, number INTEGER NOT NULL, PRIMARY KEY (source, number));
INSERT INTO meta VALUES ('layout', 1);'''
# The set of the first copy that is loaded, and its rows.
COPIED, COPY = f'{A}:1-9', {number: b'copied %d' % number for number in range(90)}


def image(number: int, text: str = '') -> bytes:
    """A row of shop.items."""
    made = (text or f'row {number:012d}').encode()
    return b'\0' + number.to_bytes(4, 'little') + bytes([len(made)]) + made


def images(*numbers: int) -> List[bytes]:
    return [*map(image, numbers)]


def transaction(number: int, *changes: bytes) -> List[bytes]:
    """The payloads of a transaction."""
    return [gtid(number), BEGIN, *([MAP, *changes] if changes else []), event(16, number.to_bytes(8, 'little'))]


HISTORY = [
    transaction(1, rows(30, *images(1, 2, 3))),
    transaction(2, rows(30, *images(4)), rows(30, *images(4))),
    transaction(3, rows(31, image(1), image(1, 'other')), rows(32, image(2))),
    transaction(4),
    transaction(5, rows(30, *images(*range(10, 70)))),
    transaction(6, rows(31, image(10), image(10, 'new'), image(11), image(11, 'new'))),
    transaction(7, rows(32, *images(*range(20, 40)))),
    transaction(8, rows(30, *images(5, 6)))]


def stream(transactions: Sequence[Sequence[bytes]]) -> bytes:
    """What a source sends of these transactions."""
    return dump(FORMAT, *(payload for it in transactions for payload in it))


def contents(transactions: Sequence[Sequence[bytes]]) -> List[Content]:
    """What a database has after each number of transactions, by the independent reading."""
    database, found = reading.Database(), [NOTHING]
    for it in transactions:
        reading.Connection(stream([it]), database).read()
        found.append((database.gtids().strip(), database.show()))
    return found


def replay(file: str, *words: str) -> List[str]:
    return ['replay', '--db', 'F', *words, file]


def opening(feed: str) -> List[str]:
    """A command that writes an `open` alone."""
    return replay('/dev/null', '--changes', feed)


def loaded(copy: bytes) -> List[Content]:
    """What a load comes from and to: nothing, begun, with its rows, ended."""
    order = sorted(COPY, key=lambda number: number.to_bytes(4, 'little'))
    shown = ''.join(f'shop.items 1 {number}/4,x{COPY[number].hex()}\n' for number in order)
    sets = [copies.loaded_set(COPIED, copy, COLUMNS, rows_in, is_ended) for rows_in, is_ended in ((0, False), (1, False), (1, True))]
    return [NOTHING, (sets[0], ''), (sets[1], shown), (sets[2], shown)]


class Makers:
    """Makes the jobs, each in a folder of its own."""

    def __init__(self, work: str) -> None:
        self.work, self.history = work, contents(HISTORY)
        self.stream, self.half = self.file('stream.bin', stream(HISTORY)), self.file('half.bin', stream(HISTORY[:4]))
        self.columns = self.file('items.columns', COLUMNS)
        lines = [b'shop\titems\t%d\t%s' % (number, it.hex().upper().encode()) for number, it in COPY.items()]
        self.copy = copies.text(COPIED, lines)
        self.copy_file = self.file('copy.tsv', self.copy)

    def file(self, name: str, data: bytes) -> str:
        return write(os.path.join(self.work, name), data)

    def folder(self, name: str) -> str:
        folder = os.path.join(self.work, name)
        os.makedirs(os.path.join(folder, 'feeds'))
        return folder

    def mrep(self, folder: str, *words: str) -> None:
        """Runs a command that is not recorded."""
        ran = done(*words, cwd=folder)
        if ran.returncode:
            raise Wrong(f'{words} ends with {ran.returncode}: {ran.stderr.decode()}')

    def replayed(self, name: str, file: str, *words: str) -> str:
        """A folder with a database that has this stream."""
        folder = self.folder(name)
        self.mrep(folder, *replay(file, *words))
        return folder

    # The jobs

    def replay(self, name: str = 'replay', feed: str = FEED) -> Job:
        """A new database, with a new feed and a status."""
        job = Job(name, self.folder(name), self.history, replay(self.stream, '--changes', feed, '--status', STATUS))
        job.may_be = (STATUS,)
        return job.feed(feed, adopts=True).record()

    def replay_aside(self) -> Job:
        return self.replay('replay with a feed in another folder', ASIDE)

    def replay_on(self) -> Job:
        name, words = 'replay that goes on', ('--changes', FEED)
        job = Job(name, self.replayed(name, self.half, *words), self.history, replay(self.stream, *words))
        return job.feed(FEED, adopts=True).record()

    def replay_unkept(self) -> Job:
        """A new database that keeps no rows."""
        name = 'replay that keeps no rows'
        job = Job(name, self.folder(name), [(gtids, '') for gtids, _ in self.history], replay(self.stream, '--feed-only', '--changes', FEED))
        job.keeps = False
        return job.feed(FEED, adopts=True).record()

    def killed(self, call: Tuple[str, int]) -> Job:
        """A replay that is killed before a call, and is started again."""
        name = f'replay after a kill before {call[0]} {call[1]}'
        job = Job(name, self.folder(name), self.history, replay(self.stream, '--changes', FEED)).feed(FEED, adopts=True)
        job.ends = [0, len(self.history) - 1]
        job.recording.run([PROGRAM, *job.again[0]], killed_at=call)
        return job.record()

    def asked(self, call: Tuple[str, int]) -> Job:
        """A replay that is killed before a call, and `gtids`, which answers what there is."""
        name = f'gtids after a kill before {call[0]} {call[1]}'
        words = ('--changes', FEED)
        job = Job(name, self.replayed(name, self.half, *words), self.history, replay(self.stream, *words))
        job.recording.run([PROGRAM, *job.again[0]], killed_at=call)
        job.recording.run([PROGRAM, 'gtids', '--db', 'F'])
        count = self.history.index(read(job.folder))
        job.ends, job.needs_syncs, job.may_be = [0, count], count > 4, (FEED,)
        return job

    def long(self) -> Job:
        """A replay whose WAL file is begun anew while it is read. Each transaction takes the rows of the one before out."""
        def made(number: int) -> List[bytes]:
            return [image(it, f'{it} '.ljust(250, '-')) for it in range(number * 200, number * 200 + 200)]
        more = [transaction(9, rows(30, *made(9)))]
        more += [transaction(number, rows(30, *made(number)), rows(32, *made(number - 1))) for number in range(10, 35)]
        file, found = self.file('long.bin', stream([*HISTORY, *more])), contents([*HISTORY, *more])[len(HISTORY):]
        job = Job('long replay', self.replayed('long replay', self.stream), found, replay(file))
        job.most = 60
        return job.record()

    def after_changes(self, number: int) -> Tuple[str, int]:
        """The call of a replay into a new database that comes after the sync of the changes of a transaction."""
        recording, begun = Recording(self.folder('probe')), False
        recording.run([PROGRAM, *replay(self.stream, '--changes', FEED)])
        for place, op in enumerate(recording.ops):
            if isinstance(op, Write) and op.ino == recording.names[FEED] and f'"gtid":"{A}:{number}"'.encode() in op.data:
                begun = True
            if begun and isinstance(op, Synced) and op.ino == recording.names[FEED]:
                return recording.calls[place + 1]
        raise Wrong('the changes of a transaction are not synced')

    def reopened(self) -> Job:
        again, adopted = opening(FEED), (f'{A}:1-5', self.history[4][1])
        job = Reopened('adopt after an open that was not synced', self.folder('reopened'), [*self.history[:5], adopted], again)
        job.feed(FEED, adopts=True)
        job.recording.run([PROGRAM, *replay(self.stream, '--changes', FEED)], killed_at=self.after_changes(5))
        probe = Recording(shutil.copytree(job.folder, f'{job.folder}.probe'))
        probe.run([PROGRAM, *again])
        syncs = [call for op, call in zip(probe.ops, probe.calls) if isinstance(op, Synced) and op.ino == probe.names[FEED]]
        job.recording.run([PROGRAM, *again], killed_at=syncs[0])
        job.recording.run([PROGRAM, *again])
        job.recording.run([PROGRAM, 'adopt', '--db', 'F', f'{A}:5'])
        job.ends, job.said = [0, 0, 4, 5], 4
        return job.recorded()

    def follow(self, port: str) -> Job:
        source = ['--host', '127.0.0.1', '--port', port, '--user', 'u', '--password-file', '/dev/null', '--server-id', '7']
        words = ['follow', *source, '--db', 'F', '--changes', FEED, '--status', STATUS]
        job = Job('follow', self.folder('follow'), self.history, words)
        job.may_be = (STATUS,)
        return job.feed(FEED, adopts=True).record()

    def load(self) -> Job:
        words = ['load', '--db', 'F', '--columns', self.columns, '--changes', ASIDE, self.copy_file]
        return Job('load', self.folder('load'), loaded(self.copy), words, opening(ASIDE)).feed(ASIDE, adopts=True).record()

    def load_input(self) -> Job:
        words = ['load', '--db', 'F', '--columns', self.columns, '--sha1', hashlib.sha1(self.copy).hexdigest(), '-']
        job = Job('load of standard input', self.folder('input'), loaded(self.copy), words)
        job.data = self.copy
        return job.record()

    def changed(self, command: str, feed: str, *words: str, rows_left: bool = True) -> Job:
        """A command that executes A:9 in one commit, with a new feed."""
        last = (f'{A}:1-9', self.history[-1][1] if rows_left else '')
        again = [command, '--db', 'F', '--changes', feed, *words]
        folder = self.replayed(command, self.stream, '--changes', FEED)
        return Job(command, folder, [self.history[-1], last], again, opening(feed)).feed(FEED, feed).record()

    def skip(self) -> Job:
        return self.changed('skip', NEXT, f'{A}:9')

    def clear(self) -> Job:
        return self.changed('clear', ASIDE, '--gtid', f'{A}:9', '--at', f'{A}:1-8', 'shop.items', rows_left=False)

    def adopt(self) -> Job:
        found = [self.history[-1], (f'{A}:1-9', self.history[-1][1])]
        return Job('adopt', self.replayed('adopt', self.stream), found, ['adopt', '--db', 'F', f'{A}:9']).record()

    def copied(self, command: str, is_forced: bool) -> Job:
        """A copy, which with `--force` replaces one that was made before."""
        name = f'{command}{" --force" if is_forced else ""}'
        folder = self.replayed(name, self.half)
        words = [command, '--db', 'F', *(['--columns', self.columns] if command == 'export' else []), TO]
        if is_forced:
            self.mrep(folder, *words)
            self.mrep(folder, *replay(self.stream))
            words.append('--force')
        return Copied(name, folder, self.history if is_forced else self.history[:5], words).record()

    def abandon(self) -> Job:
        """Of a copy without the mark of its end."""
        folder = self.folder('abandon')
        self.mrep(folder, 'load', '--db', 'F', '--columns', self.columns, self.copy_file)
        with sqlite3.connect(os.path.join(folder, 'F')) as base:
            base.execute('UPDATE spans SET hi = hi - 1 WHERE hi = ?', [LAST + 1])
        base.close()
        begun, shown = loaded(self.copy)[1][0].replace(':1:', ':1-2:'), loaded(self.copy)[-1][1]
        same('the copy that is given up', read(folder), (begun, shown))
        spans = (f'{LAST - 1}', f'{LAST - 2}-{LAST - 1}', f'{LAST - 3}-{LAST - 1}', f'{LAST - 3}-{LAST}')
        found = [(begun.replace(f'{LAST - 1}', span), it) for span, it in zip(spans, (shown, shown, '', ''))]
        job = Abandoned('abandon', folder, found, ['abandon', '--db', 'F', 'shop.items'])
        job.said = 2
        return job.record()

    def migrated(self) -> Job:
        """A database of layout 1."""
        folder = self.folder('gtids of layout 1')
        with sqlite3.connect(os.path.join(self.replayed('layout 2', self.half), 'F')) as base:
            held = base.execute('SELECT * FROM held').fetchall()
        base.close()
        with sqlite3.connect(os.path.join(folder, 'F')) as base:
            base.executescript(LAYOUT_1)
            base.executemany('INSERT INTO held VALUES (?, ?, ?, ?)', held)
            base.executemany('INSERT INTO executed VALUES (?, ?)', [(uuid.UUID(A).bytes, number) for number in range(1, 5)])
        base.close()
        return Job('gtids of layout 1', folder, [self.history[4]], ['gtids', '--db', 'F']).record()

    def all(self, port: str, chance: random.Random, kills: int) -> Iterator[Job]:
        """The jobs, each recorded as it is asked for, with so many that begin with a kill before some call."""
        for job, killed in ((self.replay(), self.killed), (self.replay_on(), self.asked)):
            yield job
            calls = [call for call, op in zip(job.recording.calls, job.recording.ops) if isinstance(op, (Write, Synced))]
            for call in chance.sample(calls, kills):
                yield killed(call)
        yield self.replay_aside()
        yield self.replay_unkept()
        if kills > 1:
            yield self.long()
        yield self.reopened()
        yield self.follow(port)
        yield self.load()
        yield self.load_input()
        yield self.skip()
        yield self.clear()
        yield self.adopt()
        for command in ('copy', 'export'):
            for is_forced in (False, True):
                yield self.copied(command, is_forced)
        yield self.abandon()
        yield self.migrated()
