"""How what a power failure leaves of a command's files is looked at."""

import json
import os
import shutil
import sys
import tempfile
import uuid
from typing import Collection, Dict, Iterator, List, NamedTuple, Optional, Sequence, Tuple

import reading
from disk import Disk, State, losing
from mrep import MEMORY, PROGRAM, ROOT, Wrong, content, done, same, sqlite3, write
from record import Ended, Op, Recording, Renamed, Said, Write

sys.path.insert(0, os.path.join(ROOT, 'samples'))
from read_feed import Reader, has, read_set
from mrep_sink.faults import Fault
from mrep_sink.feed import GtidSet, Line, Transaction

# The printed set and the lines of `mrep show` of a database; and a transaction as a reader of a feed has it.
Content = Tuple[str, str]
Changes = List[dict]
NOTHING: Content = ('', '')
STATUS, TO = 'status.prom', 'TO'


def printed_set(spans: Collection[Tuple[bytes, int, int]]) -> str:
    found: Dict[str, List[str]] = {}
    for source, low, end in sorted(spans):
        found.setdefault(str(uuid.UUID(bytes=source)), []).append(f'{low}-{end - 1}' if low < end - 1 else f'{low}')
    return ','.join(f'{source}:{":".join(found[source])}' for source in sorted(found))


def opened(folder: str, db: str, aside: str) -> 'sqlite3.Connection':
    """A copy of a database, opened by sqlite3's library."""
    shutil.rmtree(aside, ignore_errors=True)
    os.mkdir(aside)
    for name in (db, f'{db}-wal'):
        if os.path.exists(os.path.join(folder, name)):
            shutil.copyfile(os.path.join(folder, name), os.path.join(aside, name))
    base = sqlite3.connect(os.path.join(aside, db))
    same(f'{db}: integrity', base.execute('PRAGMA integrity_check').fetchall(), [('ok',)])
    return base


def read(folder: str, db: str = 'F') -> Content:
    """What sqlite3 finds in a database, or in none."""
    if not os.path.exists(os.path.join(folder, db)):
        return NOTHING
    try:
        base = opened(folder, db, f'{folder}.aside')
        tables = {name for name, in base.execute("SELECT name FROM sqlite_schema WHERE type = 'table'")}
        if 'spans' in tables:
            spans = base.execute('SELECT source, lo, hi FROM spans').fetchall()
        elif 'executed' in tables:
            spans = [(source, low, high + 1) for source, low, high in
                     base.execute('SELECT source, min(number), max(number) FROM executed GROUP BY source')]
        else:
            return NOTHING
        held = base.execute('SELECT schema_name, table_name, image, n FROM held ORDER BY 1, 2, 3').fetchall()
        base.close()
        lines = [f'{reading.printed(schema)}.{reading.printed(table)} {count} {reading.printed_cells(row)}\n'
                 for schema, table, row, count in held]
        return printed_set(spans), ''.join(lines)
    except sqlite3.Error as error:
        raise Wrong(f'{db}: sqlite3 says {error}') from None


class Adopting(Reader):
    """A reader that takes for used what an `open` has more, as a load's set, and transactions without changes."""

    def opened(self, executed: GtidSet, item: dict, last: Line) -> Iterator[Transaction]:
        self.adopt = True
        return super().opened(executed, item, last)


class Left(NamedTuple):
    """What a power failure may have left; which content was answered before it; and where a reader of the feed was, with what it
    had used."""
    label: str
    state: State
    floor: int
    place: str
    had: List[Changes]


class Job:
    """Commands that make a database come from one content to the next. `again` has what is run after the failure."""
    # What may lie in the folder at the end besides the database and the feeds.
    may_be: Tuple[str, ...] = ()
    # What standard input has.
    data = b''
    # How many states are looked at, where they are large.
    most = 1 << 30
    # Whether rows are kept.
    keeps = True
    # Whether something is lost where nothing was synced.
    needs_syncs = True

    def __init__(self, name: str, folder: str, found: List[Content], *again: List[str]) -> None:
        self.name, self.folder, self.contents, self.again = name, folder, found, again
        self.feeds, self.reader = (), Reader  # type: Tuple[str, ...], type
        self.recording = Recording(folder)
        # The content that each command ends with, and the one that it has as it prints something.
        self.ends, self.said = [len(found) - 1], len(found) - 1
        # What a reader of the feeds has to use.
        self.transactions: List[Changes] = []

    def feed(self, *feeds: str, adopts: bool = False) -> 'Job':
        """With the files of a feed, the oldest first, and whether its reader takes for used what an `open` has more."""
        self.feeds, self.reader = feeds, Adopting if adopts else Reader
        return self

    def record(self) -> 'Job':
        """Records the first command alone, as it is run again."""
        self.recording.run([PROGRAM, *self.again[0]], self.data)
        return self.recorded()

    def recorded(self) -> 'Job':
        same(f'{self.name}: at the end', read(self.folder), self.contents[-1])
        self.transactions, _ = self.used(self.folder)
        if self.feeds and self.keeps:
            # Those that come and that go make the rows that are there.
            kinds = [change['type'] for changes in self.transactions for change in changes]
            there = sum(int(line.split(' ')[1]) for line in self.contents[-1][1].splitlines())
            same(f'{self.name}: the rows of its feed', kinds.count('insert') - kinds.count('delete'), there)
        return self

    def used(self, folder: str, place: str = '') -> Tuple[List[Changes], str]:
        """What a reader that goes on at a place uses of the feeds, and its place then."""
        reader, names = self.reader(place), [os.path.join(folder, it) for it in self.feeds]
        try:
            found = [list(changes) for changes in reader.transactions([it for it in names if os.path.exists(it)])]
            return [changes for changes in found if changes], reader.place()
        except Fault as fault:
            raise Wrong(f'a reader of the feed ends: {fault}') from None

    # While it is recorded

    def moments(self, ops: Sequence[Op]) -> Iterator[Tuple[Disk, int]]:
        """The disk before the first operation and after each, and the content that was answered by then."""
        disk, floor, ended = Disk(self.recording.first, ops), 0, 0
        yield disk, floor
        for op in ops:
            disk.step()
            if isinstance(op, Ended):
                floor, ended = max(floor, self.ends[ended]), ended + 1
            elif isinstance(op, Said):
                sets = [executed for executed, _ in self.contents]
                text = op.data.decode().strip()
                floor = max(floor, sets.index(text) if text in sets else self.said)
            else:
                floor = max(floor, self.told(op, disk))
            yield disk, floor

    def told(self, op: Op, disk: Disk) -> int:
        """The content that a feed or a status says is there, once it says so."""
        executed = ''
        if isinstance(op, Renamed) and op.to == STATUS:
            executed = disk.now()[STATUS][1].decode().partition('# executed ')[2].partition('\n')[0]
        elif isinstance(op, Write) and op.ino in [disk.live.get(it) for it in self.feeds] and b'"commit"' in op.data:
            lines = disk.content(op.ino, losing(())).split(b'\n')[:-1]
            executed = next((json.loads(line)['gtid'] for line in reversed(lines) if line.startswith(b'{"type":"commit"')), '')
        return next(place for place, (found, _) in enumerate(self.contents) if has(read_set(found), read_set(executed)))

    def reads(self, state: State) -> Tuple[str, List[Changes]]:
        """Where a reader is that has read the feeds of a state, and what it has used."""
        with tempfile.TemporaryDirectory(dir=MEMORY) as folder:
            lay({name: it for name, it in state.items() if name in self.feeds}, folder)
            had, place = self.used(folder)
            return place, had

    # After a failure

    def look(self, left: Left) -> str:
        """What is wrong with what was left, if anything is."""
        with tempfile.TemporaryDirectory(dir=MEMORY) as work:
            folder = os.path.join(work, 'left')
            lay(left.state, folder, self.recording.folders)
            try:
                count = self.has_whole(folder, left.floor)
                self.go_on(folder, count)
                self.is_done(folder, count)
                self.is_read(folder, count, left)
            except Wrong as wrong:
                return str(wrong).replace(f'{work}/', '')
        return ''

    def has_whole(self, folder: str, floor: int) -> int:
        """The number of the content that sqlite3 finds, which has what was answered."""
        found = read(folder)
        if found not in self.contents:
            raise Wrong(f'sqlite3 finds no whole number of transactions: {found[0]}')
        count = self.contents.index(found)
        if count < floor:
            raise Wrong(f'{self.contents[floor][0]} was answered, and sqlite3 finds {found[0]}')
        return count

    def run(self, folder: str, words: Sequence[str]) -> Tuple[int, str]:
        ran = done(*words, data=self.data if '-' in words else b'', cwd=folder)
        return ran.returncode, ran.stderr.decode(errors='replace')

    def go_on(self, folder: str, count: int) -> None:
        for words in self.again:
            status, err = self.run(folder, words)
            if status and not self.may_refuse(count, err):
                raise Wrong(f'{words[0]} again ends with {status}: {err}')

    def may_refuse(self, count: int, err: str) -> bool:
        """Whether the command may be refused, since it was done."""
        return False

    def is_done(self, folder: str, count: int) -> None:
        same('at the end', read(folder), self.contents[-1])
        names = {os.path.relpath(os.path.join(base, it), folder) for base, _, files in os.walk(folder) for it in files}
        left = names - {'F', 'F-wal', *self.feeds, *self.may_be}
        if left:
            raise Wrong(f'at the end there is {", ".join(sorted(left))}')
        if STATUS in self.may_be and f'# executed {self.contents[-1][0]}\n' not in content(os.path.join(folder, STATUS)).decode():
            raise Wrong('the status at the end has another set')

    def wanted(self, count: int) -> List[Changes]:
        """What a reader has to use, where a database with the content of this number was left."""
        return self.transactions

    def is_read(self, folder: str, count: int, left: Left) -> None:
        """A reader from the beginning, and one that had read what there was, have each transaction once."""
        places: List[Tuple[str, List[Changes]]] = [('', []), (left.place, left.had)] if self.feeds else []
        for place, had in places:
            found, want = had + self.used(folder, place)[0], self.wanted(count)
            who = 'a reader that goes on' if place else 'a reader'
            same(f'the transactions of {who}', [it[0]['gtid'] for it in found], [it[0]['gtid'] for it in want])
            same(f'the changes of {who}', found, want)


def lay(state: State, folder: str, folders: Collection[str] = ('.',)) -> None:
    """Makes the files of a state: two names of one are links."""
    made: Dict[int, str] = {}
    for name in sorted(folders):
        os.makedirs(os.path.join(folder, name), exist_ok=True)
    for name, (ino, data) in state.items():
        path = os.path.join(folder, name)
        os.makedirs(os.path.dirname(path), exist_ok=True)
        if ino in made:
            os.link(made[ino], path)
        else:
            made[ino] = write(path, data)
            os.chmod(path, 0o600)


class Copied(Job):
    """`copy` and `export` leave the database as it is; TO is as it was, or whole, and once they have ended it is whole."""
    may_be = (TO, f'{TO}-wal')

    def record(self) -> Job:
        self.old = self.there(self.folder)
        super().record()
        self.new = self.there(self.folder)
        if self.new == self.old or self.old and '--force' not in self.again[0]:
            raise Wrong(f'{self.name}: nothing was made')
        self.contents, self.ends = [self.contents[-1]] * 2, [1]
        return self

    def there(self, folder: str) -> Optional[Content]:
        """What TO has."""
        if not os.path.exists(os.path.join(folder, TO)):
            return None
        if self.again[0][0] == 'copy':
            return read(folder, TO)
        try:
            base = opened(folder, TO, f'{folder}.aside')
            found = base.execute('SELECT id, name FROM "shop.items" ORDER BY 1, 2').fetchall()
            base.close()
            return '', str(found)
        except sqlite3.Error as error:
            raise Wrong(f'{TO}: sqlite3 says {error}') from None

    def has_whole(self, folder: str, floor: int) -> int:
        super().has_whole(folder, 0)
        found = self.there(folder)
        if found not in ([self.new] if floor else [self.old, self.new]):
            raise Wrong(f'{TO} is neither as it was nor whole')
        return int(found == self.new)

    def may_refuse(self, count: int, err: str) -> bool:
        return count == 1 and '--force' not in self.again[0] and 'the file exists' in err

    def is_done(self, folder: str, count: int) -> None:
        same('at the end TO', self.there(folder), self.new)
        if count and '--force' not in self.again[0]:
            # Where it was refused, what had made it may lie there: the next one that makes TO takes it.
            for name in (f'{TO}.part', f'{TO}.part-wal', f'{TO}.rows.part', f'{TO}.rows.part-wal'):
                if os.path.exists(os.path.join(folder, name)):
                    os.remove(os.path.join(folder, name))
        super().is_done(folder, count)


class Abandoned(Job):
    """`abandon` gives each run of it a GTID of its own, so a table may have been cleared twice."""

    def may_refuse(self, count: int, err: str) -> bool:
        return count == len(self.contents) - 1 and 'no first copy of tables is unfinished' in err

    def is_done(self, folder: str, count: int) -> None:
        executed, shown = read(folder)
        same('the rows at the end', shown, '')
        if not has(read_set(executed), read_set(self.contents[-1][0])):
            raise Wrong(f'at the end the set is {executed}')


class Reopened(Job):
    """The changes of a transaction are in the feed, and a kill has come before it was committed. An `open` says that they do not
    count, and another kill has come before it was synced; it is found by the next start. Then the transaction is adopted: its
    changes are not to be used."""

    def wanted(self, count: int) -> List[Changes]:
        executed = read_set(self.contents[min(count, len(self.contents) - 2)][0])
        return [it for it in self.transactions if has(executed, read_set(it[0]['gtid']))]

    def is_done(self, folder: str, count: int) -> None:
        same('at the end', read(folder), self.contents[count])
