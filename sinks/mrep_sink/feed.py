"""The rules of a reader of mrep's change feed: each transaction is used once.

- The changes of each transaction are kept by its GTID until its `commit`, and used then; at its `rollback` they are dropped.
  Those of others stay. A change with `n` 0 begins its transaction anew.
- At an `open`, those that are kept are used, in the order of their first lines, if its set has their GTID, and the others are
  dropped. Nothing is used before the first `open`, whose set has to be in what was used, and nor may a later one have more.
- A line that is cut, and what follows it up to an `open`, is dropped.
- A line without its line feed is not there yet. A reader goes on at the first line of the oldest transaction that is kept, or, if
  none is, after the last line that was used, an `open`, `commit` or `rollback`; lines from there on are read again, and those
  of transactions that were used are dropped.

A place is a text: that line, by its offsets and its digest, and the set of the transactions that were used. It belongs into the
same commit as what is made of them. The set alone keeps a transaction from being used twice; the line spares reading from the
beginning."""

import gzip
import hashlib
import json
import os
import select
import shutil
import stat
import sys
import tempfile
import time
from bisect import bisect_left, bisect_right
from typing import IO, Any, Callable, Dict, Iterable, Iterator, List, Optional, Tuple, Union

from .faults import RETRY, USAGE, Fault

# How each line of a feed begins.
HEAD = b'{"type":'
# The bytes of lines up to which the changes of all transactions are kept in memory, and how much is read at a time.
LARGE, CHUNK = 1 << 20, 1 << 16
# The seconds between two looks at a file that grows.
LOOK = 0.2
CHANGES = frozenset(('insert', 'update', 'delete', 'truncate', 'skip'))
ENDS = ('open', 'commit', 'rollback')
FORMS = ('hex', 'base64', 'utf8')

# A line of the feed; of each source the first and last numbers of its intervals, ascending and apart; a part of a file.
Item = Dict[str, Any]
GtidSet = Dict[str, List[List[int]]]
Span = Tuple[IO[bytes], int, int]
# Where a line stands, with its bytes or their digest; a line at which a reader goes on, and whether it does so at its beginning.
Line = Tuple[IO[bytes], int, int, Union[bytes, str]]
End = Tuple[Line, bool]
# The same as a place has it: FIRST or LAST, the offsets, and the digest.
Mark = Tuple[str, Tuple[int, int, str]]
FIRST, LAST = 'first', 'last'
START: Mark = (LAST, (0, 0, ''))

# The name under which a change has its line, where lines are kept: no member of a feed has it.
LINE = ''

scan = json.JSONDecoder().scan_once  # type: ignore[attr-defined]


def read_set(printed: str) -> GtidSet:
    """A printed set, or one GTID."""
    found: GtidSet = {}
    source, _, number = printed.partition(':')
    if number.isdecimal():
        return {source: [[int(number), int(number)]]}
    for item in filter(None, printed.split(',')):
        source, *spans = item.split(':')
        found[source] = [[int(number) for number in (span.split('-') * 2)[:2]] for span in spans]
    return found


def print_set(found: GtidSet) -> str:
    return ','.join(':'.join([source, *(f'{lo}-{hi}' if lo < hi else f'{lo}' for lo, hi in found[source])])
                    for source in sorted(found))


def has(found: GtidSet, other: GtidSet) -> bool:
    """Whether a set has all of another one."""
    for source, wanted in other.items():
        spans = found.get(source)
        if not spans:
            return not wanted
        for lo, hi in wanted:
            if hi > spans[-1][1]:
                return False
            at = bisect_right(spans, [lo, sys.maxsize]) - 1
            if at < 0 or spans[at][1] < hi:
                return False
    return True


def add(found: GtidSet, other: GtidSet) -> None:
    for source, wanted in other.items():
        spans = found.setdefault(source, [])
        for lo, hi in wanted:
            if spans and spans[-1][1] == lo - 1:
                spans[-1][1] = hi
                continue
            first = bisect_left(spans, [lo])
            if first and spans[first - 1][1] >= lo - 1:
                first -= 1
            last = first
            while last < len(spans) and spans[last][0] <= hi + 1:
                last += 1
            if first < last:
                lo, hi = min(lo, spans[first][0]), max(hi, spans[last - 1][1])
            spans[first:last] = [[lo, hi]]


def with_all(found: GtidSet, others: List[GtidSet]) -> GtidSet:
    """A set with the numbers of others too."""
    made = {source: [span[:] for span in spans] for source, spans in found.items()}
    for other in others:
        add(made, other)
    return made


def parsed(line: bytes) -> Optional[Item]:
    """What a line with its line feed says; nothing for one that is cut."""
    try:
        text = line.decode()
        item, end = scan(text, 0)
    except (ValueError, StopIteration):
        return None
    return item if end == len(text) - 1 and isinstance(item, dict) and 'type' in item else None


def digest(line: bytes) -> str:
    return hashlib.sha256(line).hexdigest()


def is_named(file: IO[bytes], name: str) -> bool:
    """Whether the file still has its name, or nothing has: one that is renamed is written until the next one is made."""
    try:
        return os.path.samestat(os.stat(name), os.fstat(file.fileno()))
    except FileNotFoundError:
        return True


def open_feed(name: str) -> IO[bytes]:
    """The file of a name, unpacked if it is one of gzip. It has to be a feed: its first line begins as one, and may be cut or
    have zeros."""
    try:
        if stat.S_ISFIFO(os.stat(name).st_mode):
            raise Fault(f'{name}: it is a pipe: let standard input be it, and give -', USAGE)
        file: IO[bytes] = open(name, 'rb')
        if os.pread(file.fileno(), 2, 0) == b'\x1f\x8b':
            unpacked = tempfile.TemporaryFile()
            with file, gzip.open(file) as packed:
                shutil.copyfileobj(packed, unpacked)
            unpacked.flush()
            file = unpacked
        first = os.pread(file.fileno(), len(HEAD), 0).split(b'\n')[0]
    except OSError as error:
        raise Fault(f'{name}: {error.strerror or error}', RETRY) from error
    if any(byte not in (0, want) for byte, want in zip(first, HEAD)):
        raise Fault(f'{name}: it is no change feed of mrep')
    return file


def lines_of(span: Span) -> Iterator[bytes]:
    """The lines of a part of a file, which may be read elsewhere meanwhile."""
    file, at, end = span
    parts: List[bytes] = []
    while at < end:
        data = os.pread(file.fileno(), min(CHUNK, end - at), at)
        if not data:
            raise Fault('a file of the feed has become shorter while it was read: start again')
        at += len(data)
        *lines, rest = data.split(b'\n')
        for line in lines:
            yield b''.join([*parts, line, b'\n'])
            parts = []
        parts.append(rest)


class Kept:
    """Changes of a transaction that has not ended: as they are, or, once too much is kept, where their lines stand."""

    __slots__ = ('gtid', 'number', 'first', 'count', 'size', 'is_in_order', 'is_large', 'keeps_lines', 'items', 'spans')

    def __init__(self, gtid: str, number: GtidSet, first: Optional[Line], keeps_lines: bool) -> None:
        # Its GTID, as a set too, and its first line.
        self.gtid, self.number, self.first, self.keeps_lines = gtid, number, first, keeps_lines
        self.count, self.size, self.is_in_order, self.is_large = 0, 0, True, False
        self.items: List[Item] = []
        self.spans: List[Span] = []

    def copy(self) -> 'Kept':
        made = Kept(self.gtid, self.number, self.first, self.keeps_lines)
        made.count, made.size, made.is_in_order, made.is_large = self.count, self.size, self.is_in_order, self.is_large
        made.items, made.spans = self.items[:], self.spans[:]
        return made

    def add(self, item: Item, line: bytes, file: IO[bytes], begin: int, end: int) -> None:
        count = self.count
        if self.keeps_lines:
            item[LINE] = line
        if item.get('n', count) != count:
            self.is_in_order = False
        self.count = count + 1
        self.size += end - begin
        spans = self.spans
        if count and spans[-1][2] == begin and spans[-1][0] is file:
            spans[-1] = (file, spans[-1][1], end)
        else:
            spans.append((file, begin, end))
        if not self.is_large:
            self.items.append(item)

    def leave(self) -> None:
        """Leaves the changes where their lines stand."""
        self.items, self.is_large = [], True
        if self.first:
            file, begin, end, line = self.first
            self.first = (file, begin, end, digest(line) if isinstance(line, bytes) else line)

    def __iter__(self) -> Iterator[Item]:
        if not self.is_large:
            yield from self.items
            return
        for span in self.spans:
            for line in lines_of(span):
                item = parsed(line)
                if item is None or item.get('gtid') != self.gtid:
                    raise Fault('a file of the feed has changed while it was read: start again', RETRY)
                if self.keeps_lines:
                    item[LINE] = line
                yield item


NOTHING = Kept('', {}, None, False)


class Transaction:
    """What is used at an `open`, `commit` or `rollback`: the changes of a transaction, or none. A large one is read again each
    time that its changes are asked for. An `open` at which several are used gives one after the other."""

    __slots__ = ('adds', 'commit', 'form', 'next_form', 'kept', 'end')

    def __init__(self, adds: List[GtidSet], commit: Item, form: str, kept: Kept, end: Optional[End] = None) -> None:
        # What is added to the set; the line of the end, where it is a `commit`; the form of bytes, and that of what follows; the
        # line at which a reader goes on after it, none of a pipe.
        self.adds, self.commit, self.form, self.next_form, self.kept, self.end = adds, commit, form, form, kept, end

    def __iter__(self) -> Iterator[Item]:
        return iter(self.kept)

    def __len__(self) -> int:
        return self.kept.count


# That nothing more has come.
IDLE = Transaction([], {}, '', NOTHING)


def whole(kept: Kept, item: Item) -> Kept:
    """The changes of a transaction that is used, in their places and as many as its `commit` says."""
    found = kept.count
    wanted = item.get('changes', found)
    if found and not kept.is_in_order or wanted != found:
        raise Fault(f'a part of the feed is missing: transaction {item["gtid"]} has {found} changes'
                    + (f' of {wanted}' if wanted != found else ', which are not numbered 0, 1, 2 and so on')
                    + ': give all files of the feed, the oldest first')
    return kept if found else NOTHING


def place_text(mark: Mark, used: GtidSet, form: str) -> str:
    return json.dumps({mark[0]: mark[1], 'used': print_set(used), **({'bytes': form} if form else {})})


def marked(end: Optional[End]) -> Mark:
    """A line at which a reader goes on, with its digest; none of a pipe."""
    if end is None:
        return START
    (_, begin, after, line), is_first = end
    return (FIRST if is_first else LAST, (begin, after, digest(line) if isinstance(line, bytes) else line))


class Reader:
    """A reader that goes on at a place, or begins, at ''. With `needs_form` an `open` before changes has to say the form of
    bytes; with `keeps_lines` each change has its line as LINE."""

    def __init__(self, place: str, adopt: bool = False, needs_form: bool = False, keeps_lines: bool = False) -> None:
        found = json.loads(place or '{}')
        kind = FIRST if FIRST in found else LAST
        begin, end, line = found.get(kind, START[1])
        self.mark: Mark = (kind, (begin, end, line))
        self.used, self.form = read_set(found.get('used', '')), found.get('bytes', '')
        self.adopt, self.needs_form, self.keeps_lines = adopt, needs_form, keeps_lines
        # The transactions that are open now, by GTID, in the order of their first lines, and the bytes of those in memory.
        self.now: Dict[str, Kept] = {}
        self.held = 0
        # Where the reading of a file begins, and the transactions that are open at its beginning.
        self.begin = 0
        self.older: Dict[str, Kept] = {}
        # Whether a line was cut, and whether an `open` has come.
        self.is_cut, self.is_opened = False, False
        # The line at which it goes on, of which the digest is made once it is asked for.
        self.end: Optional[End] = None
        # What hears of a line that is cut: the file, and its offset.
        self.on_cut: Callable[[str, int], None] = lambda name, at: None

    def place(self) -> str:
        return place_text(self.stands(), self.used, self.form)

    def stands(self) -> Mark:
        """The line of the place."""
        if self.end:
            self.mark, self.end = marked(self.end), None
        return self.mark

    def is_in(self, file: IO[bytes]) -> bool:
        """Whether a file has the line of the place."""
        begin, end, line = self.mark[1]
        return end > 0 and digest(os.pread(file.fileno(), end - begin, begin)) == line

    def transactions(self, names: List[str], follow: bool = False, idle: bool = False) -> Iterator[Transaction]:
        """The transactions of the files, or of standard input as `-`, also those without changes; `place` is then the place
        after it. With `idle` there is also IDLE each time that nothing more has come."""
        if names == ['-']:
            yield from self.piped(sys.stdin.fileno(), idle)
            return
        names = self.unread(names, follow)
        while names:
            while follow and len(names) == 1 and not os.path.exists(names[0]):
                time.sleep(LOOK)
            # It is closed once nothing is kept of it.
            file, goes_on = open_feed(names[0]), True
            while goes_on:
                # One that was renamed is written until the next one is there.
                goes_on = follow and (len(names) == 1 and is_named(file, names[0]) or len(names) == 2
                                      and not os.path.exists(names[1]))
                yield from self.read(file, names[0])
                if goes_on:
                    if idle:
                        yield IDLE
                    time.sleep(LOOK)
            self.begin, self.older = 0, self.now
            if len(names) > 1 or not follow:
                del names[0]

    def unread(self, names: List[str], follow: bool) -> List[str]:
        """The files from that of the place on; all, where that is not there any more. The last one may not be there yet where it
        is followed."""
        kind, (begin, end, _) = self.stands()
        self.begin, self.older = begin if kind == FIRST else end, {}
        for at in reversed(range(len(names))):
            if follow and at == len(names) - 1 and not os.path.exists(names[at]):
                continue
            with open_feed(names[at]) as file:
                if self.is_in(file):
                    self.is_opened = True
                    return names[at:]
        self.begin = 0
        return names[:]

    def read(self, file: IO[bytes], name: str = 'the feed') -> Iterator[Transaction]:
        """Reads a file as far as it is written. The transactions that are open at its end are then in `now`. They are read again
        the next time, since mrep cuts lines off where it cannot write the others."""
        self.stands()
        if self.begin and not self.is_in(file):
            self.begin = 0  # It stands in an older file, or a power failure has left less of this one.
        older = {} if self.begin else self.older
        self.now = {gtid: kept.copy() for gtid, kept in older.items() if not has(self.used, kept.number)}
        self.held = sum(kept.size for kept in self.now.values() if not kept.is_large)
        at, self.is_cut = self.begin, False
        # With a buffer of its own, which has nothing that was cut off.
        with open(os.dup(file.fileno()), 'rb') as lines:
            lines.seek(at)
            take = self.take
            for line in lines:
                if line[-1:] != b'\n':
                    break
                begin, at = at, at + len(line)
                for transaction in take(line, begin, at, file, name):
                    # What is read again, and where the place stays, was given before.
                    if transaction.adds or marked(transaction.end) != self.stands():
                        self.give(transaction)
                        yield transaction

    def give(self, transaction: Transaction) -> None:
        """Goes on to the place after a transaction that is used."""
        for gtids in transaction.adds:
            add(self.used, gtids)
        self.form, self.end = transaction.next_form, transaction.end
        if self.end:
            (_, begin, end, _), is_first = self.end
            self.begin = begin if is_first else end

    def piped(self, descriptor: int, idle: bool) -> Iterator[Transaction]:
        """Reads a pipe to its end. Its lines are also in a file without a name, for what is large."""
        file, at = tempfile.TemporaryFile(), 0
        self.mark = START
        for line in lines_as_they_come(descriptor):
            if line is None:
                if idle:
                    yield IDLE
                continue
            file.write(line)
            begin, at = at, at + len(line)
            is_used = False
            for transaction in self.take(line, begin, at, file, 'the feed'):
                file.flush()
                transaction.end, is_used = None, True
                self.give(transaction)
                yield transaction
            if is_used and at > LARGE:
                # The older one is there while something stands in it.
                file, at = tempfile.TemporaryFile(), 0

    def take(self, line: bytes, begin: int, end: int, file: IO[bytes], name: str) -> Iterable[Transaction]:
        """Takes a line. Answers what is used at it, if it is the end of something."""
        item = parsed(line)
        if item is None:
            if not self.is_cut:
                self.on_cut(name, begin)
            self.is_cut = True
            return ()
        try:
            kind = item['type']
            if self.is_cut and kind != 'open':
                return ()
            if kind in CHANGES:
                gtid = item['gtid']
                kept = self.now.get(gtid)
                if kept is None or item.get('n') == 0:
                    kept = self.begun(gtid, (file, begin, end, line))
                if kept is not None and kind != 'skip':
                    kept.add(item, line, file, begin, end)
                    if not kept.is_large:
                        self.held += end - begin
                        if self.held > LARGE:
                            self.held -= kept.size
                            kept.leave()
                return ()
            if kind not in ENDS:
                raise Fault(f'{name}: a line of the type {kind} at {begin}, which is not known here: a later version is needed')
            last = (file, begin, end, line)
            used: Iterable[Transaction]
            if kind == 'open':
                used = self.opened(read_set(item['executed']), item, last)
            else:
                used = (self.ended(item, last),)
        except (AttributeError, KeyError, TypeError, ValueError) as error:
            raise Fault(f'{name}: the line at {begin} is none of a feed of mrep') from error
        self.is_cut = False
        return used

    def begun(self, gtid: str, first: Line) -> Optional[Kept]:
        """A transaction that begins with a line; none where it was used. What was kept of it is dropped."""
        if gtid in self.now:
            self.take_out(gtid)
        number = read_set(gtid)
        if has(self.used, number):
            return None
        kept = self.now[gtid] = Kept(gtid, number, first, self.keeps_lines)
        return kept

    def take_out(self, gtid: str) -> Kept:
        """What is kept of a transaction, which is not open any more."""
        kept = self.now.pop(gtid, NOTHING)
        if not kept.is_large:
            self.held -= kept.size
        return kept

    def end_at(self, last: Line) -> End:
        """Where a reader goes on that has used this line."""
        for kept in self.now.values():
            if kept.first:
                return kept.first, True
        return last, False

    def ended(self, item: Item, last: Line) -> Transaction:
        """What is used at a `commit` or a `rollback`."""
        gtid: str = item['gtid']
        kept = self.take_out(gtid)
        number = kept.number or read_set(gtid)
        # What is kept was not used.
        if item['type'] == 'rollback' or kept is NOTHING and has(self.used, number):
            return Transaction([], {}, self.form, NOTHING, self.end_at(last))
        if not self.is_opened:
            raise Fault(f'the feed begins with the transaction {gtid} and not with an open: a part before it is missing: '
                        'give all files of the feed, the oldest first')
        kept = whole(kept, item)
        if self.needs_form and not self.form and kept.count:
            raise Fault('the feed does not say the form of its bytes: it was written by an older mrep. Let this one write a new file')
        return Transaction([number], item, self.form, kept, self.end_at(last))

    def opened(self, executed: GtidSet, item: Item, last: Line) -> Iterator[Transaction]:
        """What is used at an `open`, in order. Its set has nothing else that was not used."""
        self.now = {gtid: kept for gtid, kept in self.now.items() if self.is_opened and has(executed, kept.number)}
        used = Transaction([], {}, self.form, NOTHING, (last, False))
        while self.now:
            used = self.ended({'type': 'commit', 'gtid': next(iter(self.now))}, last)
            if self.now:
                yield used
        self.held = 0
        known = with_all(self.used, used.adds) if used.adds else self.used
        if not has(known, executed):
            if not self.adopt:
                raise Fault(f'the database has {item["executed"]}, and its feed gave {print_set(known)} (a file of the feed '
                            'is missing: give all, the oldest first; or they were skipped or adopted, which --adopt takes; or a '
                            'pipe has lost them: begin anew)')
            used.adds.append(executed)
            self.adopt = False
        self.is_opened = True
        # That of `skip`, which no changes follow, does not say it.
        form = used.next_form = item.get('bytes', '')
        if self.needs_form and form and form not in FORMS:
            raise Fault(f'the feed has bytes in the form {form}, which is not known here')
        yield used


def lines_as_they_come(descriptor: int) -> Iterator[Optional[bytes]]:
    """The lines of a pipe, and None where nothing more has come for a while. What has no line feed at the end is dropped."""
    ready, parts = select.poll(), [b'']
    ready.register(descriptor, select.POLLIN)
    while True:
        if not ready.poll(LOOK * 1000):
            yield None
            continue
        data = os.read(descriptor, CHUNK)
        if not data:
            return
        *lines, rest = data.split(b'\n')
        for line in lines:
            yield b''.join([*parts, line, b'\n'])
            parts = []
        parts.append(rest)
