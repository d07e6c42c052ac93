"""What a power failure may leave of a folder after the first operations of a recording, in five models:

    prefix  all that was done up to then; the last write may be cut at the end of a sector
    ext4    one journal: of the changes of names and lengths a beginning, at least what some sync has forced; of what was
            appended to a file since its last sync a beginning; of what was written over, any sectors
    zeros   as ext4, but a file may be longer than its data: any sectors of what was appended are zeros (XFS)
    posix   what POSIX promises of a disk that writes whole sectors: a sync of a file makes its data and its length sure, and
            not its name; one of a folder the names in it; of anything else any part may be there
    bytes   as posix, and of a write any part, also inside a sector

In all but `bytes` a sector is as it was at some moment. What a renaming does is there or not; in ext4 and zeros a file that
replaces another one has its data."""

import random
from functools import partial
from typing import Callable, Collection, Dict, Iterator, List, NamedTuple, Optional, Sequence, Set, Tuple

from record import NAMING, Cut, Data, Named, Naming, Op, Renamed, Synced, SyncedFolder, Write, change, cut, put

SECTOR, PAGE = 512, 4096
MODELS = ('prefix', 'ext4', 'zeros', 'posix', 'bytes')
# Of how many changes of names all subsets are tried, and how many writes of a moment each by itself.
SUBSETS, SINGLE = 4, 6
State = Dict[str, Tuple[int, bytes]]
Recipe = Tuple[str, Callable[[], State]]


class Part(NamedTuple):
    """What is there of a write: sectors of the file, and up to which place the file is as long as it made it; or a piece of its
    bytes."""
    sectors: Collection[int]
    end: int
    piece: Optional[Tuple[int, int]] = None


# What is there of an operation, by its number, and whether it appends to its file.
How = Callable[[int, Data, bool], Part]
NONE = Part((), 0)


def end_of(op: Data) -> int:
    return op.at + len(op.data) if isinstance(op, Write) else 0


def sectors(op: Data) -> range:
    return range(op.at // SECTOR, -(-end_of(op) // SECTOR)) if isinstance(op, Write) else range(1)


def whole(op: Data) -> Part:
    return Part(sectors(op), end_of(op))


def up_to(op: Data, end: int) -> Part:
    """A write up to a place."""
    return Part([it for it in sectors(op) if it * SECTOR < end], end) if isinstance(op, Write) and end > op.at else NONE


def losing(lost: Collection[int]) -> How:
    """All but these operations."""
    return lambda index, op, _: NONE if index in lost else whole(op)


def ending(at: int, end: int) -> How:
    """All, and of one operation what is before a place."""
    return lambda index, op, _: up_to(op, end) if index == at else whole(op)


def holed(at: int, sector: int) -> How:
    """All, and of one operation all but a sector."""
    return lambda index, op, _: Part({*sectors(op)} - {sector}, end_of(op)) if index == at else whole(op)


def growing(before: int) -> How:
    """All, but what is appended from an operation on."""
    return lambda index, op, appends: NONE if appends and index >= before else whole(op)


def not_over(at: int) -> How:
    """All, but one operation where it writes over."""
    return lambda index, op, appends: NONE if index == at and not appends else whole(op)


def long(over: bool) -> How:
    """The lengths without their data."""
    return lambda index, op, appends: Part((), end_of(op)) if isinstance(op, Write) and (appends or over) else \
        NONE if isinstance(op, Write) else whole(op)


# What is lost of the files where a beginning of the changes of names is there.
LOST: Dict[str, How] = {'': losing(()), ', all data': lambda _, __, ___: NONE, ', what is appended': growing(0),
                        ', what is written over': lambda _, op, appends: whole(op) if appends else NONE}


def some_parts(seed: float, tears: bool) -> How:
    """Some of each write, the same each time."""
    share, torn = random.Random(seed).choice((0.1, 0.5, 0.9, 0.97)), random.Random(seed + 1).choice((0, 0.2, 1))

    def how(index: int, op: Data, _: bool) -> Part:
        chance = random.Random(seed + 10 * index)
        if isinstance(op, Write) and chance.random() < torn:
            if not tears:
                return Part([it for it in sectors(op) if chance.random() < share], end_of(op))
            begin, stop = sorted(chance.randrange(len(op.data) + 1) for _ in range(2))
            return Part((), chance.choice((end_of(op), op.at + stop if stop > begin else 0)), (begin, stop))
        return whole(op) if chance.random() < share else NONE
    return how


def some_growth(seed: float, holes: bool) -> How:
    """Of what is appended to each file some, up to the end of a page, and some sectors of what is written over."""
    share, empty = random.Random(seed).choice((0.2, 0.5, 0.9, 0.97)), random.Random(seed + 1).choice((0, 0.05, 0.3, 0.8))

    def how(index: int, op: Data, appends: bool) -> Part:
        chance = random.Random(seed + 10 * index)
        if not isinstance(op, Write):
            return whole(op)
        if not appends:
            return Part([it for it in sectors(op) if chance.random() < share], 0)
        pages = [op.at, *range((op.at // PAGE + 1) * PAGE, end_of(op), PAGE)]
        part = whole(op) if chance.random() < share else up_to(op, chance.choice(pages))
        return Part([it for it in part.sectors if chance.random() >= empty], part.end) if holes else part
    return how


def combine(data: bytearray, run: List[Tuple[Write, Part]]) -> None:
    """Makes writes of which each sector is as it was at some moment."""
    newest: Dict[int, int] = {}
    for place, (_, part) in enumerate(run):
        newest.update({sector: place for sector in part.sectors})
    size = max([len(data), *(part.end for _, part in run)])
    cut(data, size)
    for place, (op, _) in enumerate(run):
        for sector in sectors(op):
            begin, stop = max(op.at, sector * SECTOR), min(end_of(op), (sector + 1) * SECTOR, size)
            if newest.get(sector, -1) >= place and begin < stop:
                data[begin:stop] = op.data[begin - op.at:stop - op.at]


def folder_of(op: Naming) -> str:
    return op.name.rpartition('/')[0] or '.'


def names_of(op: Naming) -> Set[str]:
    return {op.name, op.to} if isinstance(op, Renamed) else {op.name}


def few(chance: random.Random, items: Sequence, most: int) -> Sequence:
    return items if len(items) <= most else chance.sample(items, most)


class Disk:
    def __init__(self, first: State, ops: Sequence[Op]) -> None:
        self.ops, self.at = ops, 0
        # Of each file what is sure, and what was done to it since.
        self.sure = {ino: bytearray(data) for ino, data in first.values()}
        self.since: Dict[int, List[Tuple[int, Data]]] = {ino: [] for ino in self.sure}
        # The names: at first, those that are sure, and those that a process sees; and the changes that are not sure.
        self.first = {name: ino for name, (ino, _) in first.items()}
        self.names, self.live = dict(self.first), dict(self.first)
        self.moved: List[Tuple[int, Naming]] = []
        # All changes of names and lengths, how many of them are forced, and of each file the last that a sync of it forces.
        self.journal: List[Tuple[int, Op]] = []
        self.forced = 0
        self.last: Dict[Tuple[int, str], int] = {}
        # Where a file has replaced another one.
        self.replaced: Dict[int, int] = {}

    def step(self) -> None:
        """Makes the next operation."""
        op, index = self.ops[self.at], self.at
        self.at += 1
        if isinstance(op, NAMING):
            self.name(index, op)
        elif isinstance(op, (Write, Cut)):
            self.since[op.ino].append((index, op))
            if isinstance(op, Cut):
                self.note(index, op, [op.ino], ('fsync', 'fdatasync'))
        elif isinstance(op, Synced):
            self.sure[op.ino] = bytearray(self.content(op.ino, losing(())))
            self.since[op.ino] = []
            self.forced = max(self.forced, self.last.get((op.ino, op.by), 0))
        elif isinstance(op, SyncedFolder):
            for _, it in self.moved:
                if folder_of(it) == op.name:
                    change(self.names, it)
            self.moved = [(at, it) for at, it in self.moved if folder_of(it) != op.name]
            places = [at for at, (_, it) in enumerate(self.journal, 1) if isinstance(it, NAMING) and folder_of(it) == op.name]
            self.forced = max([self.forced, *places])

    def note(self, index: int, op: Op, files: Collection[int], by: Collection[str]) -> None:
        """A change of the journal that these syncs of these files force."""
        self.journal.append((index, op))
        self.last.update({(ino, it): len(self.journal) for ino in files for it in by})

    def name(self, index: int, op: Naming) -> None:
        if isinstance(op, Named):
            is_new = op.ino not in self.sure
            self.sure.setdefault(op.ino, bytearray())
            self.since.setdefault(op.ino, [])
            self.note(index, op, [op.ino], ('fsync', 'fdatasync') if is_new else ('fsync',))
        else:
            if isinstance(op, Renamed) and op.to in self.live:
                self.replaced[self.live[op.name]] = index
            self.note(index, op, {self.live[it] for it in names_of(op) if it in self.live}, ('fsync',))
        change(self.live, op)
        self.moved.append((index, op))

    # What a state has

    def content(self, ino: int, how: How) -> bytes:
        data, run = bytearray(self.sure[ino]), []  # type: bytearray, List[Tuple[Write, Part]]
        for index, op in self.since[ino]:
            part = how(index, op, False)
            if isinstance(op, Write) and not part.piece:
                run.append((op, part))
                continue
            combine(data, run)
            run = []
            if isinstance(op, Cut):
                if part != NONE:
                    cut(data, op.size)
            elif part.piece:
                cut(data, max(len(data), part.end))
                put(data, op.at + part.piece[0], op.data[slice(*part.piece)])
        combine(data, run)
        return bytes(data)

    def journaled_content(self, ino: int, count: int, how: How) -> bytes:
        """The same after so many changes of the journal: what is appended ends where first a part of it is lost."""
        data, run, grows = bytearray(self.sure[ino]), [], True  # type: bytearray, List[Tuple[Write, Part]], bool
        last, size = self.journal[count - 1][0] if count else -1, len(data)
        for index, op in self.since[ino]:
            if isinstance(op, Cut):
                grows = grows and index <= last
                if grows:
                    combine(data, run)
                    cut(data, op.size)
                    run, size = [], op.size
                continue
            appends = end_of(op) > size
            part = whole(op) if index < self.replaced.get(ino, -1) <= last else how(index, op, appends)
            if appends and not grows:
                continue
            if appends:
                grows, size = part.end == end_of(op), max(size, part.end)
            run.append((op, part))
        combine(data, run)
        return bytes(data)

    def state(self, names: Dict[str, int], how: How) -> State:
        return {name: (ino, self.content(ino, how)) for name, ino in names.items()}

    def now(self) -> State:
        """What a process sees."""
        return self.state(self.live, losing(()))

    def left(self, chosen: Collection[int], how: How) -> State:
        """What is there after some of the changes of names that are not sure: of one name each only after those before it."""
        names, missed = dict(self.names), set()  # type: Dict[str, int], Set[str]
        for index, op in self.moved:
            if index in chosen and not names_of(op) & missed:
                change(names, op)
            else:
                missed |= names_of(op)
        return self.state(names, how)

    def journaled(self, count: int, how: How) -> State:
        names = dict(self.first)
        for _, op in self.journal[:count]:
            change(names, op)
        return {name: (ino, self.journaled_content(ino, count, how)) for name, ino in names.items()}

    # The models

    def recipes(self, model: str, chance: random.Random, tries: int) -> Iterator[Recipe]:
        """States that a power failure may leave now, each with what is lost: the same ones each time, and so many others."""
        if model == 'prefix':
            return self.prefix(chance, tries)
        files = {*self.live.values(), *self.names.values()}
        done = sorted((index, op) for ino in files for index, op in self.since[ino])
        if model in ('posix', 'bytes'):
            return self.posix(done, chance, tries, model == 'bytes')
        return self.ext4([(index, op) for index, op in done if isinstance(op, Write)], chance, tries, model == 'zeros')

    def prefix(self, chance: random.Random, tries: int) -> Iterator[Recipe]:
        yield 'nothing', self.now
        index = self.at - 1
        last = self.ops[index] if self.at else None
        for sector in few(chance, sectors(last)[1:] if isinstance(last, Write) else (), tries):
            yield f'operation {index} from sector {sector} on', partial(self.state, self.live, ending(index, sector * SECTOR))

    def posix(self, done: List[Tuple[int, Data]], chance: random.Random, tries: int, tears: bool) -> Iterator[Recipe]:
        data, names = {index for index, _ in done}, [index for index, _ in self.moved]
        yield 'nothing', partial(self.left, names, losing(()))
        yield 'all data', partial(self.left, names, losing(data))
        yield 'all data but its length', partial(self.left, names, long(True))
        some = [{it for bit, it in enumerate(names) if number >> bit & 1} for number in range((1 << len(names)) - 1)] \
            if len(names) <= SUBSETS else [{*names} - {it} for it in names] + [{*names[:count]} for count in range(len(names))]
        for chosen in some:
            yield f'names but {sorted(chosen)}', partial(self.left, chosen, losing(()))
            yield f'all data, and names but {sorted(chosen)}', partial(self.left, chosen, losing(data))
        for ino in {op.ino for _, op in done}:
            mine = {index for index, op in done if op.ino == ino}
            yield f'file {ino}', partial(self.left, names, losing(mine))
            yield f'all files but {ino}', partial(self.left, names, losing(data - mine))
        for index, op in few(chance, done, SINGLE):
            yield f'operation {index}', partial(self.left, names, losing({index}))
            yield f'all operations but {index}', partial(self.left, names, losing(data - {index}))
            yield f'operations from {index} on', partial(self.left, names, losing({it for it in data if it >= index}))
            for sector in few(chance, sectors(op), 2):
                yield f'sector {sector} of operation {index}', partial(self.left, names, holed(index, sector))
        for number in range(tries if done or names else 0):
            kept = [it for it in names if chance.random() < 0.6]
            yield f'some, {number}', partial(self.left, kept, some_parts(chance.random(), tears))

    def ext4(self, writes: List[Tuple[int, Write]], chance: random.Random, tries: int, holes: bool) -> Iterator[Recipe]:
        full = len(self.journal)
        counts = [self.forced, *few(chance, range(self.forced + 1, full), SINGLE), full]
        for count in counts:
            for what, how in {**LOST, **({', all data but its length': long(False)} if holes else {})}.items():
                yield f'{full - count} changes of names and lengths{what}', partial(self.journaled, count, how)
        for index, op in few(chance, writes, SINGLE):
            yield f'what is appended from operation {index} on', partial(self.journaled, full, growing(index))
            yield f'operation {index} where it writes over', partial(self.journaled, full, not_over(index))
            for page in few(chance, range(op.at // PAGE + 1, -(-end_of(op) // PAGE)), 2):
                yield f'operation {index} from page {page} on', partial(self.journaled, full, ending(index, page * PAGE))
            for sector in few(chance, sectors(op), 2) if holes else ():
                yield f'sector {sector} of operation {index}', partial(self.journaled, full, holed(index, sector))
        for number in range(tries if writes or full > self.forced else 0):
            yield f'some, {number}', partial(self.journaled, chance.choice(counts), some_growth(chance.random(), holes))
