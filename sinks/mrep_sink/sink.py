"""What sinks of SQL have in common: runs of changes, commits with the place in them, and how a batch that fails comes again."""

import time
from typing import TYPE_CHECKING, Any, Callable, Dict, Generic, Iterable, Iterator, List, NoReturn, Optional, Tuple, TypeVar

from .description import Table, written
from .faults import ACT, Fault, shown
from .feed import IDLE, LARGE, Item, Reader, Transaction, add, marked, place_text, print_set, read_set
from .options import Options
from .report import Report

if TYPE_CHECKING:
    from .exported import Exported

# How many bytes of lines are put together at most.
RUN_BYTES = 1 << 20

Place = Tuple[str, str]


# A change: the values of the row before and after it, what the feed says, and when its transaction was committed.
Entry = Tuple[Optional[List[Any]], Optional[List[Any]], Item, Optional[int]]


class Target:
    """A table of the sink."""

    def __init__(self, table: Table) -> None:
        self.table, self.title = table, table.title
        self.key_names = table.key_names
        # What it was made with.
        self.description = '\n'.join(table.lines)
        # Makes the values of a row of the feed.
        self.values: Callable[[Dict[str, Any], str], List[Any]] = table.values


T = TypeVar('T', bound=Target)


class Sink:
    """Something that takes batches of transactions, with the place after them in the same commit."""

    # The place, as the reader takes it, and the executed set, both as they were committed last; whether it needs the lines.
    held: Place
    keeps_lines = False
    # From how many bytes of lines on a batch is given.
    batch_bytes = LARGE

    def write(self, batch: List[Transaction], after: Place, is_careful: bool) -> None:
        """Commits a batch. After a fault nothing of it is there. A careful one says which change it is."""
        raise NotImplementedError


class SqlSink(Sink, Generic[T]):
    """A sink of tables."""

    # How many changes are put together at most, and what messages call the sink.
    most, where = 500, ''

    def __init__(self, described: Dict[Tuple[str, str], Table], options: Options) -> None:
        self.described, self.options = described, options
        self.targets: Dict[Tuple[str, str], T] = {}

    def flush(self, target: T, kind: str, entries: List[Entry]) -> None:
        """Makes a run of changes of one table and one kind, each of which changes one row."""
        raise NotImplementedError

    def empty(self, target: T, change: Item, committed: Optional[int]) -> None:
        """Takes all rows of a table out, at a `truncate`."""
        raise NotImplementedError

    def use(self, batch: List[Transaction], is_careful: bool) -> None:
        """Makes the changes of transactions, in runs of one table and one kind, in order."""
        target: Optional[T] = None
        kind = ''
        entries: List[Entry] = []
        targets = self.targets
        for transaction in batch:
            kept, form = transaction.kept, transaction.form
            if not kept.count:
                continue
            most = 1 if is_careful else max(1, min(self.most, RUN_BYTES * kept.count // (kept.size + 1)))
            committed = transaction.commit.get('committed_us')
            for change in kept:
                wanted = targets.get((change['schema'], change['table']))
                if wanted is None:
                    self.leave_out(change)
                    continue
                if wanted is not target or change['type'] != kind or len(entries) >= most:
                    if target and entries:
                        self.flush(target, kind, entries)
                    target, kind, entries = wanted, change['type'], []
                if kind == 'truncate':
                    self.empty(wanted, change, committed)
                    continue
                before, after = change.get('before'), change.get('after')
                entries.append((None if before is None else wanted.values(before, form),
                                None if after is None else wanted.values(after, form), change, committed))
                if tuple(change.get('key', ())) != wanted.key_names:
                    raise Fault(wanted.table.unfit('the feed has another key'))
        if target and entries:
            self.flush(target, kind, entries)

    def exported(self, needed: Iterable[Tuple[str, str]], executed: Optional[str] = None) -> 'Optional[Exported]':
        """The file of `--rebuild`, if one is given: it has the tables that are needed, and the transactions that the sink has, or
        any where that is new."""
        if not self.options.rebuild:
            return None
        from .exported import Exported
        found = Exported(self.options.rebuild, {place: target.table for place, target in self.targets.items()})
        for place in needed:
            if place not in found.names:
                raise Fault(f'{found.path}: it has no table {".".join(map(written, place))}, whose rows from before are missing: '
                            f'export it with the others, or leave it out by --only')
        if executed is not None:
            found.check(executed)
        return found

    def others(self, name: str, has_history: bool, made: Dict[Tuple[str, str], str],
               exported: 'Optional[Exported]' = None) -> List[T]:
        """The tables that were made with another description. Other tables than those that were made are refused. Those that an
        export has are not looked at."""
        if name != self.options.name:
            raise Fault(f'{self.where}: it is the sink of the feed {name}, and not of {self.options.name}: --name {name}')
        if has_history and not self.options.history:
            raise Fault(f'{self.where}: it has a history, which would have a gap: give --history')
        anew = exported.names if exported else {}
        for place in sorted({*made, *self.targets} - {*anew}):
            title = '.'.join(map(written, place))
            if place not in self.targets:
                raise Fault(f'{self.where}: it has the table {title}, whose changes would be lost: name it by --only too')
            if place not in made:
                raise Fault(f'{self.where}: it was made without the table {title}, whose rows from before are missing: leave it '
                            f'out by --only, or take them from an export by --rebuild')
        return [target for place, target in self.targets.items() if place not in anew and made[place] != target.description]

    def has_rows(self, target: T) -> NoReturn:
        raise Fault(f'{target.title}: it has rows of another description: give the older one until they are gone from the feed, '
                    'as by `mrep clear --changes`, or take those of an export by --rebuild')

    def leave_out(self, change: Item) -> None:
        """A change of a table that is not wanted. Without `--only` all are."""
        place = (change['schema'], change['table'])
        if not self.options.only and place not in self.described:
            raise Fault(f'{shown(".".join(place))[1:-1]}: the feed has rows of it, and it is not described: fetch the '
                        f'description, '
                        'or name the tables that are wanted by --only')

    def refuse(self, target: Target, entry: Entry, why: str) -> NoReturn:
        """Ends for a change that cannot be made."""
        change = entry[2]
        row = change.get('key') or change.get('before') or change.get('after')
        raise Fault(f'{target.title}: {why}: {shown(row)} (transaction {change["gtid"]}, {change["type"]} {change.get("n", "")})')


class Committer:
    """Gives batches to a sink, and what a batch cannot give again one by one."""

    def __init__(self, sink: Sink, options: Options, report: Report) -> None:
        self.sink, self.options, self.report = sink, options, report
        self.used = read_set(sink.held[1])
        report.executed = sink.held[1]

    def run(self) -> None:
        """Reads the feed to its end, or for ever."""
        reader = Reader(self.sink.held[0], self.options.adopt, needs_form=True, keeps_lines=self.sink.keeps_lines)
        reader.on_cut = lambda name, at: self.report.say(f'{name}: a line is cut at {at}: what follows is left out up to an open')
        batch: List[Transaction] = []
        most, batch_bytes, now = self.options.batch, self.sink.batch_bytes, time.monotonic
        size, begun = 0, now()
        for transaction in self.taken(reader, batch):
            if transaction is not IDLE:
                batch.append(transaction)
                size += transaction.kept.size
                if len(batch) < most and size < batch_bytes and now() - begun < 1:
                    continue
            self.commit(batch)
            size, begun = 0, now()
            self.report.tick()
        self.commit(batch)

    def taken(self, reader: Reader, batch: List[Transaction]) -> Iterator[Transaction]:
        """What the reader gives. What stands before a fault of the feed is committed."""
        try:
            yield from reader.transactions(self.options.feed, self.options.follow, idle=True)
        except Fault:
            self.commit(batch)
            raise

    def commit(self, batch: List[Transaction]) -> None:
        """Commits a batch, which is empty then. After a fault its transactions come one by one, up to the faulty one."""
        given, batch[:] = batch[:], []
        if not given:
            return
        try:
            self.write(given, False)
        except Fault as fault:
            if fault.status != ACT:
                raise
            self.used = read_set(self.sink.held[1])
            for transaction in given:
                self.write([transaction], True)

    def write(self, batch: List[Transaction], is_careful: bool) -> None:
        for transaction in batch:
            for gtids in transaction.adds:
                add(self.used, gtids)
        last = batch[-1]
        after = (place_text(marked(last.end), self.used, last.next_form), print_set(self.used))
        self.sink.write(batch, after, is_careful)
        self.sink.held = after
        ts = next((change.get('ts') for transaction in reversed(batch) if len(transaction) for change in transaction), None)
        self.report.committed(len([it for it in batch if it.adds]), sum(map(len, batch)), ts, after[1])
