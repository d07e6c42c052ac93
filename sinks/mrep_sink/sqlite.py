"""The sink in SQLite: tables as `mrep export` makes them, the place in the same commit, and beside them the history."""

import os
import sqlite3
from typing import Any, Dict, Iterable, List, Optional, Tuple

from .description import CHARACTERS, INTEGERS, MEMBERS, REALS, TEXTS, Column, Row, Table, digest_of
from .faults import RETRY, USAGE, Fault
from .feed import START, Item, Transaction, place_text, read_set
from .options import Options
from .sink import Entry, Place, SqlSink, Target

LEAST_VERSION, LARGEST, MOST_COLUMNS = (3, 37, 0), 2**63 - 1, 2000
OURS = 'mrep_'
# The tables of the sink itself. An exported file has the first one.
PLACE = 'CREATE TABLE "mrep_place" ("place" TEXT, "executed" TEXT) STRICT'
STATE = 'CREATE TABLE "mrep_sink" ("name" TEXT, "seq" INTEGER, "history" INTEGER) STRICT'
COLUMNS = 'CREATE TABLE "mrep_columns" ("schema" TEXT, "table" TEXT, "description" TEXT, PRIMARY KEY ("schema", "table")) STRICT'
# The set as rows, for questions in SQL.
EXECUTED = '''CREATE VIEW IF NOT EXISTS "mrep_executed" ("source", "first", "last") AS
WITH RECURSIVE parts(part, rest) AS (
  SELECT '', executed || ',' FROM mrep_place
  UNION ALL
  SELECT substr(rest, 1, instr(rest, ',') - 1), substr(rest, instr(rest, ',') + 1) FROM parts WHERE rest <> ''),
spans(source, span, rest) AS (
  SELECT substr(part, 1, instr(part, ':') - 1), '', substr(part, instr(part, ':') + 1) || ':' FROM parts WHERE part <> ''
  UNION ALL
  SELECT source, substr(rest, 1, instr(rest, ':') - 1), substr(rest, instr(rest, ':') + 1) FROM spans WHERE rest <> '')
SELECT source, CAST(substr(span, 1, instr(span || '-', '-') - 1) AS INTEGER), CAST(substr(span, instr(span, '-') + 1) AS INTEGER)
  FROM spans WHERE length(span) > 0'''
HISTORY = ('"seq" INTEGER PRIMARY KEY', '"gtid" TEXT', '"n" INTEGER', '"ts" INTEGER', '"committed_us" INTEGER', '"op" TEXT')


def quoted(name: str) -> str:
    return '"' + name.replace('"', '""') + '"'


def type_of(column: Column) -> str:
    """The type of a column in SQLite, as `mrep export` has it."""
    if column.type in REALS or column.type == 'bigint' and column.is_unsigned or column.type == 'bit' and column.numbers == [64]:
        return 'ANY'
    if column.type in INTEGERS:
        return 'INTEGER'
    if column.is_bytes:
        return 'BLOB'
    return 'TEXT' if column.type in TEXTS + CHARACTERS + MEMBERS else 'ANY'


def tables_of(base: sqlite3.Connection) -> Dict[str, str]:
    """The tables of a file, with the statements that made them."""
    return dict(base.execute("SELECT name, sql FROM sqlite_schema WHERE type = 'table' AND name NOT LIKE 'sqlite\\_%' ESCAPE "
                             "'\\'"))


class SqliteTable(Target):
    """A table of the file, with its statements."""

    def __init__(self, table: Table) -> None:
        super().__init__(table)
        self.name = f'{table.schema}.{table.name}'
        types = [type_of(it) for it in table.columns]
        self.large_at = [at for at, kind in enumerate(types) if kind == 'ANY' and table.columns[at].type not in REALS]
        if self.large_at:
            self.values = self.values_for_any
        has_rowid = [types[at] for at in table.keys] == ['INTEGER']
        columns = [f'{quoted(it.name)} {kind}' + (' PRIMARY KEY' if has_rowid else ' NOT NULL') * it.is_key
                   for it, kind in zip(table.columns, types)]
        if table.keys and not has_rowid:
            columns.append(f'PRIMARY KEY ({", ".join(map(quoted, table.key_names))})')
        into = quoted(self.name)
        self.creation = f'CREATE TABLE {into} ({", ".join(columns)}) STRICT'
        where = ' AND '.join(f'{quoted(name)} = ?' for name in table.key_names)
        free = [it for it in ('rowid', '_rowid_', 'oid') if it not in [name.lower() for name in table.names]]
        if not table.keys and not free:
            raise Fault(f'{self.title}: it has no key, and columns with all three names of the row number of SQLite: --only '
                        f'names the other tables', USAGE)
        self.rowid = free[0] if free else ''
        where = where or f'{self.rowid} = ?'
        self.insertion = f'INSERT INTO {into} VALUES ({", ".join("?" * len(types))})'
        self.update = f'UPDATE {into} SET {", ".join(f"{quoted(name)} = ?" for name in table.names)} WHERE {where}'
        self.deletion = f'DELETE FROM {into} WHERE {where}'
        self.selection = f'SELECT * FROM {into}'
        # Of a table without a key: its rows by their digests.
        self.rows_name = f'{OURS}rows.{self.name}'
        rows = quoted(self.rows_name)
        self.rows_creation = (f'CREATE TABLE {rows} ("digest" BLOB, "row" INTEGER, PRIMARY KEY ("digest", "row")) '
                              'STRICT, WITHOUT ROWID')
        self.rows_insertion = f'INSERT INTO {rows} VALUES (?, ?)'
        self.rows_deletion = f'DELETE FROM {rows} WHERE "digest" = ? AND "row" = ?'
        self.rows_selection = f'SELECT "row" FROM {rows} WHERE "digest" = ? LIMIT 1'
        self.history_name = f'{OURS}history.{self.name}'
        sides = [f'{quoted(f"{side}_{it.name}")} {kind}' for side in ('before', 'after')
                 for it, kind in zip(table.columns, types)]
        self.history_columns = len(HISTORY) + len(sides)
        self.history_creation = f'CREATE TABLE {quoted(self.history_name)} ({", ".join([*HISTORY, *sides])}) STRICT'
        self.history_insertion = f'INSERT INTO {quoted(self.history_name)} VALUES ({", ".join("?" * self.history_columns)})'
        self.nothing = [None] * len(types)
        # What a `truncate` adds to the history, and takes out.
        self.gone = (f'INSERT INTO {quoted(self.history_name)} SELECT ? + row_number() OVER (), ?, ?, NULL, ?, \'d\', '
                     f'{", ".join([*map(quoted, table.names), *["NULL"] * len(types)])} FROM {into}')

    def values_for_any(self, row: Dict[str, Any], form: str) -> List[Any]:
        """The values of a row, with integers that SQLite does not have as texts."""
        values = self.table.values(row, form)
        for at in self.large_at:
            if values[at] is not None and values[at] > LARGEST:
                values[at] = str(values[at])
        return values

    def history_indexes(self) -> List[str]:
        """The statements that make the indexes of a history by its keys."""
        sides = [(side, [quoted(f'{side}_{name}') for name in self.table.key_names])
                 for side in ('before', 'after')] if self.table.keys else []
        return [f'CREATE INDEX {quoted(f"{OURS}history_{side}.{self.name}")} ON {quoted(self.history_name)} '
                f'({", ".join(names)}, "seq")' for side, names in sides]


def check_names(tables: Iterable[Table], has_history: bool) -> None:
    """Refuses names that SQLite does not take, or takes for the same, and those of the sink itself."""
    found: Dict[str, Table] = {}
    for table in tables:
        name = f'{table.schema}.{table.name}'.encode().lower().decode()
        why = ''
        columns = len(HISTORY) + 2 * len(table.columns) if has_history else len(table.columns)
        if any('\0' in it for it in (name, *table.names)):
            why = 'a name with a NUL, which SQLite does not take'
        elif name.startswith('sqlite_') or name.startswith(OURS):
            keeper = 'SQLite' if name.startswith('sqlite_') else 'the sink'
            why = f'a name that begins with {name[:name.index("_") + 1]}, which {keeper} keeps for itself'
        elif name in found:
            why = f'SQLite takes its name and that of {found[name].title} for the same'
        elif len({it.encode().lower() for it in table.names}) < len(table.names):
            why = 'SQLite takes the names of two of its columns for the same'
        elif columns > MOST_COLUMNS:
            why = f'it needs {columns} columns, and a table of SQLite has at most {MOST_COLUMNS}'
        if why:
            raise Fault(f'{table.title}: {why}: --only names the other tables', USAGE)
        found[name] = table


class SqliteSink(SqlSink[SqliteTable]):
    """A file of SQLite."""

    def __init__(self, described: Dict[Tuple[str, str], Table], wanted: Dict[Tuple[str, str], Table], options: Options) -> None:
        super().__init__(described, options)
        self.where = options.to
        if sqlite3.sqlite_version_info < LEAST_VERSION:
            raise Fault(f'this python3 has SQLite {sqlite3.sqlite_version}, and 3.37 or later is needed')
        check_names(wanted.values(), options.history)
        self.targets = {place: SqliteTable(table) for place, table in wanted.items()}
        try:
            if not os.path.exists(options.to):
                os.close(os.open(options.to, os.O_CREAT | os.O_RDWR, 0o600))
            self.base = sqlite3.connect(options.to, isolation_level=None, timeout=60)
            # Used again for each run, which spares making one.
            self.cursor = self.base.cursor()
            self.base.execute('PRAGMA cache_size = -8000')
            self.begin()
        except (OSError, sqlite3.Error) as error:
            raise self.failed(error) from error

    def failed(self, error: Exception) -> Fault:
        """A fault of the file."""
        text = error.strerror or str(error) if isinstance(error, OSError) else str(error)
        return Fault(f'{self.options.to}: {text}' + (': another process has it open' if 'locked' in text else ''), RETRY)

    def begin(self) -> None:
        """Makes the tables, or looks whether they are those that are wanted, and reads the place."""
        self.base.execute('BEGIN IMMEDIATE')
        tables = tables_of(self.base)
        if not tables:
            self.begin_new()
        elif tables.get('mrep_place') != PLACE:
            raise Fault(f'{self.options.to}: it has tables and no place in a feed: `mrep export --place` makes a file that has '
                        f'one'
                        if 'spans' not in tables else f'{self.options.to}: it is a database of mrep itself')
        elif 'mrep_sink' not in tables:
            self.begin_exported(tables)
        else:
            self.begin_again()
        self.base.execute(EXECUTED)
        place, executed = self.base.execute('SELECT place, executed FROM mrep_place').fetchone()
        self.stored: Place = (place, executed)
        self.held = (place or place_text(START, read_set(executed), ''), executed)
        self.seq: int = self.base.execute('SELECT seq FROM mrep_sink').fetchone()[0]
        self.base.execute('COMMIT')
        # Of the last commits that a power failure takes their places go too: these come again.
        self.base.execute('PRAGMA journal_mode = WAL')
        self.base.execute(f'PRAGMA synchronous = {"NORMAL" if self.options.fast else "FULL"}')

    def begin_new(self) -> None:
        """Makes the tables in a new file, with the rows of an export if one is given."""
        exported = self.exported(self.targets)
        for statement in (PLACE, STATE, COLUMNS):
            self.base.execute(statement)
        self.base.execute("INSERT INTO mrep_place VALUES ('', ?)", (exported.executed if exported else '',))
        self.make_state()
        for place, target in self.targets.items():
            self.make(target, exported.rows(place) if exported else ())

    def make_state(self) -> None:
        self.base.execute('INSERT INTO mrep_sink VALUES (?, 0, ?)', (self.options.name, int(self.options.history)))

    def make(self, target: SqliteTable, rows: Optional[Iterable[Row]] = ()) -> None:
        """Makes a table of the sink with these rows, and what stands beside it; without rows it is there."""
        if rows is not None:
            self.base.execute(target.creation)
            self.base.executemany(target.insertion, rows)
        table = target.table
        self.base.execute('INSERT OR REPLACE INTO mrep_columns VALUES (?, ?, ?)', (table.schema, table.name, target.description))
        if not table.keys:
            self.make_rows(target)
        if self.options.history:
            self.make_history(target)

    def make_rows(self, target: SqliteTable) -> None:
        """Makes what the rows of a table without a key are found by."""
        self.base.execute(target.rows_creation)
        found = self.base.execute(f'SELECT {target.rowid}, * FROM {quoted(target.name)}')
        self.base.executemany(target.rows_insertion, ((digest_of(values), row) for row, *values in found))

    def make_history(self, target: SqliteTable) -> None:
        """Makes the history of a table, which begins with the rows that it has."""
        self.base.execute(target.history_creation)
        for statement in target.history_indexes():
            self.base.execute(statement)
        seq: int = self.base.execute('SELECT seq FROM mrep_sink').fetchone()[0]
        rows = self.base.execute(target.selection)
        made = self.base.executemany(target.history_insertion,
                                     ((seq + at, None, None, None, None, 'r', *target.nothing, *values)
                                      for at, values in enumerate(rows, 1)))
        self.base.execute('UPDATE mrep_sink SET seq = seq + ?', (max(made.rowcount, 0),))

    def begin_exported(self, tables: Dict[str, str]) -> None:
        """Goes on with a file that `mrep export --place` has made."""
        if self.options.rebuild:
            raise Fault(f'{self.options.to}: an export is gone on with as it is, without --rebuild', USAGE)
        mine = {target.name: target for target in self.targets.values()}
        for name in sorted({*mine, *tables} - {'mrep_place'}):
            if name not in tables:
                raise Fault(f'{self.options.to}: it has no table {name}, whose rows from before are missing: export it with the '
                            f'others, or leave it out by --only')
            if name not in mine:
                raise Fault(f'{self.options.to}: it has the table {name}, which is not wanted: export the tables that are '
                            f'wanted, without --schema')
            if tables[name] != mine[name].creation:
                raise Fault(mine[name].table.unfit(f'{self.options.to} has it with other columns'))
        for statement in (STATE, COLUMNS):
            self.base.execute(statement)
        self.make_state()
        for target in self.targets.values():
            self.make(target, None)

    def begin_again(self) -> None:
        """Goes on with a file of a sink. A table with another description is made anew while it has no rows."""
        name, has_history = self.base.execute('SELECT name, history FROM mrep_sink').fetchone()
        made = {(schema, table): text for schema, table, text in self.base.execute('SELECT * FROM mrep_columns')}
        executed = self.base.execute('SELECT executed FROM mrep_place').fetchone()[0]
        exported = self.exported({}, executed)
        anew = self.others(name, bool(has_history), made, exported)
        for target in anew:
            if self.base.execute(f'{target.selection} LIMIT 1').fetchone():
                self.has_rows(target)
            self.remove(target, has_history)
            self.make(target)
        if exported:
            for place in exported.names:
                if place in made:
                    self.remove(self.targets[place], has_history)
                self.make(self.targets[place], exported.rows(place))
                anew.append(self.targets[place])
        there = tables_of(self.base)
        for target in self.targets.values():
            if not target.table.keys and target.rows_name not in there:
                self.make_rows(target)
            if self.options.history and not has_history and target not in anew:
                self.make_history(target)
        if self.options.history:
            self.base.execute('UPDATE mrep_sink SET history = 1')

    def remove(self, target: SqliteTable, has_history: bool) -> None:
        """Removes a table that is made anew. Its history is kept beside the new one."""
        self.base.execute(f'DROP TABLE {quoted(target.name)}')
        self.base.execute(f'DROP TABLE IF EXISTS {quoted(target.rows_name)}')
        if has_history:
            seq = self.base.execute('SELECT seq FROM mrep_sink').fetchone()[0]
            for side in ('before', 'after'):
                self.base.execute(f'DROP INDEX IF EXISTS {quoted(f"{OURS}history_{side}.{target.name}")}')
            self.base.execute(f'ALTER TABLE {quoted(target.history_name)} RENAME TO '
                              f'{quoted(f"{target.history_name}.until.{seq}")}')

    def write(self, batch: List[Transaction], after: Place, is_careful: bool) -> None:
        seq = self.seq
        try:
            self.base.execute('BEGIN IMMEDIATE')
            self.use(batch, is_careful)
            changed = self.base.execute('UPDATE mrep_place SET place = ?, executed = ? WHERE place = ? AND executed = ?',
                                        (*after, *self.stored))
            if changed.rowcount != 1:
                raise Fault('another process has used the feed meanwhile')
            if self.seq != seq:
                self.base.execute('UPDATE mrep_sink SET seq = ?', (self.seq,))
            self.base.execute('COMMIT')
            self.stored = after
        except sqlite3.Error as error:
            self.seq = seq
            self.roll_back()
            raise self.failed(error) from error
        except Fault:
            self.seq = seq
            self.roll_back()
            raise

    def roll_back(self) -> None:
        if self.base.in_transaction:
            self.base.execute('ROLLBACK')

    def flush(self, target: SqliteTable, kind: str, entries: List[Entry]) -> None:
        try:
            if not target.table.keys:
                for entry in entries:
                    self.change_unkeyed(target, kind, entry)
            else:
                self.change_keyed(target, kind, entries)
        except (sqlite3.IntegrityError, sqlite3.DataError, OverflowError) as error:
            unique = 'UNIQUE' in str(error)
            self.refuse(target, entries[0], 'a row with this key is there already: this is not the sink of this feed, or it was '
                                            'changed'
                        if unique else f'SQLite does not take the row ({error})')
        if self.options.history:
            lines = []
            for seq, (before, after, change, committed) in enumerate(entries, self.seq + 1):
                lines.append((seq, change['gtid'], change.get('n'), change.get('ts'), committed, kind[0],
                              *(before or target.nothing), *(after or target.nothing)))
            self.cursor.executemany(target.history_insertion, lines)
            self.seq += len(lines)

    def empty(self, target: SqliteTable, change: Item, committed: Optional[int]) -> None:
        if self.options.history:
            self.seq += self.cursor.execute(target.gone, (self.seq, change['gtid'], change['n'], committed)).rowcount
        self.cursor.execute(f'DELETE FROM {quoted(target.name)}')
        if not target.table.keys:
            self.cursor.execute(f'DELETE FROM {quoted(target.rows_name)}')

    def change_keyed(self, target: SqliteTable, kind: str, entries: List[Entry]) -> None:
        key_of, done = target.table.key_of, self.cursor
        if kind == 'insert':
            done.executemany(target.insertion, [after for _, after, _, _ in entries])  # type: ignore[misc]
        elif kind == 'update':
            done.executemany(target.update, [(*(after or ()), *key_of(before or [])) for before, after, _, _ in entries])
        else:
            done.executemany(target.deletion, [key_of(before) for before, _, _, _ in entries])  # type: ignore[arg-type]
        if done.rowcount != len(entries):
            self.refuse(target, entries[0], 'there is no row with this key: this is not the sink of this feed, or it was changed')

    def change_unkeyed(self, target: SqliteTable, kind: str, entry: Entry) -> None:
        """Changes a row of a table without a key, one of those that are equal."""
        before, after, _, _ = entry
        row: Optional[int] = None
        if before:
            digest = digest_of(before)
            found = self.base.execute(target.rows_selection, (digest,)).fetchone()
            row = found and found[0]
            there = found and self.base.execute(f'{target.selection} WHERE {target.rowid} = ?', (row,)).fetchone()
            if not there:
                self.refuse(target, entry, 'there is no such row: this is not the sink of this feed, or it was changed')
            if digest_of(there) != digest:
                self.refuse(target, entry, f'its rows have other numbers, as after VACUUM: DROP TABLE '
                                           f'{quoted(target.rows_name)}, which is made anew at the next start')
            self.base.execute(target.rows_deletion, (digest, row))
        if kind == 'insert':
            assert after
            row = self.base.execute(target.insertion, after).lastrowid
        elif kind == 'update':
            self.base.execute(target.update, (*(after or ()), row))
        else:
            self.base.execute(target.deletion, (row,))
        if after:
            self.base.execute(target.rows_insertion, (digest_of(after), row))
