"""The sink in PostgreSQL, by psycopg 3: schemas and tables by their names, the place in the same commit in a schema of its own,
and beside it the history. Values are given as texts, which PostgreSQL reads by the type of their column."""

import itertools
import re
import time
from typing import Any, Callable, Dict, Iterable, Iterator, List, NoReturn, Optional, Tuple

try:
    import psycopg
except ImportError as missing:
    from .faults import USAGE, Fault
    raise Fault('this python3 has no psycopg 3, which PostgreSQL needs: python3-psycopg of Debian, or psycopg of PyPI',
                USAGE) from missing

from .description import Column, Row, Table, digest_of
from .faults import ACT, RETRY, USAGE, Fault, shown
from .feed import START, Item, Transaction, place_text, read_set
from .options import Options
from .report import Report
from .sink import Entry, Place, SqlSink, Target

LONGEST_NAME, MOST_COLUMNS = 63, 1600
# The schemas of the sink itself, and the column by which a row without a key is found.
OURS, HISTORY, ROW = 'mrep', 'mrep_history', 'mrep_row'
SYSTEM_COLUMNS = ('tableoid', 'xmin', 'cmin', 'xmax', 'cmax', 'ctid')
# From how many changes on a run goes by COPY, and how many rows of an export do at a time.
BULK, BULK_ROWS = 20, 1000
BEFORE = ('"seq" bigint PRIMARY KEY', '"gtid" text', '"n" integer', '"ts" bigint', '"committed_us" bigint', '"op" text')
SESSION = ("SET client_min_messages = warning; SET client_encoding = 'UTF8'; SET TimeZone = 'UTC'; SET DateStyle = 'ISO, YMD'; "
           "SET IntervalStyle = 'postgres'; "
           # A table of a run has no statistics, and each of its rows is to be found by the key. Compiling that takes longer.
           "SELECT set_config(name, 'off', false) FROM pg_settings WHERE name IN ('enable_hashjoin', 'enable_mergejoin', "
           "'enable_seqscan', 'enable_material', 'jit')")
SCHEMAS = '''CREATE SCHEMA IF NOT EXISTS mrep;
CREATE TABLE IF NOT EXISTS mrep.place
    (name text PRIMARY KEY, place text NOT NULL, executed text NOT NULL, seq bigint NOT NULL, history boolean NOT NULL);
CREATE TABLE IF NOT EXISTS mrep.columns
    (name text, schema text, "table" text, description text NOT NULL, PRIMARY KEY (schema, "table"));
'''
# The set as rows, for questions in SQL.
EXECUTED = '''CREATE VIEW mrep.executed AS
    SELECT name, split_part(part, ':', 1) AS source, split_part(span, '-', 1)::bigint AS first,
           coalesce(nullif(split_part(span, '-', 2), ''), span)::bigint AS last
      FROM mrep.place, unnest(string_to_array(executed, ',')) AS part, unnest((string_to_array(part, ':'))[2:]) AS span'''
# The kinds of errors by which a server says that it goes away, and the one of a lock that was not given.
LOST, LOCKED = ('57P', '08'), '55P03'
ESCAPES = str.maketrans({'\\': '\\\\', '\t': '\\t', '\n': '\\n', '\r': '\\r'})
COLUMN = re.compile(r', column (.*?)(?:: .*)?$', re.M)


def quoted(name: str) -> str:
    return '"' + name.replace('"', '""') + '"'


def type_of(column: Column) -> str:
    """The type of a column in PostgreSQL."""
    numbers = ','.join(map(str, column.numbers))
    digits = column.numbers[0] if column.numbers else 0
    if column.is_bytes:
        return 'bytea'
    if column.type in ('tinyint', 'year') or column.type == 'smallint' and not column.is_unsigned:
        return 'smallint'
    if column.type in ('smallint', 'mediumint') or column.type == 'int' and not column.is_unsigned:
        return 'integer'
    if column.type == 'int' or column.type == 'bigint' and not column.is_unsigned:
        return 'bigint'
    known = {'bigint': 'numeric(20)', 'decimal': f'numeric({numbers})', 'float': 'real', 'double': 'double precision',
             'bit': f'bit({digits})', 'date': 'date',
             'datetime': f'timestamp({digits})', 'timestamp': f'timestamptz({digits})', 'time': f'interval({digits})'}
    return known.get(column.type, 'text')


def reader_of(column: Column) -> Callable[[Any], str]:
    """What makes a text of a value of the feed."""
    if column.is_bytes:
        return lambda value: f'\\x{value.hex()}'
    if column.type == 'bit':
        digits = f'0{column.numbers[0]}b'
        # Of an export 64 bits may be a text.
        return lambda value: format(int(value), digits)
    if column.type == 'timestamp':
        return lambda value: f'{value}+00'
    return text_of


def text_of(value: Any) -> str:
    return str(value)


class PostgresTable(Target):
    """A table of the database, with its statements."""

    def __init__(self, table: Table, as_text: List[str], number: int) -> None:
        super().__init__(table)
        self.name = f'{quoted(table.schema)}.{quoted(table.name)}'
        texts = [f'{self.title}.{it.name}' in as_text for it in table.columns]
        self.types = ['text' if is_text else type_of(it) for it, is_text in zip(table.columns, texts)]
        self.description += ''.join(f'\ntext {it.name}' for it, is_text in zip(table.columns, texts) if is_text)
        # A column that is a text has the text of the feed.
        self.readers: List[Callable[[Any], str]] = []
        for it, is_text in zip(table.columns, texts):
            self.readers.append(text_of if is_text and not it.is_bytes else reader_of(it))
        self.values = self.texts
        names = [*map(quoted, table.names)]
        columns = [f'{name} {kind}' + ' NOT NULL' * it.is_key for name, kind, it in zip(names, self.types, table.columns)]
        columns.append(f'PRIMARY KEY ({", ".join(map(quoted, table.key_names))})' if table.keys else f'{ROW} bytea NOT NULL')
        self.creation = f'CREATE TABLE {self.name} ({", ".join(columns)})'
        self.index = '' if table.keys else f'CREATE INDEX ON {self.name} USING hash ({ROW})'
        all_names = names + [ROW] * (not table.keys)
        self.copying = f'COPY {self.name} ({", ".join(all_names)}) FROM STDIN'
        self.insertion = f'INSERT INTO {self.name} ({", ".join(all_names)}) VALUES ({", ".join(["%s"] * len(all_names))})'
        where = ' AND '.join(f'{quoted(name)} = %s'
                             for name in table.key_names) or f'ctid = (SELECT ctid FROM {self.name} WHERE {ROW} = %s LIMIT 1)'
        self.update = f'UPDATE {self.name} SET {", ".join(f"{name} = %s" for name in all_names)} WHERE {where}'
        self.deletion = f'DELETE FROM {self.name} WHERE {where}'
        # Runs by a table of the session: the key before, and the row after.
        self.run = f'mrep_run_{number}'
        keys = [f'k{at} {self.types[place]}' for at, place in enumerate(table.keys)]
        keys += [f'c{at} {kind}' for at, kind in enumerate(self.types)]
        self.run_creation = f'CREATE TEMP TABLE IF NOT EXISTS {self.run} ({", ".join(keys)})'
        join = ' AND '.join(f't.{quoted(name)} = r.k{at}' for at, name in enumerate(table.key_names))
        sets = ', '.join(f'{name} = r.c{at}' for at, name in enumerate(names))
        self.run_update = f'UPDATE {self.name} t SET {sets} FROM {self.run} r WHERE {join}'
        self.run_deletion = f'DELETE FROM {self.name} t USING {self.run} r WHERE {join}'
        self.run_keys = ', '.join(f'k{at}' for at in range(len(table.keys)))
        self.history_name = f'{table.schema}.{table.name}'
        self.history = f'{HISTORY}.{quoted(self.history_name)}'
        sides = [f'{quoted(f"{side}_{it.name}")} {kind}' for side in ('before', 'after')
                 for it, kind in zip(table.columns, self.types)]
        self.history_creation = f'CREATE TABLE {self.history} ({", ".join([*BEFORE, *sides])})'
        self.history_indexes = [f'CREATE INDEX ON {self.history} '
                                f'({", ".join(quoted(f"{side}_{name}") for name in table.key_names)}, seq)'
                                for side in ('before', 'after')] if table.keys else []
        self.nothing: List[Optional[str]] = [None] * len(names)

    def texts(self, row: Dict[str, Any], form: str) -> List[Any]:
        """The values of a row, as texts."""
        return [None if value is None else read(value) for read, value in zip(self.readers, self.table.values(row, form))]

    def stored(self, values: List[Any]) -> List[Any]:
        """The values of a row as the table has them: one without a key with what it is found by."""
        return values if self.table.keys else [*values, row_text(values)]

    def key_of(self, values: List[Any]) -> List[Any]:
        return [values[at] for at in self.table.keys] if self.table.keys else [row_text(values)]


def row_text(values: List[Any]) -> str:
    return '\\x' + digest_of(values).hex()


def copy_lines(rows: List[List[Any]]) -> bytes:
    """Rows of texts for COPY."""
    return ''.join(['\t'.join(['\\N' if it is None else it.translate(ESCAPES) for it in row]) + '\n' for row in rows]).encode()


def check_names(tables: List[PostgresTable], has_history: bool) -> None:
    """Refuses names that PostgreSQL does not take, or would cut, and those of the sink itself."""
    for target in tables:
        table = target.table
        names = [table.schema, table.name, *table.names]
        if has_history:
            names += [target.history_name, *(f'before_{it}' for it in table.names)]
        columns = len(BEFORE) + 2 * len(table.names) if has_history else len(table.names) + (not table.keys)
        long = [it for it in names if len(it.encode()) > LONGEST_NAME]
        why = ''
        if any('\0' in it for it in names):
            why = 'a name with a NUL, which PostgreSQL does not take'
        elif long:
            why = f'the name {shown(long[0])}, which PostgreSQL would cut at {LONGEST_NAME} bytes'
        elif table.schema.startswith(('pg_', 'mrep')) or table.schema == 'information_schema':
            keeper = 'the sink' if table.schema.startswith('mrep') else 'PostgreSQL'
            why = f'the schema {table.schema}, which {keeper} keeps for itself'
        elif any(it in SYSTEM_COLUMNS or it == ROW for it in table.names):
            why = f'a column called {next(it for it in table.names if it in SYSTEM_COLUMNS or it == ROW)}, a name that is kept'
        elif columns > MOST_COLUMNS:
            why = f'it needs {columns} columns, and a table of PostgreSQL has at most {MOST_COLUMNS}'
        if why:
            raise Fault(f'{table.title}: {why}: --only names the other tables', USAGE)


class PostgresSink(SqlSink[PostgresTable]):
    """A database of PostgreSQL."""

    most = 5000

    def __init__(self, described: Dict[Tuple[str, str], Table], wanted: Dict[Tuple[str, str], Table], options: Options,
                 report: Report) -> None:
        super().__init__(described, options)
        self.report, self.where = report, 'the database'
        self.targets = {place: PostgresTable(table, options.as_text, number)
                        for number, (place, table) in enumerate(wanted.items())}
        columns = {f'{target.title}.{name}' for target in self.targets.values() for name in target.table.names}
        for word in options.as_text:
            if word not in columns:
                raise Fault(f'--as-text {word}: no table that is wanted has such a column', USAGE)
        check_names([*self.targets.values()], options.history)
        self.connection: Optional['psycopg.Connection[Any]'] = None
        self.seq = 0
        self.stored = self.held = self.until_connected(self.begin)

    # Connections

    def until_connected(self, act: Callable[[], Place]) -> Place:
        """Does something with a connection, again while the server is gone."""
        begun, wait = time.monotonic(), 0.5
        while True:
            try:
                return act()
            except psycopg.Error as error:
                if not self.is_lost(error):
                    self.roll_back()
                    raise self.failed(error) from error
                if self.connection:
                    self.connection.close()
                self.connection = None
                if time.monotonic() - begun > self.options.connect_retry:
                    raise Fault(f'PostgreSQL is gone: {str(error).strip()}', RETRY) from error
                self.report.say(f'PostgreSQL is gone, and is tried again in {wait} s: {str(error).strip()}')
                time.sleep(wait)
                wait = min(2 * wait, 10)

    def is_lost(self, error: 'psycopg.Error') -> bool:
        if error.sqlstate == LOCKED:
            return False
        return isinstance(error, psycopg.OperationalError) and (self.connection is None or self.connection.closed
                                                                or (error.sqlstate or '').startswith(LOST))

    def failed(self, error: 'psycopg.Error') -> Fault:
        """A fault of the database that has nothing to do with a row."""
        passes = isinstance(error, psycopg.OperationalError)
        if error.sqlstate == LOCKED:
            return Fault('another session has this sink, perhaps of a run that was killed: it was waited for', RETRY)
        return Fault(f'PostgreSQL says: {(error.diag.message_primary or str(error)).strip()}', RETRY if passes else ACT)

    def connect(self) -> 'psycopg.Connection[Any]':
        """A connection that has the sink for itself."""
        if self.connection is None or self.connection.closed:
            self.connection = None
            made = psycopg.connect(self.options.to, autocommit=True)
            made.execute(SESSION)
            made.execute("SELECT set_config('lock_timeout', %s, false)", [f'{int(max(1, self.options.connect_retry) * 1000)}ms'])
            made.execute("SELECT pg_advisory_lock(hashtext('mrep-sink'), hashtext(%s))", [self.options.name])
            made.execute('SET lock_timeout = 0')
            self.connection = made
        return self.connection

    def roll_back(self) -> None:
        base = self.connection
        if base and not base.closed and base.info.transaction_status != psycopg.pq.TransactionStatus.IDLE:
            base.execute('ROLLBACK')

    # The beginning

    def begin(self) -> Place:
        """Makes the tables, or looks whether they are those that are wanted, and reads the place."""
        base = self.connect()
        encoding = (base.execute('SHOW server_encoding').fetchone() or [''])[0]
        if encoding != 'UTF8':
            raise Fault(f'the database has the encoding {encoding}, and UTF8 is needed: CREATE DATABASE .. ENCODING UTF8 '
                        f'TEMPLATE template0')
        base.execute('BEGIN')
        base.execute(SCHEMAS)
        if (base.execute("SELECT to_regclass('mrep.executed')").fetchone() or [None])[0] is None:
            base.execute(EXECUTED)
        if self.options.history:
            base.execute(f'CREATE SCHEMA IF NOT EXISTS {HISTORY}')
        name = self.options.name
        found = base.execute('SELECT executed, history FROM mrep.place WHERE name = %s', [name]).fetchone()
        if found is None:
            exported = self.exported(self.targets)
            base.execute("INSERT INTO mrep.place VALUES (%s, '', %s, 0, %s)",
                         [name, exported.executed if exported else '', self.options.history])
            for at, target in self.targets.items():
                self.make(target, exported.rows(at) if exported else ())
        else:
            self.begin_again(*found)
        place, executed, self.seq = base.execute('SELECT place, executed, seq FROM mrep.place WHERE name = %s',
                                                 [name]).fetchone() or ('', '', 0)
        base.execute('COMMIT')
        return (place or place_text(START, read_set(executed), ''), executed)

    def begin_again(self, executed: str, has_history: bool) -> None:
        """Goes on with a database of a sink. A table with another description is made anew while it has no rows."""
        base, name = self.connect(), self.options.name
        made = {(schema, table): text for schema, table, text in base.execute('SELECT schema, "table", description FROM '
                                                                              'mrep.columns WHERE name = %s', [name])}
        exported = self.exported({}, executed)
        anew = self.others(name, has_history, made, exported)
        for target in anew:
            if base.execute(f'SELECT 1 FROM {target.name} LIMIT 1').fetchone():
                self.has_rows(target)
            self.remove(target, has_history)
            self.make(target)
        if exported:
            for at in exported.names:
                if at in made:
                    self.remove(self.targets[at], has_history)
                self.make(self.targets[at], exported.rows(at))
                anew.append(self.targets[at])
        if self.options.history and not has_history:
            for target in self.targets.values():
                if target not in anew:
                    self.make_history(target)
            base.execute('UPDATE mrep.place SET history = true WHERE name = %s', [name])

    def make(self, target: PostgresTable, rows: Iterable[Row] = ()) -> None:
        """Makes a table with these rows, and what stands beside it."""
        base, table = self.connect(), target.table
        other = base.execute('SELECT name FROM mrep.columns WHERE schema = %s AND "table" = %s',
                             [table.schema, table.name]).fetchone()
        if other:
            raise Fault(f'{target.title}: the sink of the feed {other[0]} has this table')
        base.execute(f'CREATE SCHEMA IF NOT EXISTS {quoted(table.schema)}')
        if (base.execute('SELECT to_regclass(%s)', [target.name]).fetchone() or [None])[0] is not None:
            raise Fault(f'{target.title}: the database has it already, and it is none of this sink: drop or rename it')
        base.execute(target.creation)
        self.fill(target, iter(rows))
        if target.index:
            base.execute(target.index)
        base.execute('INSERT INTO mrep.columns VALUES (%s, %s, %s, %s)',
                     [self.options.name, table.schema, table.name, target.description])
        if self.options.history:
            self.make_history(target)

    def fill(self, target: PostgresTable, rows: Iterator[Row]) -> None:
        """Puts the rows of an export into a table."""
        while taken := [[None if value is None else read(value) for read, value in zip(target.readers, row)]
                        for row in itertools.islice(rows, BULK_ROWS)]:
            try:
                with self.connect().cursor().copy(target.copying) as copy:
                    copy.write(copy_lines([target.stored(row) for row in taken]))
            except psycopg.DataError as error:
                raise Fault(f'{target.title}: PostgreSQL does not take a row of the export '
                            f'({(error.diag.message_primary or str(error)).strip()}): --as-text {target.title}.COLUMN makes a column '
                            f'a text') from error

    def make_history(self, target: PostgresTable) -> None:
        """Makes the history of a table, which begins with the rows that it has."""
        base = self.connect()
        for statement in (target.history_creation, *target.history_indexes):
            base.execute(statement)
        names = ', '.join(map(quoted, target.table.names))
        nothing = ', '.join(f'NULL::{kind}' for kind in target.types)
        made = base.execute(f'INSERT INTO {target.history} SELECT (SELECT seq FROM mrep.place WHERE name = %s) + row_number() '
                            f'OVER (), NULL, NULL, NULL, NULL, \'r\', '
                            f'{nothing}, {names} FROM {target.name}', [self.options.name])
        base.execute('UPDATE mrep.place SET seq = seq + %s WHERE name = %s', [made.rowcount, self.options.name])

    def remove(self, target: PostgresTable, has_history: bool) -> None:
        """Removes a table that is made anew. Its history is kept beside the new one."""
        base, table = self.connect(), target.table
        base.execute(f'DROP TABLE {target.name}')
        if has_history:
            seq = (base.execute('SELECT seq FROM mrep.place WHERE name = %s', [self.options.name]).fetchone() or [0])[0]
            older = f'{target.history_name}.until.{seq}'
            if len(older.encode()) > LONGEST_NAME:
                raise Fault(f'{target.title}: its history would be kept as {shown(older)}, a name that PostgreSQL cuts: rename '
                            f'{target.history}')
            base.execute(f'ALTER TABLE {target.history} RENAME TO {quoted(older)}')
        base.execute('DELETE FROM mrep.columns WHERE schema = %s AND "table" = %s', [table.schema, table.name])

    # Changes

    def write(self, batch: List[Transaction], after: Place, is_careful: bool) -> None:
        seq = self.seq

        def attempt() -> Place:
            is_new = self.connection is None or self.connection.closed
            base, self.seq = self.connect(), seq
            if is_new:
                # A commit whose answer was lost is there, or it is not.
                found = base.execute('SELECT place, executed, seq FROM mrep.place WHERE name = %s',
                                     [self.options.name]).fetchone()
                if found and found[:2] == after:
                    self.seq = found[2]
                    return after
            base.execute('BEGIN')
            self.use(batch, is_careful)
            done = base.execute('UPDATE mrep.place SET place = %s, executed = %s, seq = %s WHERE name = %s AND (place = %s OR '
                                'place = \'\') AND executed = %s',
                                [*after, self.seq, self.options.name, *self.stored])
            if done.rowcount != 1:
                raise Fault('another process has used the feed meanwhile')
            base.execute('COMMIT')
            return after

        try:
            self.stored = self.until_connected(attempt)
        except Fault:
            self.seq = seq
            self.roll_back()
            raise

    def flush(self, target: PostgresTable, kind: str, entries: List[Entry]) -> None:
        try:
            if kind == 'insert':
                done = self.insert(target.copying, target.insertion, [target.stored(after or []) for _, after, _, _ in entries])
            elif kind == 'update':
                done = sum(self.change(target, run, True) for run in apart(target, entries))
            else:
                done = sum(self.change(target, run, False) for run in apart(target, entries))
        except (psycopg.IntegrityError, psycopg.DataError, psycopg.errors.ProgramLimitExceeded) as error:
            self.refused(target, entries, error)
        if done != len(entries):
            self.refuse(target, entries[0], 'there is no such row: this is not the sink of this feed, or it was changed')
        if self.options.history:
            self.keep_history(target, kind, entries)

    def empty(self, target: PostgresTable, change: Item, committed: Optional[int]) -> None:
        base = self.connect()
        if self.options.history:
            sides = ', '.join([*map(quoted, target.table.names), *(f'NULL::{kind}' for kind in target.types)])
            gone = base.execute(f"INSERT INTO {target.history} SELECT %s + row_number() OVER (), %s, %s, NULL, %s, 'd', {sides} "
                                f'FROM {target.name}', (self.seq, change['gtid'], change['n'], committed))
            self.seq += gone.rowcount
        base.execute(f'DELETE FROM {target.name}')

    def insert(self, copying: str, insertion: str, rows: List[List[Any]]) -> int:
        """Adds rows, and answers how many."""
        cursor = self.connect().cursor()
        if len(rows) < BULK:
            cursor.executemany(insertion, rows)
        else:
            with cursor.copy(copying) as copy:
                copy.write(copy_lines(rows))
        return cursor.rowcount

    def change(self, target: PostgresTable, entries: List[Entry], is_update: bool) -> int:
        """Updates or deletes rows of different keys, and answers how many."""
        rows = [(target.key_of(before or []), target.stored(after) if after else []) for before, after, _, _ in entries]
        cursor = self.connect().cursor()
        if len(rows) < BULK or not target.table.keys:
            cursor.executemany(target.update if is_update else target.deletion, [after + key for key, after in rows])
            return cursor.rowcount
        cursor.execute(target.run_creation)
        cursor.execute(f'TRUNCATE {target.run}')
        with cursor.copy(f'COPY {target.run}{"" if is_update else f" ({target.run_keys})"} FROM STDIN') as copy:
            copy.write(copy_lines([key + after for key, after in rows]))
        cursor.execute(target.run_update if is_update else target.run_deletion)
        return cursor.rowcount

    def keep_history(self, target: PostgresTable, kind: str, entries: List[Entry]) -> None:
        lines = []
        for seq, (before, after, change, committed) in enumerate(entries, self.seq + 1):
            head = [str(seq), change['gtid'], *(None if it is None
                                                else str(it) for it in (change.get('n'), change.get('ts'), committed)), kind[0]]
            lines.append([*head, *(before or target.nothing), *(after or target.nothing)])
        self.insert(f'COPY {target.history} FROM STDIN', f'INSERT INTO {target.history} VALUES '
                                                         f'({", ".join(["%s"] * len(lines[0]))})', lines)
        self.seq += len(lines)

    def refused(self, target: PostgresTable, entries: List[Entry], error: 'psycopg.Error') -> NoReturn:
        """Ends for a row that the database does not take. Of one change it looks which column it is."""
        if isinstance(error, psycopg.errors.UniqueViolation):
            self.refuse(target, entries[0], 'a row with this key is there already: this is not the sink of this feed, or it was '
                                            'changed')
        says = (error.diag.message_primary or str(error)).strip()
        if len(entries) == 1:
            self.roll_back()
            for name, kind, value in zip(target.table.names, target.types, entries[0][1] or entries[0][0] or []):
                try:
                    self.connect().execute(f'SELECT CAST(%s AS {kind})', [value])
                except psycopg.DataError:
                    way = f'--as-text {target.title}.{name} makes it a text, in a new sink'
                    way = 'leave the table out by --only' if kind == 'text' else way
                    self.refuse(target, entries[0], f'the column {shown(name)} of type {kind} does not take {shown(value)}: '
                                                    f'{way}')
        self.refuse(target, entries[0], f'PostgreSQL does not take the row ({says})')


def apart(target: PostgresTable, entries: List[Entry]) -> Iterator[List[Entry]]:
    """A run in parts in none of which a key is twice, so that their order does not matter."""
    if not target.table.keys:
        yield entries
        return
    seen, part = set(), []  # type: ignore[var-annotated]
    for entry in entries:
        keys = {tuple(target.key_of(row)) for row in entry[:2] if row}
        if not seen.isdisjoint(keys):
            yield part
            seen, part = set(), []
        seen |= keys
        part.append(entry)
    yield part
