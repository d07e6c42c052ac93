"""What the proxy reads of the database of `mrep`, and the file beside it with the server that was followed last."""

import os
from pathlib import Path
from typing import List, Tuple

from .faults import RETRY, Fault
from .report import Report, cannot
from .sets import GtidSet, merged, missing, printed, without_copies
from .source import Connection
from .sets import parse as parse_set
from .statements import Tables


# What the name of all tables is in the filter of a database that keeps no rows; other names there begin with a text as long.
ALL = b'mrep reads all tables and keeps no row of them. No table of a server has a name as long as this one. '.ljust(256, b'-')


def read(path: str) -> Tuple[GtidSet, Tables, bool]:
    """The executed set and the filter, and whether there is a database: a new one has neither. It is opened for reading, and
    closed before `mrep` opens it, since that keeps others out."""
    if not os.path.exists(path) or not os.path.getsize(path):
        return {}, [], False
    try:
        import sqlite3
    except ImportError as error:
        raise Fault('this python3 has no sqlite3, which is needed to read the database') from error
    try:
        base = sqlite3.connect(f'{Path(path).absolute().as_uri()}?mode=ro', uri=True, timeout=1)
        try:
            made = {name for name, in base.execute("SELECT name FROM sqlite_master WHERE type = 'table'")}
            if 'spans' not in made:
                if 'executed' in made:
                    raise Fault(f'{path}: it has the older layout: `mrep gtids --db {path}` migrates it')
                return {}, [], False
            held: GtidSet = {}
            for source, low, high in base.execute('SELECT source, lo, hi FROM spans'):
                held.setdefault(bytes(source), []).append((low, high))
            names = [(bytes(schema), bytes(table)) for schema, table in base.execute('SELECT schema_name, table_name FROM follow')]
            tables = [] if names == [(ALL, b'')] else [read_of(*name) for name in names]
            return {source: merged(spans) for source, spans in held.items()}, tables, True
        finally:
            base.close()
    except sqlite3.Error as error:
        raise Fault(f'{path}: {error}' + (': another process has it open' if 'locked' in str(error) else ''), RETRY) from error


def read_of(schema: bytes, table: bytes) -> Tuple[bytes, bytes]:
    """The tables that a name of the filter means: one, or all of a schema by the name `*`, which no rule reads. Those of a database
    without rows begin with a text."""
    if len(schema) < len(ALL):
        return schema, table
    return schema[len(ALL):], table or b'*'


def named(words: List[str]) -> Tables:
    """The tables that `--only` names, as `mrep` takes them; a name with `%` is left as it is written, and no rule reads it."""
    pairs = [os.fsencode(word).partition(b'.') for word in words]
    return [(schema, table) for schema, _, table in pairs]


def check_source(connection: Connection, path: str, held: GtidSet, is_new_taken: bool, report: Report) -> None:
    """Ends where the source is not the one that was followed last, or lacks what the database has."""
    uuid, executed = connection.row('SELECT @@server_uuid, @@GLOBAL.gtid_executed')
    report.source = uuid.decode('latin1')
    last = last_source(path) if path else ''
    if last and last != report.source and not is_new_taken:
        raise Fault(f'it is the server {report.source}, and last time it was {last}: --new-source takes it')
    lacks = missing(without_copies(held), parse_set(executed.decode('latin1')))
    if lacks:
        raise Fault(f'it has not executed what {path or "the database"} has: {printed(lacks)}')
    if path and last != report.source:
        keep_source(path, report.source)


def last_source(path: str) -> str:
    try:
        with open(f'{path}.source', encoding='latin1') as file:
            return file.read(64).strip()
    except FileNotFoundError:
        return ''
    except OSError as error:
        raise cannot(f'{path}.source', error) from error


def keep_source(path: str, uuid: str) -> None:
    try:
        with open(f'{path}.source.new', 'w', encoding='latin1', opener=lambda name, flags: os.open(name, flags, 0o600)) as file:
            file.write(uuid + '\n')
        os.replace(f'{path}.source.new', f'{path}.source')
    except OSError as error:
        raise cannot(f'{path}.source', error) from error
