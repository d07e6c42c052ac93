"""The description of columns (docs/FORMATS.md), the tables of it, and their values."""

import base64
import hashlib
import json
import re
from typing import Any, Dict, Iterable, List, Set, Tuple

from .faults import RETRY, USAGE, Fault, shown

KNOWN = ('utf8mb4', 'utf8mb3', 'ascii', 'latin1', 'ucs2', 'utf16', 'utf16le', 'utf32')
INTEGERS = ('tinyint', 'smallint', 'mediumint', 'int', 'bigint', 'year', 'bit')
REALS = ('float', 'double')
# Types whose values are texts in the feed, those of characters, and bytes.
TEXTS = ('decimal', 'date', 'time', 'datetime', 'timestamp')
CHARACTERS = ('char', 'varchar', 'tinytext', 'text', 'mediumtext', 'longtext')
MEMBERS = ('enum', 'set')
BYTES = ('binary', 'varbinary', 'tinyblob', 'blob', 'mediumblob', 'longblob')
TYPE = re.compile(r'([a-z]+)(?:\((.*)\))?( unsigned)?( zerofill)?', re.S)
ESCAPE, ESCAPED = re.compile(r'\\(.)', re.S), {'t': '\t', 'n': '\n', '0': '\0', '\\': '\\'}
encode = json.JSONEncoder(default=bytes.hex, separators=(',', ':')).encode
PLAIN = re.compile(rb'[A-Za-z0-9_$]')

Row = Tuple[Any, ...]


class Column:
    """A column of the description: its name, its type by the type's name and numbers, what kind of value the feed has, and
    whether it is part of the key."""

    def __init__(self, name: str, kind: str, character_set: str, key: str) -> None:
        found = TYPE.fullmatch(kind)
        if not found:
            raise Fault(f'{shown(kind)} is no type', USAGE)
        self.name, self.kind, self.is_key = name, kind, key == 'PRI'
        self.type, self.is_unsigned = found[1], bool(found[3])
        self.numbers = [int(it) for it in (found[2] or '').split(',')] if self.type not in MEMBERS and found[2] else []
        self.character_set = character_set
        # Types of Python that a value has in the feed.
        self.is_bytes = (self.type in BYTES or self.type in CHARACTERS and character_set not in KNOWN
                         or self.type in MEMBERS and character_set == 'NULL')
        self.takes: Tuple[type, ...] = ()
        if self.is_bytes:
            self.takes = (str, dict)
        elif self.type in TEXTS + CHARACTERS + MEMBERS:
            self.takes = (str,)
        elif self.type in INTEGERS:
            self.takes = (int,)
        elif self.type in REALS:
            self.takes = (float,)


class Table:
    """A table of the description."""

    def __init__(self, schema: str, name: str) -> None:
        self.schema, self.name = schema, name
        self.columns: List[Column] = []
        self.lines: List[str] = []

    def finish(self) -> None:
        """What is made of the columns once all are there."""
        self.title = f'{written(self.schema)}.{written(self.name)}'
        self.names = tuple(it.name for it in self.columns)
        self.keys = tuple(at for at, it in enumerate(self.columns) if it.is_key)
        self.key_names = tuple(self.names[at] for at in self.keys)
        self.bytes_at = tuple(at for at, it in enumerate(self.columns) if it.is_bytes)
        # The types of the values of rows that fit.
        self.fitting: Set[Tuple[type, ...]] = set()

    def check(self, row: Dict[str, Any], form: str) -> None:
        """Refuses a row of the feed that `values` refuses."""
        if self.bytes_at or tuple(row) != self.names or tuple(map(type, row.values())) not in self.fitting:
            self.values(row, form)

    def values(self, row: Dict[str, Any], form: str) -> List[Any]:
        """The values of a row of the feed, with bytes as such. It has the columns of the description, in order."""
        if tuple(row) != self.names:
            raise Fault(self.unfit('the feed has other columns' if 'cells' not in row
                                   else 'the feed has no names of columns: write it with --columns'))
        values = [*row.values()]
        types = tuple(map(type, values))
        if types not in self.fitting:
            self.fit(values)
            self.fitting.add(types)
        for at in self.bytes_at:
            if values[at] is not None:
                values[at] = decoded(values[at], form)
        return values

    def fit(self, values: List[Any]) -> None:
        for column, value in zip(self.columns, values):
            if value is not None and type(value) not in column.takes or value is None and column.is_key:
                raise Fault(self.unfit(f'the column {shown(column.name)} of type {shown(column.kind)} has the value '
                                       f'{shown(value)}'))

    def unfit(self, why: str) -> str:
        return (f'{self.title}: {why}, and does not fit the description: fetch it again, as after an ALTER; '
                'a sink with rows of the older one is made anew')

    def key_of(self, values: List[Any]) -> Row:
        return tuple([values[at] for at in self.keys])


def decoded(value: Any, form: str) -> bytes:
    """The bytes of a value in a form of the feed."""
    try:
        if isinstance(value, dict):
            return bytes.fromhex(value['hex'])
        if form == 'base64':
            return base64.b64decode(value, validate=True)
        return bytes.fromhex(value) if form == 'hex' else str(value).encode()
    except (KeyError, ValueError) as error:
        raise Fault(f'the feed has the bytes {shown(value)}, which are not of the form {form} that its open says') from error


def digest_of(values: Iterable[Any]) -> bytes:
    """What a row without a key is found by: SHA-256 of its values, which tells -0.0 from 0.0."""
    return hashlib.sha256(encode([*values]).encode()).digest()


def written(name: str) -> str:
    """A name as mrep writes it."""
    return ''.join(chr(byte) if PLAIN.fullmatch(bytes([byte])) else f'%{byte:02x}' for byte in name.encode())


def plain(field: str) -> str:
    return ESCAPE.sub(lambda found: ESCAPED.get(found[1], found[0]), field)


def read(path: str) -> Dict[Tuple[str, str], Table]:
    """The tables of a description."""
    found: Dict[Tuple[str, str], Table] = {}
    try:
        with open(path, encoding='utf-8', newline='\n') as file:
            for number, line in enumerate(file, 1):
                fields = line.rstrip('\n').split('\t')
                if len(fields) != 6 or not line.endswith('\n') or not all(fields[:3]):
                    raise Fault(f'{path}: line {number} is no line of a description: six fields with tabs between, as `mrep '
                                f'columns` asks for them', USAGE)
                schema, name, column, kind, character_set, key = map(plain, fields)
                table = found.setdefault((schema, name), Table(schema, name))
                table.columns.append(Column(column, kind, character_set, key))
                # What tables are made by: a key of another kind changes nothing.
                table.lines.append('\t'.join([*fields[:5], 'PRI' if key == 'PRI' else '']))
    except OSError as error:
        raise Fault(f'{path}: {error.strerror}', RETRY) from error
    except UnicodeDecodeError as error:
        raise Fault(f'{path}: it is not UTF-8', USAGE) from error
    for table in found.values():
        table.finish()
    return found


def chosen(path: str, only: List[str]) -> Tuple[Dict[Tuple[str, str], Table], Dict[Tuple[str, str], Table]]:
    """The tables of a description, and those that `--only` names, or all."""
    described = read(path)
    if not only:
        return described, described
    titles = {table.title: place for place, table in described.items()}
    for word in only:
        if word not in titles:
            raise Fault(f'{path}: {shown(word)[1:-1]}: the table is not described', USAGE)
    return described, {titles[word]: described[titles[word]] for word in only}
