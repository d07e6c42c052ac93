"""Streams of a MySQL 9.7 server with the descriptions of their columns and what the server's own client printed of each table
(tests/program/typed/data.tar.xz): for each NAME the stream NAME.bin, the description NAME.columns, and for each table what
`mysql -BN --binary-as-hex` printed of it, its lines sorted by bytes."""

import collections
import os
import tarfile

from mrep import ROOT, done, fail

NAMES = ('bytes', 'ints', 'lists', 'mixed', 'names', 'numbers', 'shapes', 'texts', 'times')
# Tables with texts of character sets that are not known here.
BYTES = {f'words.{kind}_{name}' for kind in ('every', 't') for name in ('gbk', 'koi8r', 'sjis')}

# The types of a description.
INTEGERS = ('tinyint', 'smallint', 'mediumint', 'int', 'bigint', 'year', 'bit')
REALS = ('float', 'double')
TEXTS = ('decimal', 'date', 'time', 'datetime', 'timestamp')
CHARACTERS = ('char', 'varchar', 'tinytext', 'text', 'mediumtext', 'longtext')
MEMBERS = ('enum', 'set')
KNOWN = ('utf8mb4', 'utf8mb3', 'ascii', 'latin1', 'ucs2', 'utf16', 'utf16le', 'utf32')
LARGEST = 2 ** 63 - 1


def plain(field):
    """A field of the client without its escapes; None for NULL."""
    if field == b'NULL':
        return None
    out, marks = bytearray(), {0x74: 9, 0x6e: 10, 0x30: 0, 0x5c: 0x5c}
    rest = iter(field)
    for byte in rest:
        out.append(marks[next(rest)] if byte == 0x5c else byte)
    return bytes(out)


def written(name):
    """A name as mrep writes it."""
    return ''.join(chr(byte) if chr(byte).isalnum() and byte < 128 or byte in b'_$' else f'%{byte:02x}'
                   for byte in name.encode())


def lines_of(data):
    return data.split(b'\n')[:-1]


def ran(*words, status=0):
    """What a run that ends with this status wrote to standard output, and to standard error."""
    got = done(*words)
    if got.returncode != status:
        fail(f'{" ".join(words)} ends with {got.returncode}: {got.stderr.decode()}')
    return got.stdout, got.stderr


def word(kind):
    """The name of a type."""
    return kind.split('(')[0].split(' ')[0]


def type_of(kind, character_set):
    """The type of a column in SQLite."""
    name = word(kind)
    if name in REALS or name == 'bigint' and 'unsigned' in kind or kind == 'bit(64)':
        return 'ANY'
    if name in INTEGERS:
        return 'INTEGER'
    if name in TEXTS or name in CHARACTERS and character_set in KNOWN or name in MEMBERS and character_set != 'NULL':
        return 'TEXT'
    return 'BLOB'


def value_of(kind, character_set, field):
    """The value in SQLite of a field of the client's lines; a FLOAT or a DOUBLE is whether there is one."""
    if field == b'NULL':
        return None
    name = word(kind)
    if name in REALS:
        return 'real'
    if name in INTEGERS:
        number = int(field, 16) if name == 'bit' else int(field)
        return number if number <= LARGEST else str(number)
    if name in TEXTS or character_set != 'NULL':
        return plain(field).decode()
    return bytes.fromhex(field[2:].decode())


def comparable(value):
    """A value with its type: a text NULL is NULL, since the client's lines do not tell them apart."""
    return repr(None if value == 'NULL' else value)


def counted(rows):
    return collections.Counter(tuple(comparable(value) for value in row) for row in rows)


def quoted(name):
    return '"' + name.replace('"', '""') + '"'


class Data:
    """A folder with the streams and what belongs to them, and a database of each stream."""

    def __init__(self, folder):
        self.folder = folder
        with tarfile.open(f'{ROOT}/tests/program/typed/data.tar.xz') as archive:
            # That of Debian 12 has no filters.
            archive.extractall(folder, **({'filter': 'data'} if hasattr(tarfile, 'data_filter') else {}))
        for name in NAMES:
            ran('replay', '--db', self.db(name), self.path(f'{name}.bin'))

    def path(self, name):
        return os.path.join(self.folder, name)

    def db(self, name):
        return self.path(f'{name}.db')

    def tables(self, name):
        """The tables of a stream, as mrep writes their names."""
        ends = '.tsv'
        return sorted(file[:-len(ends)] for file in os.listdir(self.path(name))
                      if file.endswith(ends) and not file.endswith(('.hex.tsv', '.star.tsv')))

    def columns(self, name, table):
        """The names of a table's columns."""
        return [line[2] for line in self.described(name, table)]

    def types(self, name, table):
        """The types of a table's columns, and their character sets."""
        return [(line[3], line[4]) for line in self.described(name, table)]

    def lines(self, name):
        """The lines of a description: schema, table, column, type, character set, key."""
        with open(self.path(f'{name}.columns'), 'rb') as file:
            return [[plain(field).decode() if field != b'NULL' else 'NULL' for field in line.split(b'\t')]
                    for line in lines_of(file.read())]

    def described(self, name, table):
        """The lines of a table."""
        return [line for line in self.lines(name) if written(line[0]) + '.' + written(line[1]) == table]

    def printed(self, name, table):
        """What the client printed of a table: its lines, sorted."""
        with open(self.path(f'{name}/{table}.tsv'), 'rb') as file:
            return lines_of(file.read())

    def loaded(self, name, table):
        """What the server gives of a table for loading: its lines."""
        with open(self.path(f'{name}/{table}.hex.tsv'), 'rb') as file:
            return lines_of(file.read())
