"""Texts of first copies, as the `mysql` client writes them of the statements of `mrep select`: of the rows that the server gave
for loading (lib/typed.py), and of the lines of `mrep show`. The second reading of cells is written from docs/FORMATS.md, and not
from the code."""

import datetime
import decimal
import hashlib
import re
import struct
import uuid

from mrep import content, printed
from typed import lines_of, plain, written

CELLS_AS_HEX = ('char', 'varchar', 'tinytext', 'text', 'mediumtext', 'longtext', 'varbinary', 'tinyblob', 'blob', 'mediumblob', 'longblob')
INTEGERS = ('tinyint', 'smallint', 'mediumint', 'int', 'bigint')
# How many bytes so many decimal digits take.
SIZES = (0, 1, 1, 2, 2, 3, 3, 4, 4, 4)


def name_of(field):
    return 'NULL' if field == b'NULL' else plain(field).decode()


def fronts(data, name):
    """The two fields that the rows of each table begin with."""
    found = {}
    for line in lines_of(content(data.path(f'{name}.columns'))):
        schema, table = line.split(b'\t')[:2]
        found[f'{written(name_of(schema))}.{written(name_of(table))}'] = b'%s\t%s\t' % (schema, table)
    return found


def loaded_rows(data, name):
    """The rows that the server gave of the tables of a stream, each with its table in front."""
    found = fronts(data, name)
    return [found[table] + line for table in data.tables(name) for line in data.loaded(name, table)]


def text(gtids, rows):
    """A copy of these rows at this set."""
    return b''.join([b'mrep copy 1\n', gtids.encode(), b'\n', *(row + b'\n' for row in rows), b'end\t%d\n' % len(rows)])


def loaded_set(gtids, copy, columns, transactions=1, ended=True):
    """The executed set after so many transactions of a copy at this set, with this description: the first GTID of its source and the one that says that it
    has begun are executed with the set, and the one that says that it has ended after its last row."""
    return with_copy(gtids, source(gtids, copy, columns), 1 + transactions, ended)


def with_copy(gtids, added, last, ended=True):
    """A printed set, the first transactions of the source of a copy, and its marks: MySQL's greatest transaction number and the one
    before it."""
    greatest = 2 ** 63 - 2
    marks = f':{greatest - 1}-{greatest}' if ended else f':{greatest - 1}'
    return with_source(gtids, added, last, marks)


def source(gtids, copy, columns, first=b'mrep copy 1\n'):
    """The source of the transactions of a copy, by RFC 9562, 5.5: of its first line, its set as it is printed, the lines after it, and
    the description of its columns."""
    lines = copy.split(b'\n', 2)[2]
    name = uuid.NAMESPACE_OID.bytes + first + gtids.encode() + hashlib.sha1(lines).digest() + hashlib.sha1(columns).digest()
    return str(uuid.UUID(bytes=hashlib.sha1(name).digest()[:16], version=5))


def with_source(gtids, added, last, marks=''):
    """A printed set and the first transactions of another source."""
    items = [item for item in gtids.split(',') if item] + ([f'{added}:1-{last}{marks}' if last > 1 else f'{added}:1{marks}'] if last else [])
    return ','.join(sorted(items))


def double(value):
    """A number as the server prints a DOUBLE: the fewest digits, with an exponent where it is far from 1."""
    number = decimal.Decimal(repr(value))
    sign, digits, _ = number.as_tuple()
    digits, point = ''.join(map(str, digits)).rstrip('0') or '0', number.adjusted() + 1
    front = '-' if sign else ''
    if digits == '0':
        return front + '0'
    if point < -14 or point > 15 and len(digits) <= point:
        return f'{front}{digits[0]}{"." if digits[1:] else ""}{digits[1:]}e{point - 1}'
    if point <= 0:
        return f'{front}0.{"0" * -point}{digits}'
    digits = digits.ljust(point, '0')
    return front + digits[:point] + (f'.{digits[point:]}' if digits[point:] else '')


def exact(kind, data):
    """A DECIMAL."""
    digits, scale = map(int, re.findall(r'\d+', kind))
    whole = digits - scale
    sizes = [SIZES[whole % 9]] + [4] * (whole // 9 + scale // 9) + [SIZES[scale % 9]]
    counts = [whole % 9] + [9] * (whole // 9 + scale // 9) + [scale % 9]
    turned = bytes([data[0] ^ 0x80]) + data[1:]
    if turned[0] & 0x80:
        turned = bytes(byte ^ 0xFF for byte in turned)
    out, at = '', 0
    for size, count in zip(sizes, counts):
        out += f'{int.from_bytes(turned[at:at + size], "big"):0{count}d}' if count else ''
        at += size
    front = '' if data[0] & 0x80 or not out.strip('0') else '-'
    return front + (out[:whole].lstrip('0') or '0') + (f'.{out[whole:]}' if scale else '')


def moment(word, kind, data):
    """A DATE, DATETIME, TIMESTAMP or TIME."""
    digits = int((re.findall(r'\((\d)\)', kind) or ['0'])[0])
    if word == 'date':
        value = int.from_bytes(data, 'little')
        return f'{value >> 9:04d}-{value >> 5 & 15:02d}-{value & 31:02d}'
    more = (digits + 1) // 2
    if word == 'time':
        value = int.from_bytes(data, 'big') - (1 << 8 * len(data) - 1)
        front, value = '-' if value < 0 else '', abs(value)
        value, parts = value >> 8 * more, value & (1 << 8 * more) - 1
        clock = f'{front}{value >> 12:02d}:{value >> 6 & 63:02d}:{value & 63:02d}'
    else:
        size = len(data) - more
        value, parts = int.from_bytes(data[:size], 'big'), int.from_bytes(data[size:], 'big')
        if word == 'datetime':
            value -= 1 << 39
            years, months = divmod(value >> 22, 13)
            clock = f'{years:04d}-{months:02d}-{value >> 17 & 31:02d} {value >> 12 & 31:02d}:{value >> 6 & 63:02d}:{value & 63:02d}'
        elif value:
            clock = str(datetime.datetime(1970, 1, 1) + datetime.timedelta(seconds=value))
        else:
            clock = '0000-00-00 00:00:00'
    return clock + (f'.{parts:0{2 * more}d}'[:digits + 1] if digits else '')


def field(kind, cell):
    """The field of a copy for a cell of `mrep show`."""
    word = re.match('[a-z]+', kind).group()
    if cell == 'null':
        return 'NULL'
    if word in ('enum', 'set'):
        return cell.split('/')[0]
    if word in INTEGERS:
        value, width = map(int, cell.split('/'))
        return str(value - (256 ** width if 'unsigned' not in kind and value >> 8 * width - 1 else 0))
    data = bytes.fromhex(cell[1:])
    if word in CELLS_AS_HEX:
        return data.hex().upper()
    if word == 'binary':
        return data.ljust(int(re.findall(r'\d+', kind)[0]), b'\0').hex().upper()
    if word == 'bit':
        return str(int.from_bytes(data, 'big'))
    if word == 'year':
        return str(1900 + data[0]) if data[0] else '0000'
    if word in ('float', 'double'):
        return double(struct.unpack('<f' if word == 'float' else '<d', data)[0])
    return exact(kind, data) if word == 'decimal' else moment(word, kind, data)


def held_rows(data, name, db):
    """The rows of a database as those of a copy, each with its table in front, and as often as it is there. None where a row has
    another number of cells than are described, as before an ALTER."""
    found, kinds, rows = fronts(data, name), {}, []
    for line in printed('show', '--db', db).splitlines():
        table, count, cells = line.split(' ')
        kinds.setdefault(table, [kind for kind, _ in data.types(name, table)])
        cells = cells.split(',')
        if len(cells) != len(kinds[table]):
            return None
        rows += [found[table] + '\t'.join(map(field, kinds[table], cells)).encode()] * int(count)
    return rows


def values(data, name, rows):
    """The rows of a copy, sorted, without the zeros that may stand in front of a number."""
    found, kinds = fronts(data, name), {}
    for table, front in found.items():
        kinds[front] = [kind for kind, _ in data.types(name, table)]
    out = []
    for row in rows:
        schema, table, *fields = row.split(b'\t')
        front = b'%s\t%s\t' % (schema, table)
        out.append([front.decode(), *map(value, kinds[front], map(bytes.decode, fields))])
    return sorted(out)


def value(kind, text):
    number = re.match('float|double|decimal|[a-z]*int', kind)
    if not number or text == 'NULL':
        return text
    return repr(float(text)) if number.group() in ('float', 'double') else str(decimal.Decimal(text))
