#!/usr/bin/env python3
"""What the program prints for any bytes, read a second time: written from docs/FORMATS.md, and not from the code.

    reading.py packets FILE
    reading.py events FILE
    reading.py replay [--only SCHEMA.TABLE].. STREAM..

The last one prints the lines of `mrep replay` on a new database, and then what `mrep gtids` and `mrep show` print.
"""

import collections
import sys
import uuid

# Packets.
FULL_CHUNK = 0xFFFFFF
LARGEST_PAYLOAD = 1 << 30
# The connection phase.
PLUGIN = b'mysql_native_password'
NEEDED = 0x00088200
# Events.
QUERY, STOP, ROTATE, FORMAT, XID, TABLE_MAP = 2, 3, 4, 15, 16, 19
WRITE, UPDATE, DELETE, GTID = 30, 31, 32, 33
NEUTRAL, ANONYMOUS, REFUSED, MAY_BE_IGNORED = (27, 28, 29, 35), 34, (38, 39, 40), 0x80
LENGTHS = {2: 13, 4: 8, 19: 8, 30: 10, 31: 10, 32: 10}
LAST_NUMBER = 2**63 - 2
FULL_COUNT = 2**63 - 1


class Fault(Exception):
    """Why a stream ends: the printed name, and the place in the event where there is one."""

    def __init__(self, name, at=0):
        super().__init__(name, at)
        self.name, self.at = name, at


class Fields:
    """Bytes that are read from left to right; a field that does not fit is a fault at its first byte."""

    def __init__(self, data, short, at=0):
        self.data, self.short, self.at = data, short, at

    def left(self):
        return len(self.data) - self.at

    def take(self, size):
        if size > self.left():
            raise Fault(self.short, self.at)
        self.at += size
        return self.data[self.at - size:self.at]

    def rest(self):
        return self.take(self.left())

    def number(self, size):
        return int.from_bytes(self.take(size), 'little')

    def lenenc(self, none):
        """A length-encoded integer; `none` is the fault where its first byte begins none."""
        begin = self.at
        first = self.number(1)
        if first <= 0xFA:
            return first
        if first in (0xFB, 0xFF):
            raise Fault(none, begin)
        size = {0xFC: 2, 0xFD: 3, 0xFE: 8}[first]
        if size > self.left():
            raise Fault(self.short, begin)
        return self.number(size)

    def ended_by_zero(self):
        if 0 not in self.data[self.at:]:
            raise Fault(self.short, self.at)
        text = self.take(self.data.index(0, self.at) - self.at)
        self.take(1)
        return text


# Packets


def read_payload(data, begin, expected):
    """The payload whose first packet begins there, where its last one ends, and the sequence id that comes next. None
    where the bytes end before. Without an expected id, the first packet may have any."""
    payload, total, at = [], 0, begin
    while len(data) - at >= 4:
        size, sequence = int.from_bytes(data[at:at + 3], 'little'), data[at + 3]
        if sequence != (sequence if expected is None else expected):
            raise Fault('Wire.Sequence')
        total += size
        if total > LARGEST_PAYLOAD:
            raise Fault('Wire.TooLarge')
        if len(data) - at - 4 < size:
            return None
        payload.append(data[at + 4:at + 4 + size])
        at += 4 + size
        expected = (sequence + 1) % 256
        if size < FULL_CHUNK:
            return b''.join(payload), at, expected
    return None


# Messages of the connection phase


def message(payload):
    """The fields of a message; an empty payload and an error are faults anywhere."""
    fields = Fields(payload, 'Greet.Truncated')
    if fields.left() == 0:
        raise Fault('Greet.Truncated')
    if payload[0] == 0xFF:
        fields.take(1)
        raise Fault(f'SourceError.{fields.number(2)}')
    return fields


def greeting(payload):
    fields = message(payload)
    if fields.number(1) != 10:
        raise Fault('Greet.Protocol')
    fields.ended_by_zero()
    fields.take(4 + 8 + 1)
    capabilities = fields.number(2)
    fields.take(1 + 2)
    capabilities |= fields.number(2) << 16
    length = fields.number(1)
    fields.take(10)
    if capabilities & NEEDED != NEEDED:
        raise Fault('Greet.Capabilities')
    fields.take(max(13, length - 8))


def ok(payload):
    fields = message(payload)
    first = fields.number(1)
    if first != 0:
        raise Fault('Greet.Unexpected')
    fields.lenenc('Greet.Truncated')
    fields.lenenc('Greet.Truncated')
    fields.take(4)


def reply(payload):
    """The reply to a response: whether it is a switch."""
    fields = message(payload)
    if payload[0] != 0xFE:
        ok(payload)
        return False
    fields.take(1)
    if fields.left() == 0:
        raise Fault('Greet.OldAuth')
    if fields.ended_by_zero() != PLUGIN:
        raise Fault('Greet.Plugin')
    fields.take(20)
    return True


def end_of_file(payload):
    fields = message(payload)
    if fields.number(1) != 0xFE or len(payload) >= 9:
        raise Fault('Greet.Unexpected')
    fields.take(4)


# Events. Each reader gives the kind of the event as it is printed, and what it holds.


def format_description(body, _keeps):
    version = body.number(2)
    body.take(50)
    body.take(4)
    header = body.number(1)
    lengths = body.take(max(0, body.left() - 5))
    algorithm = body.number(1)
    body.take(4)
    if version != 4:
        raise Fault('Event.FormatVersion', 19)
    if header != 19:
        raise Fault('Event.HeaderLengths', 75)
    if len(lengths) < 35:
        raise Fault('Event.HeaderLengths', 76)
    for code, length in LENGTHS.items():
        if lengths[code - 1] != length:
            raise Fault('Event.HeaderLengths', 75 + code)
    if algorithm != 0:
        raise Fault('Event.Checksum', 76 + len(lengths))
    return 'Format', None


def rotate(body, _keeps):
    body.number(8)
    return 'Rotate', None


def stop(_body, _keeps):
    return 'Stop', None


def xid(body, _keeps):
    body.number(8)
    if body.left():
        raise Fault('Event.Trailing', body.at)
    return 'Xid', None


def gtid(body, _keeps):
    body.take(1)
    source = body.take(16)
    at = body.at
    number = body.number(8)
    if not 1 <= number <= LAST_NUMBER:
        raise Fault('Event.Number', at)
    return f'Gtid {uuid.UUID(bytes=source)}:{number}', (source, number)


def query(body, _keeps):
    body.take(4)
    body.take(4)
    schema = body.number(1)
    body.take(2)
    status = body.number(2)
    body.take(status)
    body.take(schema)
    body.take(1)
    at = body.at
    kind = {b'BEGIN': 'Begin', b'COMMIT': 'Commit'}.get(body.rest())
    if kind is None:
        raise Fault('Event.Statement', at)
    return kind, None


def count_of_columns(body):
    at = body.at
    count = body.lenenc('Event.Columns')
    if not 1 <= count <= 4096:
        raise Fault('Event.Columns', at)
    return count


# How many bytes of metadata a type has, for each type that is read.
METADATA = {1: 0, 2: 0, 9: 0, 3: 0, 8: 0, 15: 2, 252: 1, 16: 2, 246: 2, 4: 1, 5: 1, 10: 0, 13: 0, 17: 1, 18: 1, 19: 1, 254: 2}
# What the value of a column is: a number of so many bytes, so many bytes, or bytes after a length of so many bytes.
NUMBER, BYTES, COUNTED = 'number', 'bytes', 'counted'
PLAIN = {1: (NUMBER, 1), 2: (NUMBER, 2), 9: (NUMBER, 3), 3: (NUMBER, 4), 8: (NUMBER, 8), 10: (BYTES, 3), 13: (BYTES, 1)}


def digits(count):
    """The bytes of so many decimal digits."""
    return count // 9 * 4 + (count % 9 + 1) // 2


def column(code, meta, at):
    """The values of a column of this type and metadata."""
    first, second = meta[0] if meta else 0, meta[1] if len(meta) > 1 else 0
    if code in PLAIN:
        return PLAIN[code]
    if code == 15:
        return COUNTED, 1 if first + 256 * second < 256 else 2
    if code == 252 and 1 <= first <= 4:
        return COUNTED, first
    if code == 16 and first <= 7 and 1 <= 8 * second + first <= 64:
        return BYTES, (8 * second + first + 7) // 8
    if code == 246 and 1 <= first <= 65 and second <= min(30, first):
        return BYTES, digits(first - second) + digits(second)
    if code == 4 and first == 4 or code == 5 and first == 8:
        return BYTES, first
    if code in (17, 18, 19) and first <= 6:
        return BYTES, {17: 4, 18: 5, 19: 3}[code] + (first + 1) // 2
    if code == 254:
        real, length = first | 0x30, second + ((first & 0x30 ^ 0x30) << 4)
        if real == 254:
            return COUNTED, 1 if length < 256 else 2
        if real == 247 and 1 <= length <= 2 or real == 248 and 1 <= length <= 8:
            return NUMBER, length
        if real not in (247, 248):
            raise Fault('Event.ColumnType', at)
    raise Fault('Event.Metadata', at)


def printed(name):
    plain = b'0123456789abcdefghijklmnopqrstuvwxyzABCDEFGHIJKLMNOPQRSTUVWXYZ_$'
    return ''.join(chr(byte) if byte in plain else f'%{byte:02x}' for byte in name)


def table_map(body, keeps):
    number = body.number(6)
    body.take(2)
    schema = body.take(body.number(1))
    body.take(1)
    table = body.take(body.number(1))
    body.take(1)
    if not keeps((schema, table)):
        return 'TableMap', (number, None, None)
    count = count_of_columns(body)
    at = body.at
    types = body.take(count)
    for place, code in enumerate(types):
        if code not in METADATA:
            raise Fault('Event.ColumnType', at + place)
    at = body.at
    size = body.lenenc('Event.Metadata')
    if size != sum(METADATA[code] for code in types):
        raise Fault('Event.Metadata', at)
    at = body.at
    metadata = body.take(size)
    columns, place = [], 0
    for code in types:
        columns.append(column(code, metadata[place:place + METADATA[code]], at + place))
        place += METADATA[code]
    body.take((count + 7) // 8)
    return f'TableMap {number} {printed(schema)}.{printed(table)} {count}', (number, (schema, table), columns)


def rows_event(body, code):
    number = body.number(6)
    body.take(2)
    at = body.at
    extra = body.number(2)
    if extra < 2:
        raise Fault('Event.Size', at)
    body.take(extra - 2)
    count = count_of_columns(body)
    for _ in range(2 if code == UPDATE else 1):
        at = body.at
        present = body.take((count + 7) // 8)
        if any(present[bit // 8] >> bit % 8 & 1 == 0 for bit in range(count)):
            raise Fault('Event.Partial', at)
    kind = {WRITE: 'write', UPDATE: 'update', DELETE: 'delete'}[code]
    return f'Rows {number} {kind}', (number, kind, count, body.rest())


READERS = {QUERY: query, STOP: stop, ROTATE: rotate, FORMAT: format_description, XID: xid, TABLE_MAP: table_map, GTID: gtid}
for rows_code in (WRITE, UPDATE, DELETE):
    READERS[rows_code] = lambda body, _keeps, code=rows_code: rows_event(body, code)


def read_event(data, keeps=lambda name: True):
    """The type, the size, the printed kind and the content of an event."""
    fields = Fields(data, 'Event.Truncated')
    fields.take(4)
    code = fields.number(1)
    fields.take(4)
    size = fields.number(4)
    fields.take(4)
    flags = fields.number(2)
    if size != len(data):
        raise Fault('Event.Size', 9)
    if code == ANONYMOUS:
        raise Fault('Event.Anonymous', 4)
    if code in READERS:
        return code, size, *READERS[code](fields, keeps)
    if code in NEUTRAL or flags & MAY_BE_IGNORED and code not in REFUSED:
        return code, size, 'Neutral', None
    raise Fault('Event.TypeCode', 4)


# Rows and their images


def read_row(fields, columns):
    """The stored image of the next row."""
    nulls = fields.take((len(columns) + 7) // 8)
    image = len(columns).to_bytes(2, 'little')
    for place, (form, size) in enumerate(columns):
        if nulls[place // 8] >> place % 8 & 1:
            image += b'\0'
        elif form == NUMBER:
            image += b'\1' + bytes([size]) + fields.take(size)
        else:
            value = fields.take(fields.number(size) if form == COUNTED else size)
            image += b'\2' + len(value).to_bytes(4, 'little') + value
    return image


def read_rows(kind, columns, data):
    """The changes of a rows event: the row that goes and the row that comes, one of them None where it has none."""
    fields = Fields(data, 'Gather.Event.Truncated')
    while fields.left():
        before = None if kind == 'write' else read_row(fields, columns)
        after = None if kind == 'delete' else read_row(fields, columns)
        yield before, after


def printed_cells(image):
    fields = Fields(image, 'an image that is none')
    cells = []
    for _ in range(fields.number(2)):
        form = fields.number(1)
        if form == 0:
            cells.append('null')
        elif form == 1:
            width = fields.number(1)
            cells.append(f'{fields.number(width)}/{width}')
        else:
            cells.append('x' + fields.take(fields.number(4)).hex())
    return ','.join(cells)


# Transactions


class Transactions:
    """The transactions of the events of one connection."""

    def __init__(self):
        self.described = False
        self.drop()

    def drop(self):
        self.gtid, self.begun, self.tables, self.changes = None, False, {}, []

    def take(self, code, kind, content):
        """The GTID and the changes of a transaction that ends with this event, or None."""
        if kind == 'Neutral':
            return None
        if kind in ('Format', 'Rotate', 'Stop'):
            self.drop()
            self.described = self.described or kind == 'Format'
            return None
        if not self.described:
            raise Fault('Gather.NoFormat')
        if code == GTID:
            self.drop()
            self.gtid = content
        elif kind == 'Begin':
            if self.gtid is None or self.begun:
                raise Fault('Gather.Misplaced')
            self.begun = True
        elif not self.begun:
            raise Fault('Gather.Misplaced')
        elif code == TABLE_MAP:
            number, name, columns = content
            self.tables[number] = name, columns
        elif code in (WRITE, UPDATE, DELETE):
            self.rows(*content)
        else:
            done = self.gtid, self.changes
            self.drop()
            return done
        return None

    def rows(self, number, kind, count, data):
        if number not in self.tables:
            raise Fault('Gather.UnknownTable')
        name, columns = self.tables[number]
        if name is None:
            return
        if count != len(columns):
            raise Fault('Gather.Event.Columns')
        for before, after in read_rows(kind, columns, data):
            self.changes.append((name, before, after))


class Database:
    """The executed set, and how often each row is there."""

    def __init__(self, only=()):
        self.executed, self.rows, self.only = set(), collections.Counter(), set(only)

    def keeps(self, name):
        return not self.only or name in self.only

    def apply(self, done, changes):
        """Whether the transaction is new. A refused one changes nothing."""
        if done in self.executed:
            return False
        rows = self.rows.copy()
        for name, before, after in changes:
            if before is not None:
                if rows[name, before] == 0:
                    raise Fault('Refused.NoSuchRow')
                rows[name, before] -= 1
            if after is not None:
                if rows[name, after] == FULL_COUNT:
                    raise Fault('Refused.CountFull')
                rows[name, after] += 1
        self.executed.add(done)
        self.rows = +rows
        return True

    def gtids(self):
        """The line of `mrep gtids`."""
        sources = collections.defaultdict(list)
        for source, number in sorted(self.executed):
            intervals = sources[source]
            if intervals and intervals[-1][1] == number - 1:
                intervals[-1][1] = number
            else:
                intervals.append([number, number])
        return ','.join(
            f'{uuid.UUID(bytes=source)}' + ''.join(f':{lo}' if lo == hi else f':{lo}-{hi}' for lo, hi in intervals)
            for source, intervals in sources.items()) + '\n'

    def show(self):
        """The lines of `mrep show`."""
        lines = []
        for ((schema, table), image), count in sorted(self.rows.items()):
            lines.append(f'{printed(schema)}.{printed(table)} {count} {printed_cells(image)}\n')
        return ''.join(lines)


class Unkept(Database):
    """The executed set, and the changes of each transaction, where no rows are kept."""

    def __init__(self, only=()):
        super().__init__(only)
        self.changes = []

    def apply(self, done, changes):
        if done in self.executed:
            return False
        self.executed.add(done)
        self.changes.append((done, changes))
        return True

    def feed(self):
        """Of each change its GTID, its place, its table and its cells before and after it."""
        cells = lambda image: None if image is None else printed_cells(image)
        return [(f'{uuid.UUID(bytes=source)}:{number}', place, *map(json_name, name), cells(before), cells(after))
                for (source, number), changes in self.changes for place, (name, before, after) in enumerate(changes)]


def json_name(name):
    """A name as the feed has it."""
    try:
        return name.decode()
    except UnicodeDecodeError:
        return printed(name)


# Connections


class Connection:
    """What a source has sent on one connection, read into a database."""

    def __init__(self, data, database):
        self.data, self.database = data, database
        self.at, self.expected, self.applied = 0, 0, 0
        # Where the payloads that were taken end.
        self.ends = []

    def next(self, take):
        """Takes the next payload, and gives what `take` makes of it."""
        found = read_payload(self.data, self.at, self.expected)
        if found is None:
            raise Fault('EndOfInput')
        taken = take(found[0])
        _, self.at, self.expected = found
        self.ends.append(self.at)
        return taken

    def read(self):
        """The reason of the end, as it is printed."""
        try:
            self.next(greeting)
            self.expected = (self.expected + 1) % 256  # after the response
            if self.next(reply):
                self.expected = (self.expected + 1) % 256  # after the other answer
                self.next(ok)
            self.expected = 1  # after the query
            self.next(ok)
            self.expected = 1  # after the dump command
            transactions = Transactions()
            while self.next(lambda payload: self.dumped(transactions, payload)):
                pass
            return 'SourceEof'
        except Fault as fault:
            return fault.name

    def dumped(self, transactions, payload):
        """Takes a payload of the dump, and answers whether the log goes on."""
        if payload[:1] != b'\0':
            end_of_file(payload)
            return False
        code, _, kind, content = read_event(payload[1:], self.database.keeps)
        done = transactions.take(code, kind, content)
        if done and self.database.apply(*done):
            self.applied += 1
        return True


# Commands. Each gives its exit status and what it prints.


def listed(data, line):
    """A line for each payload, from its place, sequence id and bytes, and then how the list ends."""
    at, lines = 0, []
    try:
        while found := read_payload(data, at, None):
            payload, end, _ = found
            lines.append(f'{at} {data[at + 3]} {line(payload)}\n')
            at = end
        lines.append(f'rest {len(data) - at}\n')
        return int(at < len(data)), ''.join(lines)
    except Fault as fault:
        place = at if fault.name.startswith('Wire.') else fault.at
        lines.append(f'fault {fault.name} at {place}\n')
        return 1, ''.join(lines)


def packets(data):
    return listed(data, len)


def event_line(payload):
    if not payload:
        raise Fault('Greet.Truncated')
    if payload[0] != 0:
        raise Fault('Greet.Unexpected')
    code, size, kind, _ = read_event(payload[1:])
    return f'{code} {size} {kind}'


def events(data):
    return listed(data, event_line)


def replay(database, streams):
    status, lines = 0, []
    for number, data in enumerate(streams, 1):
        connection = Connection(data, database)
        reason = connection.read()
        lines.append(f'{number} {reason} at {connection.at} applied {connection.applied}\n')
        status = status or int(reason not in ('EndOfInput', 'SourceEof'))
    return status, ''.join(lines)


def table_name(word):
    """The schema and the table that an argument names."""
    parts = word.encode().split(b'.')
    return tuple(b''.join(
        bytes([int(piece[:2], 16)]) + piece[2:] if place else piece
        for place, piece in enumerate(part.split(b'%'))) for part in parts)


def main():
    command, *words = sys.argv[1:]
    only = []
    while words[0] == '--only':
        only.append(table_name(words[1]))
        words = words[2:]
    files = []
    for name in words:
        with open(name, 'rb') as file:
            files.append(file.read())
    if command == 'replay':
        database = Database(only)
        status, out = replay(database, files)
        out += database.gtids() + database.show()
    else:
        status, out = {'packets': packets, 'events': events}[command](*files)
    sys.stdout.write(out)
    return status


if __name__ == '__main__':
    sys.exit(main())
