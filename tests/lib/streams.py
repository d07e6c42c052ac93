"""Streams of a source that are made from a seed: whole ones and damaged ones.

A case has the streams of some connections, which are replayed into one new database, and the tables of the filter. The
tables have columns of all types, the transactions both endings; rows are there or not, GTIDs come again, events stand in
the wrong place, packets are cut or have a wrong id, and bytes are changed, in the stream or in an event whose size is then
made right, so that what comes after the first test is read too.
"""

import random
import uuid

FULL_CHUNK = 0xFFFFFF
PLUGIN = b'mysql_native_password'
LAST_NUMBER = 2**63 - 2
NAMES = [b'shop', b'items', b'a', b'T_1$', b'x.y', b'\xc3\xa4%', b'', b'n' * 255]
# Headers' lengths for each type from 1 on, as a server of version 8.0 sends them; only six of them are read.
LENGTHS = bytes.fromhex('000d0008000000000400040000006200041a08000000080808020000000a0a0a2a2a001234000a280000')


class Case:
    """The streams of a seed, and the tables of the filter."""

    def __init__(self, seed):
        maker = Maker(random.Random(seed))
        maker.tables = [maker.table() for _ in range(maker.chance.choice([1, 1, 2, 3]))]
        self.only, self.streams = [], []
        if maker.odds(0.2):
            self.only = [table['name'] for table in maker.tables if maker.odds(0.5)] or [(b'no', b'such')]
        for _ in range(maker.chance.choice([1, 1, 1, 1, 2, 3])):
            self.streams.append(maker.stream())
            if maker.odds(0.1):
                self.streams.append(maker.chance.choice(self.streams))
        if maker.odds(0.1):
            maker.chance.shuffle(self.streams)


class Maker:
    """A source: its tables with their rows, its GTIDs, and the bytes that it sends."""

    def __init__(self, chance):
        self.chance = chance
        self.sources = [uuid.UUID(int=chance.getrandbits(128)).bytes for _ in range(chance.choice([1, 1, 1, 2, 3]))]
        self.numbers = {source: 0 for source in self.sources}
        self.used = []
        self.tables = []

    def odds(self, chance):
        return self.chance.random() < chance

    def bytes(self, size):
        return self.chance.randbytes(size)

    # Tables and rows

    def table(self):
        few = self.odds(0.97)
        count = self.chance.choice([1, 1, 2, 2, 3, 4, 5, 7, 8, 9, 17]) if few else self.chance.choice([250, 251, 300, 4096, 4097])
        columns = [self.column() if few else (1, b'', ('fixed', 1)) for _ in range(count)]
        name = self.chance.choice(NAMES), self.chance.choice(NAMES)
        return {'name': name, 'number': self.chance.choice([1, 2, 3, 2**48 - 1]), 'columns': columns, 'rows': []}

    def column(self):
        """A type, its metadata, and how its values are written."""
        pick, below = self.chance.choice, self.chance.randrange
        code = pick([1, 2, 9, 3, 8, 15, 15, 252, 16, 246, 4, 5, 10, 13, 17, 18, 19, 254, 247, 248])
        if code in (1, 2, 9, 3, 8, 10, 13):
            return code, b'', ('fixed', {1: 1, 2: 2, 9: 3, 3: 4, 8: 8, 10: 3, 13: 1}[code])
        if code == 15:
            most = pick([0, 1, 20, 255, 256, 1000, 65535])
            return code, most.to_bytes(2, 'little'), ('counted', 1 if most < 256 else 2)
        if code == 252:
            width = pick([1, 2, 3, 4])
            return code, bytes([width]), ('counted', width)
        if code == 16:
            bits = pick([1, 7, 8, 9, 12, 63, 64])
            return code, bytes([bits % 8, bits // 8]), ('fixed', -(-bits // 8))
        if code == 246:
            precision = below(65) + 1
            scale = below(min(30, precision) + 1)
            sizes = [part // 9 * 4 + [0, 1, 1, 2, 2, 3, 3, 4, 4][part % 9] for part in (precision - scale, scale)]
            return code, bytes([precision, scale]), ('fixed', sum(sizes))
        if code in (4, 5):
            return code, bytes([2 ** (code - 2)]), ('fixed', 2 ** (code - 2))
        if code in (17, 18, 19):
            digits = below(7)
            return code, bytes([digits]), ('fixed', {17: 4, 18: 5, 19: 3}[code] + [0, 1, 1, 2, 2, 3, 3][digits])
        if code == 254:
            length = pick([0, 1, 80, 255, 256, 511, 512, 1020])
            return code, bytes([254 ^ length >> 4 & 0x30, length & 255]), ('counted', 1 if length < 256 else 2)
        width = pick([1, 2]) if code == 247 else pick([1, 2, 3, 4, 8])
        return 254, bytes([code, width]), ('fixed', width)

    def row(self, table):
        """The bytes of each value, None for null."""
        cells = []
        for _, _, (form, size) in table['columns']:
            if self.odds(0.15):
                cells.append(None)
            elif form == 'fixed':
                cells.append(self.chance.choice([bytes(size), b'\xff' * size, self.bytes(size)]))
            else:
                length = self.chance.choice([0, 1, 2, 3, 20, 255 if size == 1 else 256])
                cells.append(length.to_bytes(size, 'little') + self.bytes(length))
        return tuple(cells)

    def bitmap(self, bits):
        """A bitmap; the bits after the last column may have any value."""
        number = sum(1 << place for place, bit in enumerate(bits) if bit)
        spare = -len(bits) % 8
        number |= self.chance.getrandbits(8) >> (8 - spare) << len(bits) if spare else 0
        return number.to_bytes((len(bits) + 7) // 8, 'little')

    def row_bytes(self, row):
        return self.bitmap([cell is None for cell in row]) + b''.join(cell for cell in row if cell is not None)

    def known_row(self, table):
        return self.chance.choice(table['rows']) if table['rows'] and self.odds(0.98) else self.row(table)

    def change(self, table, code):
        """The rows of a change of this kind, which the source makes too."""
        rows = []
        if code != 30:
            row = self.known_row(table)
            if row in table['rows']:
                table['rows'].remove(row)
            rows.append(row)
        if code != 32:
            row = self.known_row(table) if self.odds(0.2) else self.row(table)
            table['rows'].append(row)
            rows.append(row)
        return b''.join(self.row_bytes(row) for row in rows)

    # Events

    def lenenc(self, number):
        """The number in any of the forms that it fits."""
        forms = [b'\xfe' + number.to_bytes(8, 'little')]
        if number < 1 << 24:
            forms.append(b'\xfd' + number.to_bytes(3, 'little'))
        if number < 1 << 16:
            forms += [b'\xfc' + number.to_bytes(2, 'little')] * 2
        if number <= 250:
            forms += [bytes([number])] * 20
        return self.chance.choice(forms)

    def event(self, code, body, flags=0):
        size = 19 + len(body)
        return b'\0' + self.bytes(4) + bytes([code]) + self.bytes(4) + size.to_bytes(4, 'little') + self.bytes(4) + flags.to_bytes(2, 'little') + body

    def description(self):
        lengths = LENGTHS[:self.chance.choice([35, 38, 41, 42])]
        return self.event(15, b'\4\0' + self.bytes(54) + b'\x13' + lengths + b'\0' + self.bytes(4))

    def neutral(self):
        code, flags = self.chance.choice([(27, 0), (28, 0), (29, 0), (35, 0), (36, 0x80), (200, 0xff), (0, 0x80)])
        return self.event(code, self.bytes(self.chance.randrange(9)), flags)

    def outside(self):
        """An event that drops an open transaction."""
        return self.chance.choice([self.description, lambda: self.event(3, self.bytes(self.chance.randrange(3))),
                                   lambda: self.event(4, self.bytes(8 + self.chance.randrange(12)))])()

    def gtid(self):
        source = self.chance.choice(self.sources)
        if self.used and self.odds(0.1):
            source, number = self.chance.choice(self.used)
        elif self.odds(0.1):
            number = self.chance.choice([self.chance.randrange(1, 12), LAST_NUMBER, 1 << 32])
        else:
            number = self.numbers[source] = self.numbers[source] + 1
        self.used.append((source, number))
        return self.event(33, self.bytes(1) + source + number.to_bytes(8, 'little') + self.bytes(self.chance.choice([0, 18, 25])))

    def query(self, text):
        schema, status = self.chance.choice(NAMES), self.bytes(self.chance.choice([0, 0, 5, 40]))
        return self.event(2, self.bytes(8) + bytes([len(schema)]) + self.bytes(2) + len(status).to_bytes(2, 'little') + status + schema + self.bytes(1) + text)

    def table_map(self, table):
        (schema, name), columns = table['name'], table['columns']
        metadata = b''.join(meta for _, meta, _ in columns)
        body = table['number'].to_bytes(6, 'little') + self.bytes(2)
        body += bytes([len(schema)]) + schema + self.bytes(1) + bytes([len(name)]) + name + self.bytes(1)
        body += self.lenenc(len(columns)) + bytes(code for code, _, _ in columns)
        body += self.lenenc(len(metadata)) + metadata + self.bytes((len(columns) + 7) // 8) + self.bytes(self.chance.choice([0, 0, 7]))
        return self.event(19, body)

    def rows_event(self, table, code, rows=None):
        extra = self.bytes(self.chance.choice([0, 0, 0, 3]))
        count = len(table['columns'])
        body = table['number'].to_bytes(6, 'little') + self.bytes(2) + (2 + len(extra)).to_bytes(2, 'little') + extra + self.lenenc(count)
        for _ in range(2 if code == 31 else 1):
            body += self.bitmap([True] * count)
        for _ in range(self.chance.choice([0, 1, 1, 1, 2, 3]) if rows is None else rows):
            body += self.change(table, code)
        return self.event(code, body)

    def load(self, table):
        """The events of many inserts into a table, at times with another change among them."""
        events = [self.table_map(table)] + [self.rows_event(table, 30, 250) for _ in range(self.chance.choice([3, 4, 5]))]
        if self.odds(0.4):
            other = self.chance.choice(self.tables)
            place = self.chance.randrange(1, len(events))
            events[place:place] = [self.table_map(other), self.rows_event(other, self.chance.choice([30, 31, 32]), 1), self.table_map(table)]
        return events

    def transaction(self):
        begin = self.gtid(), self.query(b'BEGIN')
        events = []
        for _ in range(self.chance.choice([0, 1, 1, 1, 2, 3])):
            table = self.chance.choice(self.tables)
            if len(table['columns']) < 20 and self.odds(0.01):
                events += self.load(table)
            events.append(self.table_map(table))
            changes = [30, 30, 31, 32] if table['rows'] or self.odds(0.02) else [30]
            events.append(self.rows_event(table, self.chance.choice(changes)))
        end = self.event(16, self.bytes(8)) if self.odds(0.7) else self.query(b'COMMIT')
        return [*begin, *events, end]

    def dump(self):
        """The events, some of them neutral."""
        events = [] if self.odds(0.03) else [self.description()]
        for _ in range(self.chance.choice([0, 1, 1, 2, 3, 5])):
            events += self.transaction()
        for _ in range(self.chance.choice([0, 0, 1, 3])):
            events.insert(self.chance.randrange(len(events) + 1), self.neutral())
        if self.odds(0.15):
            events.insert(self.chance.randrange(len(events) + 1), self.outside())
        return events

    # Messages

    def greeting(self):
        length = self.chance.choice([0, 8, 21, 21, 30])
        capabilities = (0x00088200 | self.chance.getrandbits(32)).to_bytes(4, 'little')
        return (b'\x0a8.0.36\0' + self.bytes(13) + capabilities[:2] + self.bytes(3) + capabilities[2:]
                + bytes([length]) + self.bytes(10) + self.bytes(max(13, length - 8)) + self.chance.choice([b'', PLUGIN + b'\0']))

    def ok(self):
        return b'\0' + self.lenenc(self.chance.randrange(300)) + self.lenenc(0) + self.bytes(4) + self.bytes(self.chance.choice([0, 5]))

    def error(self):
        text = self.chance.choice([b'#HY000lost', b'Too many', b'', b'#', b'x' * 600])
        return b'\xff' + self.chance.choice([1040, 1236, 0, 65535]).to_bytes(2, 'little') + text

    def login(self):
        """The messages before the dump, each with its sequence id."""
        messages = [(0, self.greeting())]
        if self.odds(0.25):
            messages += [(2, b'\xfe' + PLUGIN + b'\0' + self.bytes(20) + self.bytes(self.chance.choice([0, 1]))), (4, self.ok())]
        else:
            messages.append((2, self.ok()))
        messages.append((1, self.ok()))
        if self.odds(0.04):
            place = self.chance.randrange(len(messages))
            messages[place] = messages[place][0], self.chance.choice([self.error(), b'\xfe', b'', b'\xfe' + PLUGIN + b'\0', b'\xfeother\0'])
        return messages

    # Streams

    def stream(self):
        login, dump = self.login(), self.dump()
        if self.odds(0.25):
            dump.append(self.chance.choice([b'\xfe\0\0\2\0', b'\xfe\0\0\2\0abc', b'\xfe\0\0\2\0abcd', b'\xfe\0\0', b'', b'\1', self.error()]))
        if self.odds(0.002):
            # An event of more than one packet, which may be ignored.
            dump.append(self.event(28, bytes(self.chance.choice([FULL_CHUNK - 20, FULL_CHUNK - 19, FULL_CHUNK]))))
        damage = self.chance.random()
        if damage < 0.35:
            for _ in range(self.chance.choice([1, 1, 2])):
                self.damage_payloads(dump)
        stream = b''.join(packets([payload], sequence) for sequence, payload in login)
        stream += packets(dump, 1)
        if 0.3 < damage < 0.55:
            stream = self.damaged(stream)
        return stream

    def damage_payloads(self, dump):
        """Changes the list of payloads, or one of them; the size that an event says is then made right."""
        if not dump:
            return
        place = self.chance.randrange(len(dump))
        payload = dump[place]
        way = self.chance.choice(['drop', 'again', 'swap', 'change', 'change', 'change', 'grow', 'shrink', 'type'])
        at = self.chance.randrange(min(len(payload), 4000)) if payload else 0
        if way == 'drop':
            del dump[place]
        elif way == 'again':
            dump.insert(self.chance.randrange(len(dump) + 1), payload)
        elif way == 'swap':
            other = self.chance.randrange(len(dump))
            dump[place], dump[other] = dump[other], payload
        elif way == 'type' and len(payload) > 5:
            dump[place] = payload[:5] + bytes([self.chance.choice([2, 3, 4, 15, 16, 19, 30, 31, 32, 33, 34, 38, 40, 42, 250])]) + payload[6:]
        elif way == 'change' and payload:
            dump[place] = payload[:at] + self.byte(payload[at]) + payload[at + 1:]
        elif way == 'grow':
            dump[place] = sized(payload[:at] + self.bytes(self.chance.choice([1, 1, 2, 5])) + payload[at:])
        elif way == 'shrink':
            dump[place] = sized(payload[:at] + payload[at + self.chance.choice([1, 1, 2, 5]):])

    def byte(self, old):
        return bytes([self.chance.choice([0, 0xFF, old ^ 1, old ^ 0x80, (old + 1) % 256, (old - 1) % 256, 0xFB, self.chance.randrange(256)])])

    def damaged(self, stream):
        """Changes the stream: a byte, a cut, bytes that are added or left out, or a packet cut in two."""
        at = self.chance.randrange(min(len(stream), 20000))
        way = self.chance.choice(['change', 'change', 'cut', 'cut', 'grow', 'shrink'])
        if way == 'change':
            return stream[:at] + self.byte(stream[at]) + stream[at + 1:]
        if way == 'cut':
            return stream[:at]
        if way == 'grow':
            return stream[:at] + self.bytes(self.chance.choice([1, 4, 9])) + stream[at:]
        return stream[:at] + stream[at + self.chance.choice([1, 4, 9]):]


def sized(payload):
    """The payload with the size of its event made right, where it has one."""
    if len(payload) < 14:
        return payload
    return payload[:10] + (len(payload) - 1).to_bytes(4, 'little') + payload[14:]


def packets(payloads, sequence):
    """The packets of payloads; the first one has this sequence id, and each other one the next."""
    out = []
    for payload in payloads:
        for at in range(0, len(payload) + 1, FULL_CHUNK):
            chunk = payload[at:at + FULL_CHUNK]
            out.append(len(chunk).to_bytes(3, 'little') + bytes([sequence]) + chunk)
            sequence = (sequence + 1) % 256
    return b''.join(out)
