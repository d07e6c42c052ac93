"""The middle of the proxy: events as a server sends or stores them, turned into those of a source of the profile.

Checksums are compared and taken off, compressed transactions unpacked, savepoints and, by rule, statements of other tables
left out. Layouts are those of MySQL Source Documentation, "Binlog Event"."""

import struct
from typing import Callable, Optional, Union
from zlib import crc32

from .faults import Fault, Lost, SourceError, printable
from .report import Report
from .statements import Rules, is_savepoint, text_of
from .unpacking import COMPRESSION, NONE, PACKED_SIZE, UNPACKED_SIZE, ZSTD, Unpacker, payload_fields
from .wire import FLUSH, FULL, LARGEST, PIECE, WHOLE, Body, Input, LongPayload, Output, PacketReader, Part

QUERY, STOP, ROTATE, FORMAT, XID, TABLE_MAP, HEARTBEAT, IGNORABLE, ROWS_QUERY = 2, 3, 4, 15, 16, 19, 27, 28, 29
WRITE, UPDATE, DELETE, GTID, ANONYMOUS, PREVIOUS, PARTIAL, PACKED, TAGGED = 30, 31, 32, 33, 34, 35, 39, 40, 42
NAMES = {
    QUERY: 'QUERY', STOP: 'STOP', ROTATE: 'ROTATE', FORMAT: 'FORMAT_DESCRIPTION', XID: 'XID', TABLE_MAP: 'TABLE_MAP',
    HEARTBEAT: 'HEARTBEAT', IGNORABLE: 'IGNORABLE', ROWS_QUERY: 'ROWS_QUERY', WRITE: 'WRITE_ROWS', UPDATE: 'UPDATE_ROWS',
    DELETE: 'DELETE_ROWS', GTID: 'GTID', ANONYMOUS: 'ANONYMOUS_GTID', PREVIOUS: 'PREVIOUS_GTIDS', PARTIAL: 'PARTIAL_UPDATE_ROWS',
    PACKED: 'TRANSACTION_PAYLOAD', TAGGED: 'GTID_TAGGED',
}
# What may stand in a compressed transaction; of rows also the first version and the partial ones, which `mrep` refuses.
PACKABLE = {QUERY, XID, TABLE_MAP, IGNORABLE, ROWS_QUERY, 23, 24, 25, WRITE, UPDATE, DELETE, PARTIAL}
# Those that the loop over whole packets always leaves to `Middle.event`.
SPECIAL = {STOP, ROTATE, FORMAT, PACKED}

# The header of an event: time, type, server id, size, next position, flags; and so after a packet's header and 0x00.
HEADER, HEADER_SIZE, CHECKSUM_SIZE = struct.Struct('<IBIIIH'), 19, 4
IN_PACKET = struct.Struct('<IBIBIIIH')
# A packet is read from whose first bytes are as many as those of an empty QUERY.
QUERY_IN_PACKET = 4 + 1 + HEADER_SIZE + 13 + 1
UINT32 = struct.Struct('<I')
IN_USE, SUPPRESS_USE = 0x0001, 0x0008
# A format description is at least as long as with 35 types; a GTID stands after the flags of its event, a UUID and a number.
SHORTEST_FORMAT, GTID_AT, GTID_END = HEADER_SIZE + 62 + 35, HEADER_SIZE + 1, HEADER_SIZE + 1 + 24


class Content(Body):
    """An event after its header, without its checksum. `check` compares that, and looks that nothing follows it."""

    def __init__(self, body: Body, header: bytes, summed: bool) -> None:
        self.body, self.summed, self.sum = body, summed, crc32(header)
        self.left = HEADER.unpack(header)[3] - HEADER_SIZE - (CHECKSUM_SIZE if summed else 0)

    def some(self, most: int) -> bytes:
        piece = self.body.some(min(most, self.left)) if self.left else b''
        if self.left and not piece:
            raise Fault('it is shorter than its header says')
        self.sum = crc32(piece, self.sum)
        self.left -= len(piece)
        return piece

    def read(self, most: int) -> bytes:
        """As a file that is read from."""
        return self.some(most)

    def check(self) -> None:
        if self.summed and self.body.take(CHECKSUM_SIZE) != UINT32.pack(self.sum):
            raise Fault('its checksum is wrong')
        if self.body.some(1):
            raise Fault('it is longer than its header says')


class Middle:
    """Takes events, and writes those that `mrep` gets."""

    def __init__(self, output: Output, report: Report, rules: Optional[Rules], window: int,
                 on_set: Optional[Callable[[int, bytes], None]] = None) -> None:
        self.output, self.report, self.rules, self.window = output, report, rules, window
        # Is given the PREVIOUS_GTIDS and GTID events of log files.
        self.on_set = on_set
        # Whether events have a checksum. Before the first format description they have, since CRC32 was asked for.
        self.summed = True
        # Whether BEGIN has come and not yet the end of its transaction; the GTID of the transaction.
        self.inside = False
        self.gtid: Optional[bytes] = None
        # That of a statement that was passed on by itself, at which `mrep` ends.
        self.passed: Optional[bytes] = None
        # Whether the transaction may end here: in a compressed one at its last event alone, before which all is compared.
        self.may_end = True
        # The log file and where the next event begins in it, by the source's own words.
        self.file, self.position = 'the dump', 0

    def fault(self, kind: int, text: Union[str, Fault]) -> Fault:
        """What is wrong with the next event, which is of this type."""
        return Fault(f'{self.file} at {self.position}, {NAMES.get(kind, f"event of type {kind}")}: {text}')

    def packets(self, reader: PacketReader) -> None:
        """Passes on payloads to an EOF; an ERR, or the end of the connection, is a fault."""
        source = reader.source
        while True:
            self._plain_packets(reader)
            if not source.has(4):
                raise Lost('the source has closed the connection')
            length = reader.begin()
            if length and not source.has(1):
                raise source.early
            first = source.data[source.at:source.at + 1] if length else b''
            if first == b'\xff' and length < WHOLE:
                raise SourceError(source.take(length))
            if first == b'\xfe' and length < 9:
                self.output.payload(source.take(length))
                return
            if first != b'\0':
                raise Fault(f'{self.file} at {self.position}: a payload that is no event')
            source.take(1)
            self.event(LongPayload(reader, length, 1), length - 1 if length < FULL else None)

    def _plain_packets(self, reader: PacketReader) -> None:
        """Passes on events that have come whole, each in one packet, and need no more than their checksum. Whatever is
        otherwise stays there, and `event` takes it or finds its fault."""
        source, output, count = reader.source, self.output, 0
        buffer, at, expected, sequence = output.buffer, source.at, reader.sequence, output.sequence
        trailer = CHECKSUM_SIZE if self.summed else 0
        inside, gtid, last = self.inside, self.gtid, self.position
        unpack, pack, checksum = IN_PACKET.unpack_from, IN_PACKET.pack, UINT32.unpack_from
        with memoryview(source.data) as view:
            end = len(view)
            while end - at >= QUERY_IN_PACKET:
                head, first, time, kind, server, size, position, flags = unpack(view, at)
                stop = at + 5 + size
                tail = stop - trailer
                if (kind in SPECIAL or stop > end or size > WHOLE or size < HEADER_SIZE + trailer or first
                        or head != size + 1 | expected << 24):
                    break
                if trailer and crc32(view[at + 5:tail]) != checksum(view, tail)[0]:
                    break
                if kind == QUERY:
                    # A text of five bytes that are BEGIN, after a schema and a status.
                    if view[tail - 5:tail] != b'BEGIN' or tail - at - 43 != view[at + 32] + view[at + 35] + 256 * view[at + 36]:
                        break
                    inside = True
                elif kind == XID:
                    inside, gtid, count = False, None, count + 1
                elif kind == GTID:
                    if size < GTID_END + trailer:
                        break
                    inside, gtid = False, bytes(view[at + 5 + GTID_AT:at + 5 + GTID_END])
                size -= trailer
                buffer += pack(size + 1 | sequence << 24, 0, time, kind, server, size, position, flags)
                buffer += view[at + IN_PACKET.size:tail]
                last = position or last
                expected, sequence, at = (expected + 1) & 255, (sequence + 1) & 255, stop
        source.at, reader.sequence, output.sequence = at, expected, sequence
        self.inside, self.gtid, self.position = inside, gtid, last
        self.report.transactions += count
        if len(buffer) >= FLUSH:
            output.flush()

    def event(self, body: Body, length: Optional[int]) -> None:
        """Passes on the event that the body holds, of this length where that is known."""
        header = body.take(HEADER_SIZE)
        if len(header) < HEADER_SIZE:
            raise Fault(f'{self.file} at {self.position}: an event of {len(header)} bytes')
        _, kind, _, size, position, _ = HEADER.unpack(header)
        try:
            if not HEADER_SIZE + (CHECKSUM_SIZE if self.summed and kind != FORMAT else 0) <= size < LARGEST or length not in (None, size):
                raise Fault(f'its header says {size} bytes' + (f' of {length}' if length is not None else '')
                            + (', as with semi-synchronous replication' if header[0] == 0xEF else ''))
            if kind == FORMAT:
                self._format(header, Content(body, header, False))
            elif kind == PACKED:
                self._unpack(Content(body, header, self.summed))
            else:
                content = Content(body, header, self.summed)
                self._pass(header, content, HEADER_SIZE + content.left, content.check)
        except Lost:
            raise
        except Fault as fault:
            raise self.fault(kind, fault) from fault
        if position and kind != ROTATE:
            self.position = position

    def _pass(self, header: bytes, content: Union[Content, Part], size: int, check: Callable[[], None]) -> None:
        """Passes on an event of this size; its last byte only once it is checked."""
        kind, header = header[4], header[:9] + size.to_bytes(4, 'little') + header[13:]
        if size <= WHOLE or kind == PREVIOUS and self.on_set:
            data = content.take(content.left)
            check()
            self._whole(kind, header + data)
            return
        self.output.begin(1 + size)
        self.output.more(b'\0' + header)
        while content.left > 1:
            self.output.more(content.some(min(content.left - 1, PIECE)))
        last = content.some(1)
        check()
        self.output.more(last)

    def _whole(self, kind: int, event: bytes) -> None:
        """A whole event without checksum."""
        if kind == QUERY:
            return self._query(event)
        if kind == XID:
            self._ended()
        elif kind in (STOP, ROTATE, GTID):
            self.inside, self.gtid = False, event[GTID_AT:GTID_END] if kind == GTID and len(event) >= GTID_END else None
        if kind == ROTATE:
            self.file, self.position = printable(event[HEADER_SIZE + 8:]), int.from_bytes(event[HEADER_SIZE:HEADER_SIZE + 8], 'little')
        if self.on_set and (kind == PREVIOUS or self.gtid and kind == GTID):
            self.on_set(kind, event)
        self.output.payload(b'\0' + event)

    def _ended(self) -> None:
        if not self.may_end:
            raise Fault('the transaction ends before the last of its events')
        self.inside, self.gtid = False, None
        self.report.transactions += 1

    def _query(self, event: bytes) -> None:
        """A statement: passed on, left out, or an empty transaction made of it."""
        text = text_of(event)
        if text == b'BEGIN':
            self.inside = True
        elif text == b'COMMIT':
            self._ended()
        elif text is not None and self.inside and is_savepoint(text):
            self.report.savepoints += 1
            return
        elif text is not None and self.rules and self.gtid and self.rules.may_skip(text):
            self.report.skip(self.gtid, text)
            if not self.inside:
                for word in (b'BEGIN', b'COMMIT'):
                    self.output.payload(b'\0' + plain_query(event, word))
                self._ended()
            return
        elif not self.inside:
            self.passed = self.gtid
        self.output.payload(b'\0' + event)

    def _format(self, header: bytes, content: Content) -> None:
        """A format description, which ends with four bytes whatever its algorithm, the byte before these. They are compared
        where it is CRC32, and made new, since the one that is sent has none."""
        event = header + content.take(min(content.left, WHOLE))
        content.check()
        if not SHORTEST_FORMAT <= len(event) <= WHOLE:
            raise Fault('it is too short or too long')
        algorithm, flags = event[-5], int.from_bytes(event[17:19], 'little')
        if algorithm > 1:
            raise Fault(f'checksums of algorithm {algorithm} are not supported')
        # A file that is written has a flag that was set after the checksum was made.
        unused = event[:17] + (flags & ~IN_USE).to_bytes(2, 'little') + event[19:-4]
        if algorithm and UINT32.pack(crc32(unused)) != event[-4:]:
            raise Fault('its checksum is wrong')
        self.summed, self.inside, self.gtid = algorithm == 1, False, None
        event = event[:-5] + b'\0'
        self.output.payload(b'\0' + event + UINT32.pack(crc32(event)))

    def _unpack(self, content: Content) -> None:
        """Passes on the events of a compressed transaction, which have no checksums of their own. The last byte of the last
        one is sent once the whole was compared: its checksum, its size, and that nothing follows it."""
        fields = payload_fields(content)
        size, compression = fields.get(UNPACKED_SIZE, 0), fields.get(COMPRESSION, ZSTD)
        if not size or fields.get(PACKED_SIZE) != content.left:
            raise Fault('its fields do not say its size')
        if compression not in (ZSTD, NONE):
            raise Fault(f'compression {compression} is not supported')
        packed: Union[Unpacker, Content] = Unpacker(content, self.window) if compression == ZSTD else content
        events = Input(lambda: packed.read(PIECE), Fault('it unpacks to fewer bytes than it says'))

        def check() -> None:
            if events.has(1) or content.left:
                raise Fault('it unpacks to more bytes than it says')
            content.check()

        while size:
            header = events.take(HEADER_SIZE)
            _, kind, _, length, _, _ = HEADER.unpack(header)
            if kind not in PACKABLE or not HEADER_SIZE <= length <= size:
                raise Fault(f'in it stands an event of type {kind} with {length} bytes of {size}')
            size -= length
            self.may_end = not size
            self._pass(header, Part(events, length - HEADER_SIZE), length, (lambda: None) if size else check)
        self.report.unpacked += 1


def plain_query(event: bytes, text: bytes) -> bytes:
    """A QUERY event with the time, the server and the thread of another one, without status and schema."""
    time, _, server, _, position, _ = HEADER.unpack_from(event)
    body = event[HEADER_SIZE:HEADER_SIZE + 4] + bytes(10) + text
    return HEADER.pack(time, QUERY, server, HEADER_SIZE + len(body), position, SUPPRESS_USE) + body
