"""Bytes and packets in both directions (MySQL Source Documentation, "MySQL Packets")."""

from typing import Callable

from .faults import Fault

# The longest chunk of a packet. A payload that is as long, or longer, goes on in the next packet.
FULL = 0xFFFFFF
# Up to this many bytes an event is handled whole, a longer one in pieces. A QUERY with BEGIN or COMMIT is never longer, as its
# other fields have at most 65,536 and 256 bytes.
WHOLE = 1 << 17
# The longest piece, and how many bytes are collected before they are sent where more has come already.
PIECE, FLUSH = 1 << 18, 1 << 16
# The highest limit of a payload in MySQL (max_allowed_packet), and what the messages before the dump may have.
LARGEST, LARGEST_MESSAGE = 1 << 30, 1 << 26


class Input:
    """Bytes in the order in which `receive` gives them; it waits for some, and gives none at the end. `early` is what is wrong
    where the end comes too early."""

    def __init__(self, receive: Callable[[], bytes], early: Fault) -> None:
        self.receive, self.early = receive, early
        self.data = bytearray()
        # Where what has not been taken begins.
        self.at = 0

    def has(self, size: int) -> bool:
        """Waits for so many bytes; not, if the end comes first."""
        while len(self.data) - self.at < size:
            piece = self.receive()
            if not piece:
                return False
            if self.at:
                del self.data[:self.at]
                self.at = 0
            self.data += piece
        return True

    def take(self, size: int) -> bytes:
        """The next `size` bytes."""
        if not self.has(size):
            raise self.early
        self.at += size
        return bytes(self.data[self.at - size:self.at])

    def some(self, most: int) -> bytes:
        """The next bytes, at least one and at most so many."""
        self.has(1)
        return self.take(max(1, min(most, len(self.data) - self.at)))


class Body:
    """The rest of an event, in pieces."""

    def some(self, most: int) -> bytes:
        """The next bytes, at most so many; none at the end."""
        raise NotImplementedError

    def take(self, size: int) -> bytes:
        """The next `size` bytes, or fewer at the end."""
        taken = bytearray()
        while len(taken) < size:
            piece = self.some(size - len(taken))
            if not piece:
                break
            taken += piece
        return bytes(taken)


class Part(Body):
    """So many of the next bytes of an input."""

    def __init__(self, source: Input, left: int) -> None:
        self.source, self.left = source, left

    def some(self, most: int) -> bytes:
        piece = self.source.some(min(most, self.left)) if self.left else b''
        self.left -= len(piece)
        return piece


class PacketReader:
    """The payloads of packets, whose first one has this sequence id."""

    def __init__(self, source: Input, sequence: int = 0) -> None:
        self.source, self.sequence = source, sequence

    def begin(self) -> int:
        """Takes the header of a packet: the length of its chunk."""
        head = self.source.take(4)
        if head[3] != self.sequence:
            raise Fault(f'a packet has the sequence id {head[3]} instead of {self.sequence}')
        self.sequence = (self.sequence + 1) % 256
        return int.from_bytes(head[:3], 'little')

    def message(self) -> bytes:
        """A whole payload of the messages before the dump."""
        length, payload = self.begin(), bytearray()
        while True:
            payload += self.source.take(length)
            if length < FULL:
                return bytes(payload)
            if len(payload) > LARGEST_MESSAGE:
                raise Fault('a message is too long')
            length = self.begin()


class LongPayload(Body):
    """What is left of a payload, over its packets: the first chunk is this long, and so much of it is taken."""

    def __init__(self, reader: PacketReader, length: int, taken: int) -> None:
        # What is left of the present packet, and whether another one follows.
        self.reader, self.left, self.goes_on = reader, length - taken, length == FULL

    def some(self, most: int) -> bytes:
        while not self.left and self.goes_on:
            self.left = self.reader.begin()
            self.goes_on = self.left == FULL
        piece = self.reader.source.some(min(most, self.left)) if self.left else b''
        self.left -= len(piece)
        return piece


class Output:
    """Payloads, cut into packets with sequence ids of their own."""

    def __init__(self, send: Callable[[bytearray], None]) -> None:
        self.send = send
        self.buffer = bytearray()
        self.sequence = 0
        # What is missing of the payload that has begun, and of its packet; whether another packet follows that one.
        self.left = self.chunk = 0
        self.goes_on = False

    def payload(self, payload: bytes) -> None:
        """A whole payload."""
        self.begin(len(payload))
        self.more(payload)

    def begin(self, length: int) -> None:
        """Begins a payload of this length, whose bytes `more` gets."""
        self.left = length
        self._next_packet()

    def _next_packet(self) -> None:
        self.chunk = min(self.left, FULL)
        self.goes_on = self.chunk == FULL
        self.left -= self.chunk
        self.buffer += (self.chunk | self.sequence << 24).to_bytes(4, 'little')
        self.sequence = (self.sequence + 1) % 256

    def more(self, piece: bytes) -> None:
        """The next bytes of the payload."""
        while True:
            part = piece[:self.chunk]
            self.buffer += part
            self.chunk -= len(part)
            if self.chunk or not self.goes_on:
                break
            piece = piece[len(part):]
            self._next_packet()
        if len(self.buffer) >= FLUSH:
            self.flush()

    def is_between(self) -> bool:
        """Whether no payload has begun and not ended."""
        return not self.chunk and not self.goes_on

    def flush(self) -> None:
        """Sends what was collected."""
        if self.buffer:
            self.send(self.buffer)
            self.buffer.clear()


def packet(sequence: int, payload: bytes) -> bytes:
    """A payload that is shorter than a full packet, as one."""
    return len(payload).to_bytes(3, 'little') + bytes([sequence]) + payload


def lenenc(take: Callable[[int], bytes]) -> int:
    """A length-encoded integer of the next bytes."""
    first = take(1)
    if first and first[0] < 0xFB:
        return first[0]
    width = {b'\xfc': 2, b'\xfd': 3, b'\xfe': 8}.get(first, 0)
    value = take(width)
    if not width or len(value) < width:
        raise Fault('a length-encoded integer is none')
    return int.from_bytes(value, 'little')
