"""Events and packets as a source sends them, one by one. The payloads of the sample are here by their names."""

import struct
import uuid

from mrep import A, OPENING, S1
from streams import packets


def event(code, body):
    """A payload of a dump: 0x00 and an event of this type of the source with id 1."""
    return b'\0' + struct.pack('<LBLLLH', 0, code, 1, 19 + len(body), 0, 0) + body


def gtid(number):
    """The GTID of A with this number."""
    return event(33, b'\0' + uuid.UUID(A).bytes + number.to_bytes(8, 'little'))


def query(text):
    return event(2, bytes(14) + text)


def rows(code, *images, table=1, present=3, columns=2):
    """A rows event of a table: of type 31 each row has two images."""
    head = table.to_bytes(6, 'little') + b'\1\0\2\0' + bytes([columns, *[present] * (2 if code == 31 else 1)])
    return event(code, head + b''.join(images))


def dump(*payloads):
    """The opening, and then these payloads."""
    return OPENING + packets(payloads, 1)


# The payloads of the sample's dump.
FORMAT, BEGIN, MAP, XID = S1[104:221], query(b'BEGIN'), S1[317:365], event(16, (1).to_bytes(8, 'little'))


def transaction(number, *changes):
    """The payloads of a transaction of A, whose rows are those of shop.items."""
    return (gtid(number), BEGIN, MAP, *changes, XID)
