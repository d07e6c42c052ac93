"""Streams of transactions of one row, as the benchmarks replay them."""

import os
import struct
import sys

sys.path.insert(0, os.path.join(os.path.dirname(os.path.abspath(__file__)), '..', 'tests', 'lib'))
from events import BEGIN, FORMAT, event, gtid
from mrep import OPENING
from streams import packets

MAP = event(19, (1).to_bytes(6, 'little') + b'\1\0\4shop\0\5items\0\2\x03\x0f\2\x14\0\2')


def stream(name, first, last):
    """A stream of the transactions with these numbers, each with a row of an INT and a VARCHAR."""
    with open(name, 'wb') as file:
        file.write(OPENING)
        at = 1
        for begin in range(first, last + 1, 1000):
            payloads = [FORMAT] if begin == first else []
            for number in range(begin, min(begin + 1000, last + 1)):
                row = b'\0' + struct.pack('<I', number) + b'\x09some text'
                body = (1).to_bytes(6, 'little') + b'\1\0\2\0\2\3' + row
                payloads += [gtid(number), BEGIN, MAP, event(30, body), event(16, number.to_bytes(8, 'little'))]
            file.write(packets(payloads, at))
            at = (at + len(payloads)) % 256
    return name
