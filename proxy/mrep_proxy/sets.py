"""GTID sets (MySQL Reference Manual, "GTID Format and Storage"): for each source, a UUID of 16 bytes and perhaps a tag after
it, its intervals, ascending and apart, each with the number after its last one."""

import re
import struct
from typing import Dict, List, Tuple
from uuid import UUID

from .faults import Fault

Intervals = List[Tuple[int, int]]
GtidSet = Dict[bytes, Intervals]
TWO = struct.Struct('<QQ')
INTERVAL, TAG = re.compile(r'([0-9]+)(?:-([0-9]+))?'), re.compile('[A-Za-z_][A-Za-z0-9_]{0,31}')


def merged(intervals: Intervals) -> Intervals:
    """The least intervals with the same numbers."""
    found: Intervals = []
    for low, high in sorted(intervals):
        if found and low <= found[-1][1]:
            found[-1] = (found[-1][0], max(high, found[-1][1]))
        else:
            found.append((low, high))
    return found


def joined(one: GtidSet, other: GtidSet) -> GtidSet:
    """What is in one of two sets."""
    return {source: merged(one.get(source, []) + other.get(source, [])) for source in {**one, **other}}


def missing(wanted: GtidSet, held: GtidSet) -> GtidSet:
    """What is in `wanted` and not in `held`."""
    found = {source: _missing(intervals, held.get(source, [])) for source, intervals in wanted.items()}
    return {source: intervals for source, intervals in found.items() if intervals}


def _missing(wanted: Intervals, held: Intervals) -> Intervals:
    found, at = [], 0
    for low, high in wanted:
        while at < len(held) and held[at][1] <= low:
            at += 1
        place = at
        while low < high:
            begins, ends = held[place] if place < len(held) else (high, high)
            if low < begins:
                found.append((low, min(begins, high)))
            low, place = ends, place + 1
    return found


def parse(text: str) -> GtidSet:
    """A set from its text, also with tags, as a server prints it."""
    found: Dict[bytes, Intervals] = {}
    try:
        for item in filter(None, (part.strip() for part in text.split(','))):
            uuid, *fields = item.split(':')
            key = source = UUID(uuid).bytes
            for field in fields:
                numbers = INTERVAL.fullmatch(field)
                if numbers:
                    found.setdefault(key, []).append((int(numbers[1]), int(numbers[2] or numbers[1]) + 1))
                else:
                    key = source + TAG.fullmatch(field)[0].lower().encode()  # type: ignore[index]
    except (TypeError, ValueError) as error:
        raise Fault(f'{text[:80]} is no GTID set') from error
    return {source: merged(intervals) for source, intervals in found.items()}


def printed(held: GtidSet, most: int = 512) -> str:
    """The text of a set, of a long one its beginning."""
    parts = []
    for source in sorted(held):
        spans = ''.join(f':{low}' + (f'-{high - 1}' if high - low > 1 else '') for low, high in held[source])
        parts.append(str(UUID(bytes=source[:16])) + (f':{source[16:].decode("latin1")}' if source[16:] else '') + spans)
    text = ','.join(parts)
    return text if len(text) <= most else text[:most] + '...'


def without_copies(held: GtidSet) -> GtidSet:
    """The set without what first copies have: a UUID of version 5."""
    return {source: intervals for source, intervals in held.items() if source[6] >> 4 != 5}


def encoded(held: GtidSet) -> bytes:
    """A set without tags as COM_BINLOG_DUMP_GTID has it."""
    out = [len(held).to_bytes(8, 'little')]
    for source in sorted(held):
        out += [source, len(held[source]).to_bytes(8, 'little'), *(TWO.pack(*it) for it in held[source])]
    return b''.join(out)


def decoded(data: bytes) -> GtidSet:
    """The set of a PREVIOUS_GTIDS event, or of a dump command, in the encoding without tags and in that with them."""
    try:
        tagged = data[7] == 1
        count, at = int.from_bytes(data[1:7] if tagged else data[:8], 'little'), 8
        found: GtidSet = {}
        for _ in range(count):
            if at >= len(data):
                raise ValueError(at)
            source, at = data[at:at + 16], at + 16
            if tagged:
                # The tag's length in one byte, doubled, as the serialization of numbers below 128 is.
                size = data[at] >> 1
                source, at = source + data[at + 1:at + 1 + size], at + 1 + size
            intervals, at = int.from_bytes(data[at:at + 8], 'little'), at + 8
            spans, at = data[at:at + 16 * intervals], at + 16 * intervals
            found[source] = merged(found.get(source, []) + [(low, high) for low, high in TWO.iter_unpack(spans)])
        if at != len(data):
            raise ValueError(at)
        return found
    except (IndexError, ValueError, struct.error) as error:
        raise Fault('a GTID set is not encoded as one') from error
