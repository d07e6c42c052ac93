"""The form `files`: log files as they lie, read in order. Each next one has to continue the one before."""

import os
import re
import time
from typing import Callable, List, Optional

from .events import FORMAT, GTID, HEADER, HEADER_SIZE, PREVIOUS, ROTATE, Middle
from .faults import Fault
from .report import cannot
from .sets import GtidSet, decoded, joined, missing, printed
from .wire import PIECE, Input, Part

MAGIC, ENCRYPTED = b'\xfebin', b'\xfdbin'
RELAY_LOG = 0x0040
# How often a file is looked at that may grow, in seconds.
LOOK = 0.25


class LogFiles:
    """Log files that are read into a middle. `rest` is called while nothing comes: it flushes, and looks whether `mrep` is there."""

    def __init__(self, paths: List[str], follow: bool, held: GtidSet, rest: Callable[[], None]) -> None:
        self.paths, self.follow, self.rest = paths, follow, rest
        # What the logs before the present place have; before the first file it is what the database has, which may be more.
        self.executed = held
        self.is_first, self.is_known = True, False
        self.next: Optional[str] = None

    def on_set(self, kind: int, event: bytes) -> None:
        """The set at the beginning of a file, and each GTID after it."""
        if kind == PREVIOUS:
            previous = decoded(event[HEADER_SIZE:])
            lacks, more = missing(previous, self.executed), missing(self.executed, previous)
            if lacks or more and not self.is_first:
                raise Fault(f'a file before it is missing: {printed(lacks or more)}')
            self.executed, self.is_first, self.is_known = previous, False, True
        elif not self.is_known:
            raise Fault('no PREVIOUS_GTIDS stands before it')
        else:
            spans = self.executed.setdefault(event[20:36], [])
            number = int.from_bytes(event[36:44], 'little')
            if spans and spans[-1][1] == number:
                spans[-1] = (spans[-1][0], number + 1)
            else:
                spans.append((number, number + 1))

    def run(self, middle: Middle) -> None:
        """Reads all files, and with `follow` those that come after them."""
        paths = [*self.paths]
        while paths:
            path = paths.pop(0)
            self.is_known, self.executed = False, joined(self.executed, {})
            following = self.follow and not paths
            try:
                self._file(path, following, middle)
            except OSError as error:
                raise cannot(path, error) from error
            if following and self.next:
                paths.append(self.next)

    def _file(self, path: str, following: bool, middle: Middle) -> None:
        self.next = None
        with open(path, 'rb', buffering=0) as file:
            events = Input(lambda: self._more(path, file.fileno(), following), Fault(f'{path}: it ends inside an event'))
            magic = events.take(4) if events.has(4) else b''
            if magic != MAGIC:
                raise Fault(f'{path}: it is ' + ('an encrypted log' if magic == ENCRYPTED else 'no binary log'))
            middle.file, middle.position, kind, begun = os.path.basename(path), 4, FORMAT, False
            while events.has(1):
                if not events.has(HEADER_SIZE):
                    raise events.early
                _, kind, _, size, _, flags = HEADER.unpack_from(events.data, events.at)
                if not begun and kind != FORMAT or kind == FORMAT and flags & RELAY_LOG:
                    raise Fault(f'{path}: it is ' + ('a relay log' if kind == FORMAT else 'no binary log'))
                place, begun = middle.position + size, True
                middle.event(Part(events, size), size)
                if kind == ROTATE:
                    self.next = os.path.join(os.path.dirname(path), os.path.basename(middle.file))
                middle.file, middle.position = os.path.basename(path), place

    def _more(self, path: str, descriptor: int, following: bool) -> bytes:
        """The next bytes of a file; none at its end. One that is followed ends where the next one is there."""
        while True:
            ended = not following or os.path.exists(self._next_of(path))
            piece = os.read(descriptor, PIECE)
            if piece or ended:
                if not piece and following:
                    self.next = self._next_of(path)
                return piece
            self.rest()
            time.sleep(LOOK)
            here, there = os.fstat(descriptor), os.stat(path)
            if here.st_ino != there.st_ino or there.st_size < os.lseek(descriptor, 0, os.SEEK_CUR):
                raise Fault(f'{path}: it was begun anew while it was read')

    def _next_of(self, path: str) -> str:
        """The file after this one: that of its ROTATE, or without one that with the next number."""
        if self.next:
            return self.next
        name, number = re.fullmatch(r'(.*?)(\d*)', path).groups()  # type: ignore[union-attr]
        return name + str(int(number) + 1).zfill(len(number)) if number else path + '.next'
