"""Compressed transactions: the fields of a TRANSACTION_PAYLOAD event, and zstd in bounded memory."""

import io
from typing import Any, Dict, Tuple

from .faults import Fault
from .wire import Body, lenenc

# The fields of the event (MySQL Source Documentation, class Transaction_payload_event), and the ways of compression.
END, PACKED_SIZE, COMPRESSION, UNPACKED_SIZE = 0, 1, 2, 3
ZSTD, NONE = 0, 255
# No field that is known is longer; one that is not known may be.
LONGEST_FIELD = 1 << 16


def payload_fields(content: Body) -> Dict[int, int]:
    """The fields before the events, each a type, a length and a value, in any order; those that are not known are left out."""
    found: Dict[int, int] = {}
    while True:
        kind = lenenc(content.take)
        if kind == END:
            return found
        size = lenenc(content.take)
        value = content.take(min(size, LONGEST_FIELD))
        if len(value) < size:
            raise Fault('a field of it is too long')
        if kind in (PACKED_SIZE, COMPRESSION, UNPACKED_SIZE):
            found[kind] = lenenc(io.BytesIO(value).read)


class Unpacker:
    """The bytes that the zstd frames of a content hold, read a piece at a time. A frame with a larger window is refused: no
    more than that is kept."""

    def __init__(self, content: Any, window: int) -> None:
        self.window = window
        self.reader, self.errors = opened(content, window)

    def read(self, most: int) -> bytes:
        """At most so many bytes; none at the end, which may also be that of a frame that is cut."""
        try:
            piece: bytes = self.reader.read(most)
            return piece
        except self.errors as error:
            raise Fault(f'it cannot be unpacked, with --max-window {self.window}: {error}') from error


def opened(content: Any, window: int) -> Tuple[Any, Tuple[Any, ...]]:
    """A reader over zstd frames, by the library that this Python has, and its errors."""
    try:
        import zstandard
        unpacker = zstandard.ZstdDecompressor(max_window_size=window)
        return unpacker.stream_reader(content, read_size=1 << 16, read_across_frames=True), (zstandard.ZstdError,)
    except ImportError:
        pass
    try:
        from compression import zstd  # type: ignore[import]  # Python 3.14
        options = {zstd.DecompressionParameter.window_log_max: max(10, window.bit_length() - 1)}
        return zstd.ZstdFile(content, options=options), (zstd.ZstdError, EOFError)
    except ImportError as error:
        raise Fault('a compressed transaction needs python3-zstandard, or Python 3.14') from error
