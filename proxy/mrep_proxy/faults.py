"""Why something ends, and how texts of a source are printed."""

from typing import Optional

# Exit statuses, as those of `mrep`: what stays until somebody acts, mistakes in the words, what may pass by itself.
ACT, USAGE, RETRY = 1, 2, 3
# How much of a text is printed.
SHOWN = 512


class Fault(Exception):
    """What ended a connection or a command, in words, with the exit status."""

    def __init__(self, text: str, status: int = ACT) -> None:
        super().__init__(text)
        self.status = status


class Lost(Fault):
    """The connection to the source failed, timed out or was closed: it may be tried again."""

    def __init__(self, text: str) -> None:
        super().__init__(text, RETRY)


class SourceError(Fault):
    """An ERR of the source. `payload` is what it sent, which `mrep` gets too."""

    def __init__(self, payload: bytes) -> None:
        code, text = int.from_bytes(payload[1:3], 'little'), payload[3:]
        text = text[6:] if text[:1] == b'#' else text
        super().__init__(f'the source says: {printable(text)} ({code})')
        self.payload = payload


class Gone(Exception):
    """`mrep` has ended, or has closed its connection."""


def printable(data: bytes) -> str:
    """A text as `mrep` prints one: printable ASCII but the backslash, any other byte as `\\x` and two digits, 512 bytes."""
    shown = ''.join(chr(it) if 32 <= it < 127 and it != 92 else f'\\x{it:02x}' for it in data[:SHOWN])
    return shown + ('...' if len(data) > SHOWN else '')


def printable_statement(text: bytes) -> str:
    """A statement, up to the word IDENTIFIED or PASSWORD, after which a password's hash may stand."""
    upper = text.upper()
    ends = [at + len(word) for word in (b'IDENTIFIED', b'PASSWORD') for at in [upper.find(word)] if at >= 0]
    end: Optional[int] = min(ends) if ends else None
    return printable(text[:end]) + (' ...' if end is not None else '')
