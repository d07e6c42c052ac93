"""The form with `--listen`: `mrep follow` logs in here, by the profile, and gets the stream of the source."""

import hashlib
import hmac
import secrets
import socket
import struct
import time
from typing import Tuple

from .events import UINT32
from .faults import Fault, Gone, Lost
from .options import Options
from .sets import GtidSet, decoded
from .source import COM_BINLOG_DUMP_GTID, NATIVE, NON_BLOCK, hashed
from .wire import PIECE, Input, PacketReader, packet

# What a login may take, in seconds: a stranger that says nothing keeps nobody waiting for longer.
LOGIN_TIME = 5
OK = bytes.fromhex('00000002000000')
# Protocol 4.1, a scramble of 20 bytes, plugins; long passwords and flags, transactions.
CAPABILITIES = 0x0008A205
QUERY = b"\x03SET @master_binlog_checksum='NONE'"
DENIED, UNKNOWN = 1045, 1105
# The dump command: its mark, flags, server id, the length of a name; after the name a position of 8 bytes, and the set.
DUMP = struct.Struct('<BHII')


def greeting(scramble: bytes) -> bytes:
    """A greeting of the profile."""
    low, high = CAPABILITIES.to_bytes(4, 'little')[:2], CAPABILITIES.to_bytes(4, 'little')[2:]
    return (b'\x0a8.0.0-mrep-proxy\0' + bytes([1, 0, 0, 0]) + scramble[:8] + b'\0' + low + b'\x21\2\0' + high
            + bytes([21]) + bytes(10) + scramble[8:] + b'\0' + NATIVE + b'\0')


def refusal(code: int, text: str) -> bytes:
    """An ERR."""
    state = b'28000' if code == DENIED else b'HY000'
    return b'\xff' + code.to_bytes(2, 'little') + b'#' + state + text.encode(errors='replace')[:500]


class Client:
    """A connection of `mrep`."""

    def __init__(self, accepted: socket.socket, options: Options) -> None:
        self.socket, self.options = accepted, options
        self.until = time.monotonic() + LOGIN_TIME
        accepted.setsockopt(socket.IPPROTO_TCP, socket.TCP_NODELAY, 1)
        self.packets = PacketReader(Input(self._receive, Lost('a login: the connection was closed')))

    def _receive(self) -> bytes:
        try:
            self.socket.settimeout(max(0.001, self.until - time.monotonic()))
            return self.socket.recv(PIECE)
        except OSError as error:
            raise Lost(f'a login: {error.strerror or error}') from error

    def send(self, data: bytearray) -> None:
        try:
            self.socket.sendall(data)
        except OSError as error:
            raise Gone from error

    def _say(self, sequence: int, payload: bytes) -> None:
        self.send(bytearray(packet(sequence, payload)))

    def log_in(self) -> None:
        """The login of the profile, with the user and the password of the options."""
        scramble = bytes(secrets.choice(range(1, 127)) for _ in range(20)).replace(b'$', b'%')
        self._say(0, greeting(scramble))
        self.packets.sequence = 1
        response = self.packets.message()
        user, _, rest = response[32:].partition(b'\0')
        answer = rest[1:1 + rest[0]] if rest else b''
        wanted = hashed(NATIVE, self.options.local_password, scramble)
        if user != self.options.local_user or not hmac.compare_digest(answer, wanted):
            self._say(2, refusal(DENIED, 'mrep-proxy: access denied: the user or the password is another one'))
            raise Fault('a login with another user or password')
        self._say(2, OK)
        self.packets.sequence = 0
        if self.packets.message() != QUERY:
            raise Fault('a client that is not mrep')
        self._say(1, OK)

    def command(self) -> Tuple[int, bool, GtidSet]:
        """The dump command: the server id, whether it ends at the end of the log, the executed set."""
        self.packets.sequence = 0
        message = self.packets.message()
        try:
            mark, flags, server_id, name = DUMP.unpack_from(message)
            size, = UINT32.unpack_from(message, DUMP.size + name + 8)
        except struct.error:
            mark = 0
        if mark != COM_BINLOG_DUMP_GTID[0]:
            raise Fault('a client that is not mrep')
        self.socket.settimeout(None)
        return server_id, bool(flags & NON_BLOCK), decoded(message[DUMP.size + name + 12:][:size])
