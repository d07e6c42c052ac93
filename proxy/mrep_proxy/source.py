"""A connection to the source: socket, TLS, login, queries and the dump command (MySQL Source Documentation, "Connection Phase").

A password, or what is computed from one, is sent only where `Connection.may_log_in` and `may_send_password` say so. What a
source asks for beyond the three ways of login here is refused by its name."""

import hashlib
import ipaddress
import select
import socket
import ssl
import time
from io import BytesIO
from typing import Callable, Dict, List, Optional, Union

from .faults import Fault, Lost, SourceError, printable
from .options import Options
from .sets import GtidSet, encoded
from .wire import PIECE, Input, Output, PacketReader, lenenc

LONG_PASSWORD, LONG_FLAG, PROTOCOL_41, SSL, TRANSACTIONS, SECURE, PLUGIN_AUTH = 1, 4, 0x200, 0x800, 0x2000, 0x8000, 0x80000
CAPABILITIES = LONG_PASSWORD | LONG_FLAG | PROTOCOL_41 | TRANSACTIONS | SECURE | PLUGIN_AUTH
NEEDED = PROTOCOL_41 | SECURE | PLUGIN_AUTH
UTF8, LONGEST_PACKET = 33, 1 << 24
NATIVE, CACHING, SHA256 = b'mysql_native_password', b'caching_sha2_password', b'sha256_password'
COM_QUERY, COM_BINLOG_DUMP_GTID = b'\x03', b'\x1e'
THROUGH_GTID, NON_BLOCK = 4, 1
# How long the source waits for its reader, which may apply a large transaction or open a large database, in seconds.
WRITE_TIMEOUT = 3600
EARLY = 'the source has closed the connection inside a packet'


def hashed(plugin: bytes, password: bytes, scramble: bytes) -> bytes:
    """The answer to a scramble: by SHA-1 of mysql_native_password, by SHA-256 of caching_sha2_password."""
    if not password:
        return b'' if plugin == NATIVE else b'\0'
    make: Callable[[bytes], 'hashlib._Hash'] = hashlib.sha1 if plugin == NATIVE else hashlib.sha256
    once = make(password).digest()
    twice = make(once).digest()
    mask = make(scramble + twice if plugin == NATIVE else twice + scramble).digest()
    return bytes(one ^ other for one, other in zip(once, mask))


def tls_context(options: Options) -> ssl.SSLContext:
    """TLS 1.2 or later. Certificates that a server has made for itself lack what the strict test of X.509 asks for."""
    context = ssl.SSLContext(ssl.PROTOCOL_TLS_CLIENT)
    context.minimum_version = ssl.TLSVersion.TLSv1_2
    context.verify_flags &= ~getattr(ssl, 'VERIFY_X509_STRICT', 0x20)
    context.check_hostname = options.ssl_mode == 'VERIFY_IDENTITY'
    try:
        if options.ssl_mode == 'REQUIRED':
            context.verify_mode = ssl.CERT_NONE
        elif options.ssl_ca:
            context.load_verify_locations(options.ssl_ca)
        else:
            context.load_default_certs()
        if options.ssl_cert:
            context.load_cert_chain(options.ssl_cert, options.ssl_key)
    except OSError as error:
        raise Fault(f'the certificates of --ssl-ca, --ssl-cert and --ssl-key cannot be read: {error}') from error
    return context


class Connection:
    """A source that is logged in to."""

    def __init__(self, options: Options) -> None:
        self.options = options
        self.socket: Union[socket.socket, ssl.SSLSocket] = self._connect()
        try:
            self.packets = PacketReader(Input(self._receive, Lost(EARLY)))
            self._log_in()
        except BaseException:
            self.socket.close()
            raise

    def _connect(self) -> socket.socket:
        try:
            if self.options.socket:
                connected = socket.socket(socket.AF_UNIX)
                connected.settimeout(self.options.connect_timeout)
                connected.connect(self.options.socket)
            else:
                connected = socket.create_connection((self.options.host, self.options.port), self.options.connect_timeout)
                connected.setsockopt(socket.SOL_SOCKET, socket.SO_KEEPALIVE, 1)
                connected.setsockopt(socket.IPPROTO_TCP, socket.TCP_NODELAY, 1)
            return connected
        except OSError as error:
            raise Lost(f'cannot connect: {error.strerror or error}') from error

    def _receive(self) -> bytes:
        """Waits for bytes before the dump."""
        try:
            return self.socket.recv(PIECE)
        except OSError as error:
            raise Lost(f'cannot read: {error.strerror or error}') from error

    def _send(self, payload: bytes) -> None:
        output = Output(self.socket.sendall)
        output.sequence = self.packets.sequence
        try:
            output.payload(payload)
            output.flush()
        except OSError as error:
            raise Lost(f'cannot write: {error.strerror or error}') from error
        self.packets.sequence = output.sequence

    def _message(self) -> bytes:
        """A payload that is not an ERR."""
        payload = self.packets.message()
        if payload[:1] == b'\xff':
            raise SourceError(payload)
        return payload

    # The login

    def is_tls(self) -> bool:
        return isinstance(self.socket, ssl.SSLSocket)

    def may_log_in(self) -> bool:
        """Whether what is computed from the password may be sent: inside TLS, to this machine, or where it is allowed."""
        if self.is_tls() or self.options.socket or self.options.insecure:
            return True
        return ipaddress.ip_address(self.socket.getpeername()[0].partition('%')[0]).is_loopback

    def may_send_password(self) -> bool:
        """Whether the password itself may be sent: inside TLS to a source whose certificate was verified, or where that is
        allowed, or by a Unix socket."""
        verified = self.options.ssl_mode != 'REQUIRED' or self.options.insecure
        return bool(self.options.socket) or self.is_tls() and verified

    def _log_in(self) -> None:
        """The greeting, TLS, and the answers, each to a plugin that is known."""
        greeting = self._message()
        try:
            version, rest = greeting[1:].split(b'\0', 1)
            low, high, scramble = rest[13:15], rest[18:20], rest[4:12] + rest[31:43]
            offered = int.from_bytes(low + high, 'little')
            plugin = rest[31 + max(13, rest[20] - 8):].split(b'\0')[0]
        except (ValueError, IndexError) as error:
            raise Fault('its greeting is none of MySQL') from error
        if greeting[:1] != b'\x0a' or offered & NEEDED != NEEDED or len(scramble) != 20:
            raise Fault(f'its greeting is none of MySQL 5.7 or later: version {printable(version)}, capabilities {offered:#x}')
        if self.options.ssl_mode != 'DISABLED' and not self.options.socket:
            if not offered & SSL:
                raise Fault('it offers no TLS; --ssl-mode=DISABLED does without')
            self._start_tls()
        if not self.may_log_in():
            raise Fault('without TLS nothing of a password is sent to another machine; --insecure allows it')
        tls = SSL if self.is_tls() else 0
        answer = self._answer(plugin, scramble)
        self._send(self._head(tls) + self.options.user + b'\0' + bytes([len(answer)]) + answer + plugin + b'\0')
        switched = False
        while True:
            message = self._message()
            if message[:1] == b'\0':
                self.packets.sequence = 0
                return
            if message[:1] == b'\xfe' and not switched:
                switched = True
                plugin, _, scramble = message[1:].partition(b'\0')
                self._send(self._answer(plugin or b'mysql_old_password', scramble[:20]))
            elif message == b'\1\4' and plugin == CACHING:
                self._send(self._password())
            elif message != b'\1\3' or plugin != CACHING:
                raise Fault(f'it answers the login with {printable(message[:32])}, which is not supported')

    def _head(self, tls: int) -> bytes:
        return (CAPABILITIES | tls).to_bytes(4, 'little') + LONGEST_PACKET.to_bytes(4, 'little') + bytes([UTF8]) + bytes(23)

    def _start_tls(self) -> None:
        """Goes over to TLS; nothing that came in clear after the greeting is taken for a part of it."""
        if len(self.packets.source.data) != self.packets.source.at:
            raise Fault('it sends bytes before TLS has begun')
        self._send(self._head(SSL))
        try:
            self.socket = tls_context(self.options).wrap_socket(self.socket, server_hostname=self.options.host)
        except ssl.SSLCertVerificationError as error:
            raise Fault(f'its certificate is refused: {error.verify_message}') from error
        except ssl.SSLError as error:
            raise Fault(f'TLS fails: {error.reason}') from error
        except OSError as error:
            raise Lost(f'TLS fails: {error.strerror or error}') from error

    def _answer(self, plugin: bytes, scramble: bytes) -> bytes:
        if plugin not in (NATIVE, CACHING, SHA256):
            raise Fault(f'it asks for a login by {printable(plugin) or "no plugin"}, which is not supported')
        if len(scramble) != 20:
            raise Fault('its scramble has not 20 bytes')
        return self._password() if plugin == SHA256 else hashed(plugin, self.options.password, scramble)

    def _password(self) -> bytes:
        if not self.may_send_password():
            raise Fault('it asks for the password itself, which is sent only inside TLS to a source whose certificate is '
                        'verified, or by --socket; --insecure allows --ssl-mode=REQUIRED')
        return self.options.password + b'\0'

    # Commands

    def _command(self, payload: bytes) -> bytes:
        self.packets.sequence = 0
        self._send(payload)
        return self._message()

    def execute(self, text: str) -> None:
        """A statement without rows."""
        if self._command(COM_QUERY + text.encode())[:1] != b'\0':
            raise Fault(f'it answers {text[:40]} with no OK')

    def row(self, text: str) -> List[bytes]:
        """The only row of a query, without NULL."""
        columns = self._command(COM_QUERY + text.encode())
        if len(columns) != 1 or not 0 < columns[0] < 0xFB:
            raise Fault(f'it answers {text[:40]} with no rows')
        for _ in range(columns[0]):
            self._message()
        _eof, row, _end = BytesIO(self._message()), BytesIO(self._message()), self._message()
        return [row.read(lenenc(row.read)) for _ in range(columns[0])]

    def prepare(self, idle: float) -> None:
        """Asks for checksums, for heartbeats, and for patience, by the names of servers before and since 8.0.26."""
        period = int(idle / 3 * 1e9)
        self.execute("SET @master_binlog_checksum = 'CRC32', @source_binlog_checksum = 'CRC32', "
                     f'@master_heartbeat_period = {period}, @source_heartbeat_period = {period}, '
                     f'SESSION net_write_timeout = {WRITE_TIMEOUT}')

    def dump(self, server_id: int, held: GtidSet, once: bool) -> None:
        """Asks for the transactions that are not in the set."""
        data = encoded(held)
        self.packets.sequence = 0
        self._send(COM_BINLOG_DUMP_GTID + (THROUGH_GTID | (NON_BLOCK if once else 0)).to_bytes(2, 'little')
                   + server_id.to_bytes(4, 'little') + bytes(4) + (4).to_bytes(8, 'little')
                   + len(data).to_bytes(4, 'little') + data)


class Wait:
    """Receives the bytes of a dump. Where none have come, `flush` is called, and it waits, at most `idle` seconds, also for an
    event on one of the other descriptors, each of which has what is then done."""

    def __init__(self, connected: Union[socket.socket, ssl.SSLSocket], idle: float, flush: Callable[[], None]) -> None:
        connected.settimeout(0)
        self.socket, self.idle, self.flush = connected, idle, flush
        self.poll = select.poll()
        self.poll.register(connected, select.POLLIN)
        self.others: Dict[int, Callable[[], None]] = {}

    def watch(self, descriptor: int, events: int, act: Callable[[], None]) -> None:
        self.others[descriptor] = act
        self.poll.register(descriptor, events)

    def _come(self) -> Optional[bytes]:
        """What has come, of TLS several records; nothing if none has."""
        data = bytearray()
        try:
            while len(data) < PIECE:
                piece = self.socket.recv(PIECE)
                data += piece
                if not piece or not isinstance(self.socket, ssl.SSLSocket):
                    break
        except (BlockingIOError, ssl.SSLWantReadError, ssl.SSLWantWriteError):
            return bytes(data) or None
        except OSError as error:
            raise Lost(f'cannot read: {error.strerror or error}') from error
        return bytes(data)

    def receive(self) -> bytes:
        begun = 0.0
        while True:
            data = self._come()
            if data is not None:
                return data
            self.flush()
            # What the flush took is not waited for the source.
            begun = begun or time.monotonic()
            for descriptor, _ in self.poll.poll(min(1000, self.idle * 1000 or 1000)):
                self.others.get(descriptor, lambda: None)()
            if self.idle and time.monotonic() - begun > self.idle:
                raise Lost(f'nothing has come for {self.idle:g} s')
