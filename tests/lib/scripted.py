"""What a server of today sends: events with checksums, compressed transactions, logins; and the proxy over them, in this process
or as a program. All bytes are made here from the public formats (MySQL Source Documentation; RFC 8878 for zstd)."""

import os
import socket
import struct
import subprocess
import sys
import threading
import zlib

from mrep import A, ROOT
from reading import read_payload
from streams import packets

sys.dont_write_bytecode = True
sys.path.insert(0, f'{ROOT}/proxy')
PROXY = f'{ROOT}/proxy/mrep-proxy'
NATIVE, CACHING, SHA256 = b'mysql_native_password', b'caching_sha2_password', b'sha256_password'
OK = bytes.fromhex('00000002000000')
EOF = bytes.fromhex('fe00000200')
UUID_A = bytes.fromhex(A.replace('-', ''))
# The lengths of a description by a server of version 9.7, for 42 types.
LENGTHS = bytes.fromhex('00 0d 00 08 00 00 00 00 04 00 04 00 00 00 63 00 04 1a 08 00 00 00 00 00 00 02 00 00 00 0a 0a 0a 2a 2a 00 12 34 00 0a 28 00 00')
NAMES = {2: 'QUERY', 3: 'STOP', 4: 'ROTATE', 15: 'FORMAT_DESCRIPTION', 16: 'XID', 19: 'TABLE_MAP', 27: 'HEARTBEAT', 28: 'IGNORABLE',
         29: 'ROWS_QUERY', 30: 'WRITE_ROWS', 31: 'UPDATE_ROWS', 32: 'DELETE_ROWS', 33: 'GTID', 34: 'ANONYMOUS_GTID',
         35: 'PREVIOUS_GTIDS', 39: 'PARTIAL_UPDATE_ROWS', 40: 'TRANSACTION_PAYLOAD', 42: 'GTID_TAGGED'}


def python_with_zstd():
    """A Python that has zstd: this one, or that of the system."""
    for python in (sys.executable, '/usr/bin/python3'):
        for module in ('zstandard', 'compression.zstd'):
            if os.access(python, os.X_OK) and subprocess.run([python, '-c', f'import {module}'], stderr=subprocess.DEVNULL, check=False).returncode == 0:
                return python
    return None


def go_on_with_zstd():
    """Goes on in a Python that has zstd. Answers whether there is one."""
    python = python_with_zstd()
    if python and python != sys.executable:
        os.execv(python, [python, *sys.argv])
    return bool(python)


def compress(data, level=3, checksum=False, size=True):
    """A zstd frame by the library that this Python has."""
    try:
        import zstandard
        return zstandard.ZstdCompressor(level=level, write_checksum=checksum, write_content_size=size).compress(data)
    except ImportError:
        from compression import zstd
        of = zstd.CompressionParameter
        return zstd.compress(data, options={of.compression_level: level, of.checksum_flag: int(checksum), of.content_size_flag: int(size)})


def decompress(frame):
    try:
        import zstandard
        return zstandard.ZstdDecompressor().decompress(frame, max_output_size=1 << 20)
    except ImportError:
        from compression import zstd
        return zstd.decompress(frame)


# Events

def event(code, body=b'', flags=0, time=7, server=1, position=0):
    """An event without checksum."""
    return struct.pack('<IBIIIH', time, code, server, 19 + len(body), position, flags) + body


def summed(made):
    """The event with its checksum, which its size counts."""
    if made[4] == 15:
        made = made[:-5] + b'\1'
        return made + struct.pack('<I', zlib.crc32(made))
    made = made[:9] + struct.pack('<I', len(made) + 4) + made[13:]
    return made + struct.pack('<I', zlib.crc32(made))


def description(algorithm=0, flags=0):
    """A format description, with the CRC-32 of what stands before at its end; in a file that is written it is that of the
    event without the flag."""
    body = b'\4\0' + b'9.7.4'.ljust(50, b'\0') + bytes(4) + b'\x13' + LENGTHS + bytes([algorithm])
    made = event(15, body + bytes(4), 0, position=4 + 19 + len(body) + 4)[:-4]
    made += struct.pack('<I', zlib.crc32(made))
    return made[:17] + struct.pack('<H', flags) + made[19:]


def rotate(name, artificial=True):
    return event(4, (4).to_bytes(8, 'little') + name, 0x20 if artificial else 0, time=0)


def gtid(number, source=UUID_A):
    return event(33, b'\0' + source + number.to_bytes(8, 'little') + b'\2' + bytes(16))


def query(text, schema=b'', status=b'', thread=5, flags=8, time=7, server=1):
    return event(2, struct.pack('<IIBHH', thread, 1, len(schema), 0, len(status)) + status + schema + b'\0' + text, flags, time, server)


def table_map(schema=b'shop', table=b'items', number=1):
    """A table with an INT and a VARCHAR(20)."""
    return event(19, number.to_bytes(6, 'little') + b'\1\0' + bytes([len(schema)]) + schema + b'\0' + bytes([len(table)]) + table + b'\0\2\3\x0f\2\x50\0\2')


def image(number, text):
    return b'\0' + number.to_bytes(4, 'little') + bytes([len(text)]) + text


def rows(code, *images, number=1):
    head = number.to_bytes(6, 'little') + b'\1\0\2\0\2' + b'\3' * (2 if code == 31 else 1)
    return event(code, head + b''.join(images))


def xid(number):
    return event(16, number.to_bytes(8, 'little'))


def transaction(number, *changes):
    return [gtid(number), query(b'BEGIN'), *changes, xid(number)]


def insert(number, key, text=b'ab'):
    """A transaction that inserts a row."""
    return transaction(number, table_map(), rows(30, image(key, text)))


def previous(intervals, source=UUID_A, tagged=False):
    """PREVIOUS_GTIDS of one source, or of none."""
    count = int(bool(intervals))
    body = b'\1' + count.to_bytes(6, 'little') + b'\1' if tagged else count.to_bytes(8, 'little')
    if intervals:
        body += source + (b'\0' if tagged else b'') + len(intervals).to_bytes(8, 'little')
        body += b''.join(struct.pack('<QQ', low, high) for low, high in intervals)
    return event(35, body, 0x80)


def lenenc(number):
    return bytes([number]) if number < 251 else b'\xfc' + number.to_bytes(2, 'little') if number < 1 << 16 else b'\xfe' + number.to_bytes(8, 'little')


def field(kind, number):
    value = lenenc(number)
    return lenenc(kind) + lenenc(len(value)) + value


def packed(events, frame, size=None, fields=None):
    """A compressed transaction: this zstd frame, and the fields before it."""
    size = sum(map(len, events)) if size is None else size
    made = fields if fields is not None else field(2, 0) + field(3, size) + field(1, len(frame))
    return event(40, made + b'\0' + frame)


def raw_frame(data, window=17, last=True):
    """A zstd frame (RFC 8878) with blocks as they are: for it no library is needed. The window is 2 to this power."""
    blocks = [data[at:at + 0x10000] for at in range(0, len(data), 0x10000)] or [b'']
    out = b'\x28\xb5\x2f\xfd\0' + bytes([window - 10 << 3])
    for place, block in enumerate(blocks):
        out += (len(block) << 3 | int(last and place + 1 == len(blocks))).to_bytes(3, 'little') + block
    return out


def repeated_block(byte, size, last=False):
    """A block that stands for `size` equal bytes, at most 128 KiB."""
    return (size << 3 | 1 << 1 | int(last)).to_bytes(3, 'little') + byte


def sent(events, algorithm=1):
    """The payloads of a dump by a source that was asked for CRC32: the first ROTATE has a checksum whatever the file has."""
    first, *rest = events
    return [b'\0' + summed(first), *(b'\0' + (summed(it) if algorithm else it) for it in rest)]


def wanted(events):
    """What `mrep` is to get of these: the same events without checksums."""
    return [b'\0' + it for it in events]


def dump(events, algorithm=1, end=()):
    """The bytes of a dump, from its first packet on."""
    return packets([*sent(events, algorithm), *end], 1)


# The proxy in this process

class Quiet:
    """A report that keeps what would be printed."""

    def __init__(self):
        from mrep_proxy.report import Report

        class Kept(Report):
            def say(self, text):
                kept.append(text)
        kept = self.said = []
        self.report = Kept('db1')


def pass_on(stream, pieces=None, rules=None, window=1 << 27, algorithm=None):
    """What comes out of the middle for the bytes of a dump, in pieces of these sizes, why it ended, and the report."""
    from mrep_proxy.events import Middle
    from mrep_proxy.faults import Lost
    from mrep_proxy.main import run_to_end
    from mrep_proxy.wire import Input, Output, PacketReader
    view, at, out, quiet = memoryview(stream), [0], bytearray(), Quiet()

    def receive():
        size = next(pieces) if pieces else len(view)
        piece = bytes(view[at[0]:at[0] + size])
        at[0] += len(piece)
        output.flush()
        return piece

    output = Output(out.extend)
    output.sequence = 1
    middle = Middle(output, quiet.report, rules, window)
    reader = PacketReader(Input(receive, Lost('the source has closed the connection inside a packet')), 1)
    fault = run_to_end(lambda: middle.packets(reader), output)
    return bytes(out), fault, quiet


def without_refusal(out):
    """What came out, without an ERR of the proxy at its end."""
    at, last = 0, 0
    while at + 4 <= len(out):
        last, at = at, at + 4 + int.from_bytes(out[at:at + 3], 'little')
    return out[:last] if at == len(out) and out[last + 4:last + 5] == b'\xff' and b'mrep-proxy' in out[last:] else out


def is_only(out, payloads):
    """Whether these payloads have come out, and no whole one after them but an ERR of the proxy."""
    out, good = without_refusal(out), packets(payloads, 1)
    return out.startswith(good) and not read_payload(out, len(good), None)


# A source

def greeting(plugin=CACHING, scramble=bytes(range(1, 21)), tls=False, lacks=0):
    capabilities = (0x0008A205 | 0x20000000 | (0x800 if tls else 0)) & ~lacks
    return (b'\x0a9.7.4\0' + bytes([9, 0, 0, 0]) + scramble[:8] + b'\0' + struct.pack('<H', capabilities & 0xFFFF) + b'\xff\2\0'
            + struct.pack('<H', capabilities >> 16) + bytes([21]) + bytes(10) + scramble[8:] + b'\0' + plugin + b'\0')


def packet(sequence, payload):
    return len(payload).to_bytes(3, 'little') + bytes([sequence]) + payload


def text_row(*values):
    return b''.join(lenenc(len(it)) + it for it in values)


class Peer:
    """A connection of the proxy to a scripted source, with all that it has sent before TLS and within it."""

    def __init__(self, accepted):
        self.socket, self.heard, self.sequence = accepted, bytearray(), 0
        self.within = bytearray()

    def say(self, payload, sequence=None):
        self.sequence = self.sequence if sequence is None else sequence
        self.socket.sendall(packet(self.sequence, payload))
        self.sequence += 1

    def exactly(self, size):
        data = b''
        while len(data) < size:
            piece = self.socket.recv(size - len(data))
            if not piece:
                raise EOFError
            data += piece
        self.heard += data
        return data

    def hear(self):
        """The next payload of the proxy."""
        head = self.exactly(4)
        self.sequence = head[3] + 1
        return self.exactly(int.from_bytes(head[:3], 'little'))

    def rest(self):
        """Whatever else it sends until it closes the connection."""
        while True:
            try:
                piece = self.socket.recv(65536)
            except OSError:
                return
            if not piece:
                return
            self.heard += piece

    def tls(self, context):
        """Takes the request for TLS, and goes over to it."""
        self.hear()
        self.socket = context.wrap_socket(self.socket, server_side=True)

    def log_in(self):
        """A login that is taken as it comes."""
        self.say(greeting(NATIVE), 0)
        self.hear()
        self.say(OK)

    def ready(self, uuid=A, executed=f'{A}:1-1000000'):
        """Answers what the proxy asks before the dump command, and gives that."""
        while True:
            asked = self.hear()
            if asked[:1] == b'\x1e':
                return asked
            if asked.startswith(b'\x03SELECT'):
                self.say(b'\2', 1)
                for payload in (b'\3def\0', b'\3def\0', EOF, text_row(uuid.encode(), executed.encode()), EOF):
                    self.say(payload)
            else:
                self.say(OK, 1)


class Source:
    """A scripted source on a port of this machine: each connection is given to the next script."""

    def __init__(self, *scripts):
        self.server = socket.create_server(('127.0.0.1', 0))
        self.port = str(self.server.getsockname()[1])
        self.scripts, self.peers, self.faults = scripts, [], []
        self.thread = threading.Thread(target=self.run, daemon=True)
        self.thread.start()

    def run(self):
        for script in self.scripts:
            accepted, _ = self.server.accept()
            accepted.settimeout(60)
            peer = Peer(accepted)
            self.peers.append(peer)
            try:
                with accepted:
                    script(peer)
                    peer.socket.close()
            except (OSError, EOFError) as fault:
                self.faults.append(fault)

    def close(self):
        self.server.close()


def dumping(stream, after=None, **how):
    """A script of a source that sends this after the dump command, and then does what `after` does with the connection."""
    def script(peer):
        peer.log_in()
        peer.asked = peer.ready(**how)
        try:
            peer.socket.sendall(stream)
        except OSError:
            return
        if after:
            after(peer)
    return script


def recorder(folder):
    """A program instead of `mrep`, which writes what it reads to a file."""
    name = f'{folder}/recorder'
    with open(name, 'w', encoding='utf-8') as file:
        file.write(f'#!/bin/sh\nexec cat > "{folder}/recorded"\n')
    os.chmod(name, 0o755)
    return name


def password(folder, text=b'secret\n'):
    """A password file for its owner alone."""
    name = f'{folder}/password'
    with open(name, 'wb') as file:
        file.write(text)
    os.chmod(name, 0o600)
    return name


def start(*words, **how):
    """The proxy as a program."""
    return subprocess.Popen([sys.executable, PROXY, *words], stdout=subprocess.PIPE, stderr=subprocess.PIPE, **{'stdin': subprocess.DEVNULL, **how})


def finish(process):
    """The status, and what it printed."""
    out, err = process.communicate(timeout=120)
    return process.returncode, out.decode(errors='replace'), err.decode(errors='replace')


# Runs a program, and prints on standard error the most memory that it had, in MiB, the seconds of a processor that it took, and its
# status. It is small itself, since what a process had before it ran the program counts.
MEASURED = """import os, sys
used = os.wait4(os.spawnvp(os.P_NOWAIT, sys.argv[1], sys.argv[1:]), 0)
print(used[2].ru_maxrss >> 10, round(used[2].ru_utime + used[2].ru_stime, 3), used[1], file=sys.stderr)"""
