"""A source that sends one recorded connection, and checks what the replica sends.

    source.py STREAM PASSWORD SET

It prints its port, lets one replica connect to 127.0.0.1, sends the whole stream at once, and reads to the end. The status
is 0 if the replica has sent the response of the user `repl` with this password, the query, and the dump command with the
server id 7 and this set (in hexadecimal digits) that asks for an EOF at the end of the log.
"""

import hashlib
import socket
import sys

SCRAMBLE = bytes(range(1, 21))


def answer(password):
    """SHA1(password) xor SHA1(scramble, SHA1(SHA1(password)))."""
    if not password:
        return b""
    once = hashlib.sha1(password).digest()
    other = hashlib.sha1(SCRAMBLE + hashlib.sha1(once).digest()).digest()
    return bytes(a ^ b for a, b in zip(once, other))


def packet(sequence, payload):
    return len(payload).to_bytes(3, "little") + bytes([sequence]) + payload


def expected(password, executed):
    auth = answer(password)
    response = bytes.fromhex("05a20800 00000001 21") + bytes(23) + b"repl\0" + bytes([len(auth)]) + auth + b"mysql_native_password\0"
    query = b"\x03SET @master_binlog_checksum='NONE'"
    dump = bytes.fromhex("1e 0500 07000000 00000000 0400000000000000") + len(executed).to_bytes(4, "little") + executed
    return packet(1, response) + packet(0, query) + packet(0, dump)


def main():
    stream, password, executed = sys.argv[1:]
    with open(stream, "rb") as file:
        bytes_sent = file.read()
    with socket.create_server(("127.0.0.1", 0)) as server:
        print(server.getsockname()[1], flush=True)
        peer, _ = server.accept()
        with peer:
            peer.sendall(bytes_sent)
            peer.shutdown(socket.SHUT_WR)
            came = b""
            while piece := peer.recv(65536):
                came += piece
    return 0 if came == expected(password.encode(), bytes.fromhex(executed)) else 1


sys.exit(main())
