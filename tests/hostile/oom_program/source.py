"""source.py STREAM: a source on loopback that sends the bytes of a file to each replica, reads what it sends, and serves the
next one. It prints its port, and runs until it is ended."""

import socket
import sys

with open(sys.argv[1], 'rb') as file:
    DATA = file.read()
with socket.create_server(('127.0.0.1', 0)) as server:
    print(server.getsockname()[1], flush=True)
    while True:
        peer, _ = server.accept()
        try:
            with peer:
                peer.sendall(DATA)
                peer.shutdown(socket.SHUT_WR)
                while peer.recv(65536):
                    pass
        except OSError:
            pass  # the replica has ended
