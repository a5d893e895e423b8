"""How gdb is connected: by standard input and output, or by a TCP port of this computer."""
import socket
import sys

from replaycheck.endings import put

HERE = "127.0.0.1"


class Closed(Exception):
    """The other side has closed the connection."""


class Pipes:
    """Standard input and output."""

    def byte(self):
        return sys.stdin.buffer.read(1)

    def write(self, data):
        def written():
            sys.stdout.buffer.write(data)
            sys.stdout.buffer.flush()
        put(written)


class Port:
    """The first that connects to a port. Other computers can't."""

    def __init__(self, number):
        with socket.create_server((HERE, number)) as server:
            print(f"replaycheck gdb: waits for gdb at {HERE}:{server.getsockname()[1]}", file=sys.stderr, flush=True)
            self.socket, _ = server.accept()
        self.reader = self.socket.makefile("rb")

    def byte(self):
        try:
            return self.reader.read(1)
        except ConnectionError:
            return b""

    def write(self, data):
        try:
            self.socket.sendall(data)
        except ConnectionError:
            raise Closed from None
