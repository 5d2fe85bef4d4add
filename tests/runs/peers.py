"""Peers on this host, to which a run of the program sends its messages."""

import socket
import time
from select import select

HOST = "127.0.0.1"
# seconds; other comparisons may run at the same time
TIME_LIMIT = 30
# seconds between two looks at whether a program has ended that didn't call
PAUSE = 0.005
# bytes that are read at once at most
PIECE = 1 << 16
# bytes of a segment and of what is held back for one that doesn't read, so that little is on the way
FEW_BYTES = 2048


class Peer:
    """Listens at a port of its own, and takes one call at a time. It takes `most` bytes and hangs up, or all that come
    if no number is told."""

    def __init__(self, most=None):
        self.most = most
        self.listener = socket.socket()
        if most is not None:
            self.listener.setsockopt(socket.SOL_SOCKET, socket.SO_RCVBUF, FEW_BYTES)
            self.listener.setsockopt(socket.IPPROTO_TCP, socket.TCP_MAXSEG, FEW_BYTES)
        self.listener.bind((HOST, 0))
        self.listener.listen()
        self.port = self.listener.getsockname()[1]

    def __enter__(self):
        return self

    def __exit__(self, *_):
        self.listener.close()

    def name(self):
        """As the command line has it."""
        return f"{HOST}:{self.port}"

    def is_called(self, seconds):
        return bool(select([self.listener], [], [], seconds)[0])

    def call(self, run):
        """The connection of a program that runs, None if it ends without a call."""
        end = time.monotonic() + TIME_LIMIT
        while not self.is_called(PAUSE):
            if run.poll() is not None and not self.is_called(0):
                return None
            if time.monotonic() > end:
                raise TimeoutError("no call")
        connection, _ = self.listener.accept()
        connection.settimeout(TIME_LIMIT)
        return connection

    def take(self, run):
        """What a program that runs sends, None if it doesn't call."""
        connection = self.call(run)
        if connection is None:
            return None
        with connection:
            return self.read(connection)

    def read(self, connection):
        taken = b""
        while self.most is None or len(taken) < self.most:
            piece = connection.recv(PIECE if self.most is None else min(PIECE, self.most - len(taken)))
            if not piece:
                break
            taken += piece
        return taken


def nobody():
    """A socket whose port nobody listens at while it is open."""
    silent = socket.socket()
    silent.bind((HOST, 0))
    return silent
