"""Callers on this host, which send messages to a program that listens."""

import contextlib
import random
import socket
import struct
import time

from runs.peers import HOST, PAUSE, PIECE, TIME_LIMIT

# no port of these is given to a socket that doesn't ask for one, so that nobody else takes it meanwhile
PORTS = range(20000, 30000)
# a connection that is closed so is reset
RESET = struct.pack("ii", 1, 0)
# how a caller ends the stream
CLOSES, RESETS, WAITS = "closes", "resets", "waits"


def free_port():
    """A port of this host at which nobody listens."""
    while True:
        port = random.choice(PORTS)
        with socket.socket() as tried, contextlib.suppress(OSError):
            tried.bind((HOST, port))
            return port


class Caller:
    """Sends bytes in pieces of `piece` bytes to a program that listens at a port of its own. Then it closes the
    connection, resets it, or waits until the program ends."""

    def __init__(self, octets, piece=PIECE, ends=CLOSES, host=HOST):
        self.octets = octets
        self.piece = piece
        self.ends = ends
        self.host = host
        self.port = free_port()

    def name(self):
        """What the program listens at, as the command line has it."""
        return f"{self.host}:{self.port}"

    def call(self, run):
        """The connection to a program that runs, None if it ends without listening."""
        end = time.monotonic() + TIME_LIMIT
        while time.monotonic() < end:
            with contextlib.suppress(ConnectionRefusedError):
                connection = socket.create_connection((self.host, self.port), TIME_LIMIT)
                if connection.getsockname() != connection.getpeername():
                    return connection
                # the two ends of one socket met
                connection.close()
            if run.poll() is not None:
                return None
            time.sleep(PAUSE)
        raise TimeoutError("nobody listens")

    def take(self, run):
        """Sends all to a program that runs, as far as it reads."""
        connection = self.call(run)
        if connection is None:
            return
        with connection:
            connection.setsockopt(socket.IPPROTO_TCP, socket.TCP_NODELAY, 1)
            # one that has refused a message doesn't read the others
            with contextlib.suppress(BrokenPipeError, ConnectionResetError):
                for place in range(0, len(self.octets), self.piece):
                    connection.sendall(self.octets[place:place + self.piece])
            if self.ends == WAITS:
                run.wait(TIME_LIMIT)
            elif self.ends == RESETS:
                connection.setsockopt(socket.SOL_SOCKET, socket.SO_LINGER, RESET)
