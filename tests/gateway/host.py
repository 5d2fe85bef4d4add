"""A host in a namespace. It does what the lines of standard input say, one after the other, and answers each by one.

    listen tcp|greeting|udp PORT
    call tcp|greeting|udp ADDRESS PORT OWN_PORT SIZE SECONDS

A call sends SIZE bytes, and is answered with the same ones; the host that is called closes last. A greeting sends SIZE
bytes to who calls, and closes first. The answer is `listening`, or what comes of the call within SECONDS: `answered`,
`refused` or `silence`. At the end of its input the host is gone.
"""

import socket
import sys
import threading

KINDS = {"tcp": socket.SOCK_STREAM, "greeting": socket.SOCK_STREAM, "udp": socket.SOCK_DGRAM}
GREETING = b"welcome " * 100
MOST = 65536


def made(kind, port):
    found = socket.socket(socket.AF_INET, KINDS[kind])
    found.setsockopt(socket.SOL_SOCKET, socket.SO_REUSEADDR, 1)
    found.bind(("", port))
    return found


def all_of(connection):
    """What comes until the other end says that it has no more."""
    parts = []
    while part := connection.recv(MOST):
        parts.append(part)
    return b"".join(parts)


def echo_datagrams(own):
    while True:
        datagram, caller = own.recvfrom(MOST)
        own.sendto(datagram, caller)


def echo_connections(own, has_greeting):
    """Takes one connection at a time."""
    while True:
        connection, _ = own.accept()
        with connection:
            if has_greeting:
                connection.sendall(GREETING)
                connection.shutdown(socket.SHUT_WR)
                all_of(connection)
            else:
                connection.sendall(all_of(connection))


def listen(kind, port):
    own = made(kind, int(port))
    if kind == "udp":
        start(echo_datagrams, own)
    else:
        own.listen()
        start(echo_connections, own, kind == "greeting")
    return "listening"


def start(function, *words):
    threading.Thread(target=function, args=words, daemon=True).start()


def exchanged(kind, connection, size):
    """What is sent on a connection that stands, and what comes back."""
    if kind == "greeting":
        return GREETING, all_of(connection)
    sent = bytes(place % 251 for place in range(size))
    connection.sendall(sent)
    if kind == "udp":
        return sent, connection.recv(MOST)
    connection.shutdown(socket.SHUT_WR)
    return sent, all_of(connection)


def call(kind, address, port, own_port, size, seconds):
    with made(kind, int(own_port)) as connection:
        connection.settimeout(float(seconds))
        try:
            connection.connect((address, int(port)))
            expected, seen = exchanged(kind, connection, int(size))
        except ConnectionRefusedError:
            return "refused"
        except TimeoutError:
            return "silence"
    return "answered" if seen == expected else "answered with something else"


def main():
    for line in sys.stdin:
        word, *words = line.split()
        print({"listen": listen, "call": call}[word](*words), flush=True)


if __name__ == "__main__":
    main()
