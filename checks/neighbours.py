"""Connections whose clients don't keep the rules, beside which a server has to answer all others as if these weren't
there. What they send changes no store."""

import os, random, select, socket, struct, sys, threading
from concurrent.futures import ThreadPoolExecutor
from contextlib import contextmanager

from messages import ALIVE, LISTING, STATUS, field, message, text

WORKERS = 3  # that `around` keeps busy, at most
LONG = 1 << 20  # bytes of a message whose reply is as long
UNREAD = 64 << 20  # bytes that no server takes from a client that never reads its replies
STALLED = 0.2  # seconds in which a server takes nothing: it waits for its client
ECHOED = message(b"set_ugi", field(11, 1, text(b"ana")) + field(15, 2, b"\x0b" + struct.pack(">i", 1) + text(b"x" * LONG)))
FRONTS = [b"", STATUS, LISTING[:20], STATUS[:8], bytes.fromhex("80010001 01000000"), bytes.fromhex("00ffffff")]


def reset_at_close(connection):
    """Lets the close of this connection throw away what is under way."""
    connection.setsockopt(socket.SOL_SOCKET, socket.SO_LINGER, struct.pack("ii", 1, 0))


def never_reads(server):
    """A client that sends messages with long replies and reads none, up to where the server waits for it."""
    connection = server.connect(lambda it: it.setsockopt(socket.SOL_SOCKET, socket.SO_RCVBUF, 4096))
    connection.setblocking(False)
    sent = 0
    while select.select([], [connection], [], STALLED)[1]:
        sent += connection.send(memoryview(ECHOED)[sent % len(ECHOED) :])
        if sent > UNREAD:
            sys.exit(f"{UNREAD} bytes were taken from a client that reads no reply")
    reset_at_close(connection)
    return connection


def stays_amid(server, given):
    """A client that sends these bytes, which are no whole message, and then nothing."""
    connection = server.connect()
    connection.sendall(given)
    return connection


def goes_away(server, given):
    """A client that sends these bytes, which are no whole message, and hangs up."""
    stays_amid(server, given).close()


def breaks_off(server, given):
    """The same, but its end is a reset."""
    connection = stays_amid(server, given)
    reset_at_close(connection)
    connection.close()


def sends_noise(server, front, noise):
    """A client that sends random bytes behind a front, and reads up to the end what is answered: the front's replies."""
    connection = server.connect()
    replies = b""
    try:
        connection.sendall(front + noise)
        connection.shutdown(socket.SHUT_WR)
        while piece := connection.recv(4096):
            replies += piece
    except (ConnectionResetError, BrokenPipeError):
        pass  # the server hung up with some of the noise unread
    connection.close()
    due = ALIVE if front == STATUS else b""
    if replies != due:
        sys.exit(f"random bytes {noise.hex()} behind {front.hex()} were answered with {replies.hex()} in place of {due.hex()}")


def come_and_go(server, ended):
    """Clients of each kind that doesn't stay, one after the other."""
    chance = random.Random(os.urandom(8))
    while not ended.wait(0.001):
        goes_away(server, LISTING[: chance.randrange(len(LISTING))])
        breaks_off(server, LISTING[: chance.randrange(len(LISTING))])
        sends_noise(server, chance.choice(FRONTS), chance.randbytes(chance.randrange(1, 2000)))


@contextmanager
def around(server):
    """Neighbours of each kind at a server: one that never reads its replies, one that stays amid a message, and, one
    after the other, those that don't stay."""
    ended = threading.Event()
    with never_reads(server), stays_amid(server, LISTING[: len(LISTING) // 2]), ThreadPoolExecutor(1) as pool:
        others = pool.submit(come_and_go, server, ended)
        try:
            yield
        finally:
            ended.set()
        others.result()
