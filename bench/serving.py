"""Servers on this machine, over TCP: what the scripts of bench/ and checks/ share."""

import random, socket, subprocess, time

from messages import ALIVE, STATUS

LOOPBACK = "127.0.0.1"
PATIENCE = 30  # seconds after which a server that doesn't take a connection or doesn't answer has failed


def free_port():
    """A port on which nobody listens. It lies below those that the system gives to clients: a client that asks for a
    port of its own before its server is there may be connected with itself."""
    while True:
        port = random.randrange(20000, 32000)
        with socket.socket() as probe:
            probe.setsockopt(socket.SOL_SOCKET, socket.SO_REUSEADDR, 1)
            try:
                probe.bind((LOOPBACK, port))
                return port
            except OSError:
                pass


def serve_words(command, port, workers, sessions=None):
    """The words that serve, over TCP, the store of this command of `make_store`."""
    least = [*command[:3], "serve", "--port", str(port), "--workers", str(workers)]
    return least if sessions is None else [*least, "--sessions", str(sessions)]


def serve(command, workers, port=None, sessions=None):
    """Starts the program as the server of the store of a command of `make_store`, on a new port where none is told."""
    port = port or free_port()
    return Server(serve_words(command, port, workers, sessions), port)


class Server:
    """A program that these words start, and that listens at this port. As a context it is killed at its end."""

    def __init__(self, words, port):
        self.port = port
        self.child = subprocess.Popen(words)

    def __enter__(self):
        return self

    def __exit__(self, *_):
        self.kill()

    def kill(self):
        self.child.kill()
        self.child.wait()

    def connect(self, prepare=None):
        """A new connection, also where the server is still about to begin. `prepare` is done to its socket before."""
        end = time.monotonic() + PATIENCE
        while True:
            connection = socket.socket()
            if prepare:
                prepare(connection)
            connection.settimeout(PATIENCE)
            try:
                connection.connect((LOOPBACK, self.port))
                connection.setsockopt(socket.IPPROTO_TCP, socket.TCP_NODELAY, 1)
                return connection
            except ConnectionRefusedError:
                connection.close()
                if self.child.poll() is not None:
                    raise SystemExit(f"the server ended with status {self.child.returncode}")
                if time.monotonic() > end:
                    raise SystemExit(f"the server took no connection within {PATIENCE} s")
                time.sleep(0.001)


def asked(connection, messages):
    """The bytes of the replies to these messages."""
    connection.sendall(b"".join(messages) + STATUS)
    replies = b""
    while not replies.endswith(ALIVE):
        try:
            piece = connection.recv(1 << 20)
        except socket.timeout:
            raise SystemExit(f"a server answered no more within {PATIENCE} s, behind the replies {replies.hex()}")
        if not piece:
            raise SystemExit(f"a server hung up behind the replies {replies.hex()}")
        replies += piece
    return replies[: -len(ALIVE)]
