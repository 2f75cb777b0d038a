"""One question to a running server, and what its answer says of it: it serves, it is busy, it is broken, it is deaf, or nobody listens."""

import errno
import socket
import time
from dataclasses import dataclass
from typing import Tuple

SERVES, BUSY, BROKEN, DEAF, DOWN, ODD = "serves", "busy", "broken", "deaf", "down", "odd"
# The replies of a server that is there, but takes no more just now: no session is free, no room in its history, no memory.
TAKES_NO_MORE = (b"ERR 50\n", b"ERR 80\n", b"ERR 81\n")
LONGEST_ANSWER = 256
# For how long a server's answer is awaited, in seconds: longer than a full one takes to say so, which is its --full, and before that as long
# again if many wait.
PATIENCE = 75.0


@dataclass(frozen=True)
class Answer:
    """What was found: its kind, and a sentence for a person."""

    kind: str
    sentence: str

    @property
    def up(self) -> bool:
        """Whether a vault's server answered, whatever it said."""
        return self.kind in (SERVES, BUSY, BROKEN)


def line_of(connection: socket.socket, end: float) -> bytes:
    """The next line on a connection before a moment; what came of it if the other side ended. Raises TimeoutError after that moment."""
    line = b""
    while not line.endswith(b"\n") and len(line) < LONGEST_ANSWER:
        connection.settimeout(max(0.001, end - time.monotonic()))
        more = connection.recv(1)
        if not more:
            break
        line += more
    return line


def answer_of(where: str, hello: bytes, left: bytes) -> Answer:
    """What these two replies say."""
    if hello.startswith(b"OK session ") and left == b"OK left\n":
        return Answer(SERVES, f"{where} serves")
    told = left or hello
    if told in TAKES_NO_MORE:
        return Answer(BUSY, f"{where} is busy: it said {told.decode('ascii').strip()}, and takes no more just now")
    if told == b"ERR 82\n":
        return Answer(BROKEN, f"{where} is broken: it said ERR 82. See \"A broken vault\" in /usr/share/doc/vaultd/OPERATING.md")
    if not told:
        return Answer(ODD, f"{where} ended the connection without a word")
    return Answer(ODD, f"{where} said {told!r}, which no vault's server says here")


def conversation(connection: socket.socket, end: float) -> Tuple[bytes, bytes]:
    """The replies to a hello, and to a quit if there is a session then."""
    connection.sendall(b"hello watch\n")
    hello = line_of(connection, end)
    if not hello.startswith(b"OK session "):
        return hello, b""
    connection.sendall(b"quit\n")
    return hello, line_of(connection, end)


def ask(host: str, port: int, patience: float) -> Answer:
    """Says hello and quit to the server at an address, and waits this many seconds at most."""
    where, end = f"{host}:{port}", time.monotonic() + patience
    try:
        with socket.create_connection((host, port), patience) as connection:
            return answer_of(where, *conversation(connection, end))
    except TimeoutError:
        return Answer(DEAF, f"{where} is deaf: it gave no answer in {patience:g} seconds")
    except ConnectionRefusedError:
        return Answer(DOWN, f"nobody listens at {where}")
    except OSError as error:
        ended = error.errno in (errno.ECONNRESET, errno.EPIPE)
        return Answer(ODD, f"{where} ended the connection without a word" if ended else f"{where} can't be asked: {error.strerror or error}")
