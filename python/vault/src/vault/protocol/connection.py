"""How the client speaks to a server: one connection at a time, made anew when its lines are used up or it is lost."""

import contextlib
import socket
import time
from typing import Callable, List, Optional, Sequence

from vault.errors import LostError, UnreachableError
from vault.protocol import transport
from vault.protocol.address import Address, address_word
from vault.protocol.grammar import ANOTHERS, BROKEN, FULL, NO_MEMORY
from vault.protocol.replies import Reply, read_reply

LINES_OF_A_CONNECTION = 4000
CONNECT_SECONDS = 10.0
GREETING_SECONDS = 15.0
REPLY_SECONDS = 60.0
FULL_PAUSE_SECONDS = 0.5
REPLY_BYTES = 1 << 20
ASKED_AT_ONCE = 256


class Connection:
    """A connection on which a designer's session stands."""

    def __init__(self, host: str, port: int, designer: str):
        self.lines = 0
        self.stream = transport.opened(host, port, CONNECT_SECONDS)
        self.socket = self.stream.socket
        self.socket.settimeout(GREETING_SECONDS)
        self.reader = self.socket.makefile("rb")
        try:
            self.greeting = self.ask("hello " + designer)
        except LostError as lost:
            raise self.stream.explained(lost, designer) from lost
        self.socket.settimeout(REPLY_SECONDS)
        if not self.greeting.ok:
            self.drop()

    def ask(self, line: str) -> Reply:
        """Sends one line and waits for its answer."""
        return self.ask_all([line])[0]

    def ask_all(self, lines: List[str]) -> List[Reply]:
        """Sends some lines at once and waits for their answers."""
        self.lines += len(lines)
        try:
            self.socket.sendall("".join(line + "\n" for line in lines).encode("ascii"))
            return [self._reply() for _ in lines]
        except socket.timeout as error:
            self.drop()
            raise LostError("it does not answer; its workers may all be taken") from error
        except OSError as error:
            self.drop()
            raise LostError(error.strerror or str(error)) from error
        except LostError:
            self.drop()
            raise

    def ask_within(self, line: str, seconds: float) -> Reply:
        """Sends one line whose answer may take this long. After that the connection ends."""
        self.socket.settimeout(seconds)
        reply = self.ask(line)
        self.socket.settimeout(REPLY_SECONDS)
        return reply

    def _reply(self) -> Reply:
        line = self.reader.readline(REPLY_BYTES)
        if not line.endswith(b"\n"):
            raise LostError("the connection ended")
        return read_reply(line)

    def leave(self) -> None:
        """Ends the session and the connection."""
        with contextlib.suppress(LostError):
            self.ask("quit")
        self.drop()

    def drop(self) -> None:
        """Ends the connection."""
        with contextlib.suppress(OSError):
            self.reader.close()
        self.stream.close()


class Patience:
    """Growing pauses, until a time is over."""

    def __init__(self, seconds: float, first: float = 0.05, longest: float = 2.0):
        self.end = time.monotonic() + seconds
        self.next, self.longest = first, longest

    def over(self) -> bool:
        """Whether the time is over."""
        return self.left() <= 0.0

    def left(self) -> float:
        """How many seconds are left."""
        return self.end - time.monotonic()

    def pause(self) -> None:
        """Sleeps a little longer than the time before, and not past the end."""
        time.sleep(max(0.0, min(self.next, self.end - time.monotonic())))
        self.next = min(self.next * 1.6, self.longest)


def quiet(_sentence: str) -> None:
    """A notice that goes nowhere."""


class Link:
    """A designer's way to a server, which outlives its connections."""

    def __init__(self, designer: str, servers: Sequence[Address], patience: float, progress: Callable[[str], None],
                 saw: Callable[[Reply], None]):
        self.designer, self.servers, self.first = designer, list(servers), 0
        self.patience, self.progress, self.saw = patience, progress, saw
        self.connection: Optional[Connection] = None

    @property
    def server(self) -> Address:
        """The server that answered last, or that is tried first."""
        return self.servers[self.first]

    def prefer(self, address: str) -> None:
        """Tries a server first from now on, by its address as it is shown, unless there is a connection already."""
        shown = [address_word(*server) for server in self.servers]
        if self.connection is None and address in shown:
            self.first = shown.index(address)

    def close(self) -> None:
        """Leaves the server."""
        if self.connection is not None:
            self.connection.leave()
            self.connection = None

    def drop(self) -> None:
        """Ends the connection without a word."""
        if self.connection is not None:
            self.connection.drop()
            self.connection = None

    def pass_over(self) -> None:
        """Ends the connection to a server that is broken: the next one is tried first from now on."""
        self.drop()
        self.first = (self.first + 1) % len(self.servers)

    def connected(self, lines: int = 0) -> Connection:
        """The connection, made anew if it has no room for so many lines, or it is lost."""
        if self.connection is not None and self.connection.lines + lines > LINES_OF_A_CONNECTION:
            self.close()
        if self.connection is None:
            self.connection = self._connect()
        return self.connection

    def _connect(self) -> Connection:
        patience = Patience(self.patience)
        while True:
            refused: List[UnreachableError] = []
            for _ in self.servers:
                try:
                    return self._connect_to(patience)
                except UnreachableError as error:
                    refused.append(error)
                    self.first = (self.first + 1) % len(self.servers)
            if all(isinstance(error, transport.NotLetInError) for error in refused):
                raise refused[0]
            why = " ".join(str(error) for error in refused)
            if patience.over():
                raise UnreachableError(why)
            self.progress(f"{why} Trying again in {patience.next:.1f} seconds.")
            patience.pause()

    def _connect_to(self, patience: Patience) -> Connection:
        """A connection to the server whose turn it is."""
        host, port = self.server
        try:
            connection = Connection(host, port, self.designer)
        except LostError as lost:
            raise UnreachableError(f"No server answers at {address_word(host, port)} ({lost}). Ask whoever runs it whether it runs.") from lost
        if connection.greeting.ok:
            return connection
        if connection.greeting.code == ANOTHERS:
            raise transport.not_as(self.designer, host, port)
        if connection.greeting.code == FULL:
            patience.next = max(patience.next, FULL_PAUSE_SECONDS)
            raise UnreachableError(f"The server at {address_word(host, port)} is full at this moment. Ask whoever runs it for room, if it stays"
                                   " so.")
        raise UnreachableError(str(connection.greeting.refusal()))

    def read_all(self, lines: List[str]) -> List[Reply]:
        """The replies to questions that change nothing, asked again until all are answered."""
        patience = Patience(self.patience)
        while True:
            try:
                replies = self.connected(len(lines)).ask_all(lines)
            except LostError:
                replies = []
            outside = [reply for reply in replies if reply.code in (FULL, NO_MEMORY, BROKEN)]
            if replies and not outside:
                for reply in replies:
                    self.saw(reply)
                return replies
            if not replies:
                self.drop()
            elif outside[0].code == BROKEN:
                self.pass_over()
            if patience.over():
                raise UnreachableError(str(outside[0].refusal()) if outside else "The server can't be reached.")
            patience.pause()

    def read(self, line: str) -> Reply:
        """The reply to one question that changes nothing."""
        return self.read_all([line])[0]

    def asked(self, command: str, words: Sequence[str]) -> List[Reply]:
        """The replies to a question about each of some things, which changes nothing."""
        replies: List[Reply] = []
        for first in range(0, len(words), ASKED_AT_ONCE):
            replies += self.read_all([f"{command} {word}" for word in words[first:first + ASKED_AT_ONCE]])
        return replies

    def read_within(self, line: str, seconds: float) -> Optional[Reply]:
        """The reply to a question that changes nothing and may be answered late; nothing where none comes in time, or the connection ends, or
        the server can't answer now."""
        try:
            reply = self.connected().ask_within(line, seconds)
        except LostError:
            self.drop()
            return None
        if reply.code == BROKEN:
            self.pass_over()
        return None if reply.code in (FULL, NO_MEMORY, BROKEN) else reply
