"""A conversation through the gate. Each line is looked at: what its designer may say is sent on, and the rest is answered here, by ERR 10 to
what is no command, ERR 31 to another's name and to what the key may not do, and ERR 80 to a change where no log takes its line.
"""

from __future__ import annotations

import os
import select
import socket

from vault.errors import VaultError
from vaultd_tools.gate.lines import Command, Lines, command_of
from vaultd_tools.gate.log import Log, UnwrittenError, plain

READ_BYTES = 8192
WRITE_BYTES = 4096
LONGEST_REPLY = 65536
MAX_LINES = 4096
MAX_BYTES = 16777216
CONNECT_SECONDS = 10
REPLY_SECONDS = 60
TAKE_SECONDS = 600
# How many refusals of a conversation have lines of their own in the log, and how much of each is shown.
REFUSALS = 16
LONGEST_REFUSED = 256
# How many bytes stay free on the log's disk. The vault may be there, whose files grow to half of that; a mere refusal leaves twice that.
LEFT_BY_CHANGES = 60_000_000
LEFT_BY_REFUSALS = 2 * LEFT_BY_CHANGES
CLIENT_IN, CLIENT_OUT = 0, 1
GONE = select.POLLHUP | select.POLLERR | select.POLLNVAL


class OverError(VaultError):
    """The conversation has ended."""


class Role:
    """What a key may do: speak for one name, or for any; change, or only ask."""

    def __init__(self, designer: bytes, only_asks: bool, any_name: bool):
        self.designer, self.only_asks, self.any_name = designer, only_asks, any_name

    def refuses(self, command: Command) -> bool:
        """Whether the key may not say this."""
        anothers = command.keyword == b"hello" and not self.any_name and command.words[0] != self.designer
        return anothers or self.only_asks and not command.asks

    def is_logged(self, command: Command) -> bool:
        """Whether this goes into the log: a change, and for whom an administrator speaks."""
        return command.changes or self.any_name and command.keyword == b"hello"


class Client:
    """Who speaks through the gate, by sshd's two streams."""

    def __init__(self) -> None:
        self.writes = select.poll()
        self.writes.register(CLIENT_OUT, select.POLLOUT)

    def tell(self, text: bytes) -> None:
        """Writes something to the client, which must take it in time. No write is larger than what a stream takes at once."""
        while text:
            ready = self.writes.poll(TAKE_SECONDS * 1000)
            if not ready or ready[0][1] & GONE:
                raise OverError("the client takes nothing")
            text = text[os.write(CLIENT_OUT, text[:WRITE_BYTES]):]


class Server:
    """The connection to the server, on which one command at a time is under way."""

    def __init__(self, host: str, port: int):
        self.socket = socket.create_connection((host, port), CONNECT_SECONDS)
        self.socket.settimeout(None)
        self.socket.setsockopt(socket.IPPROTO_TCP, socket.TCP_NODELAY, 1)
        self.idle, self.asked = select.poll(), select.poll()
        for poll in (self.idle, self.asked):
            poll.register(self.socket, select.POLLIN)
            poll.register(CLIENT_OUT, 0)
        self.idle.register(CLIENT_IN, select.POLLIN)
        self.alone = select.poll()
        self.alone.register(self.socket, select.POLLIN)

    def next_piece(self, client: Client) -> bytes:
        """Waits for what the client says next. If the server says something unasked, that is its last word."""
        ready = dict(self.idle.poll())
        if self.socket.fileno() in ready:
            client.tell(self.socket.recv(LONGEST_REPLY))
            raise OverError("the server ended the connection")
        if CLIENT_IN in ready:
            return os.read(CLIENT_IN, READ_BYTES)
        raise OverError("the client is gone")

    def reply(self, command: Command, to_the_end: bool) -> bytes:
        """Sends a command and waits for its reply. If the client goes meanwhile, this only waits on for a reply that the log needs."""
        told, poll, limit = b"", self.asked, None
        try:
            self.socket.sendall(command.line)
            while not told.endswith(b"\n"):
                ready = dict(poll.poll(limit))
                if self.socket.fileno() in ready:
                    more = self.socket.recv(LONGEST_REPLY)
                    told += more
                    if not more or len(told) > LONGEST_REPLY or b"\n" in told[:-1]:
                        raise OverError("the server ended the connection")
                elif not ready or not to_the_end:
                    raise OverError("the client is gone")
                else:
                    poll, limit = self.alone, REPLY_SECONDS * 1000
        except OSError as error:
            raise OverError("the server ended the connection") from error
        return told


class Gate:
    """A conversation through the gate, from its first line to its end."""

    def __init__(self, role: Role, client: Client, server: Server, log: Log, number: str):
        self.role, self.client, self.server, self.log, self.number = role, client, server, log, number
        self.name = role.designer.decode("ascii")
        self.lines = self.bytes = self.refused = 0

    def run(self) -> None:
        """Answers line by line until somebody ends it."""
        lines = Lines()
        try:
            while piece := self.server.next_piece(self.client):
                for line in lines.ended_by(piece):
                    self._answer(line)
                self.bytes += len(piece)
                if self.bytes >= MAX_BYTES:
                    return
        except (OverError, OSError):
            return

    def _answer(self, line: bytes) -> None:
        self.lines += 1
        command = command_of(line)
        if command is None:
            self.client.tell(b"ERR 10\n")
        elif self.role.refuses(command):
            self._refuse(command)
        else:
            self._hand_on(command)
        if self.lines >= MAX_LINES:
            raise OverError("a connection has no more lines")

    def _refuse(self, command: Command) -> None:
        """Refuses a command. Of many in a conversation the log has the first, and one line for all others."""
        self.refused += 1
        shown = command.shown if self.refused <= REFUSALS else "further lines"
        try:
            if self.refused <= REFUSALS + 1:
                cut = ".." if len(shown) > LONGEST_REFUSED else ""
                self._note("refused", f"{shown[:LONGEST_REFUSED]}{cut} -> ERR 31", LEFT_BY_REFUSALS)
        except UnwrittenError as error:
            say(str(error))
        self.client.tell(b"ERR 31\n")

    def _hand_on(self, command: Command) -> None:
        """Sends a command on and hands its reply to the client. A change is in the log before the server gets it."""
        logged = self.role.is_logged(command)
        try:
            if logged:
                self._note("asks", command.shown, LEFT_BY_CHANGES)
        except UnwrittenError as error:
            say(f"{error}. Nothing was sent on; ask whoever runs the server")
            self.client.tell(b"ERR 80\n")
            return
        reply = self._reply(command, logged)
        if command.keyword == b"hello" and reply.startswith(b"OK "):
            self.name = command.words[0].decode("ascii")
        self.client.tell(reply)
        if command.keyword == b"quit" and reply.startswith(b"OK "):
            raise OverError("the client left")

    def _reply(self, command: Command, logged: bool) -> bytes:
        try:
            reply = self.server.reply(command, logged)
        except OverError:
            self._note_outcome(logged, "lost", command.shown)
            raise
        self._note_outcome(logged, "told", f"{command.shown} -> {plain(reply[:-1])}")
        return reply

    def _note_outcome(self, logged: bool, kind: str, what: str) -> None:
        """Logs what became of a command that was sent. The client gets its reply, whether or not the log takes the line."""
        try:
            if logged:
                self._note(kind, what)
        except UnwrittenError as error:
            say(str(error))

    def _note(self, kind: str, what: str, leaves: int = 0) -> None:
        self.log.write(f"{self.number}.{self.lines}", self.name, kind, what, leaves)


def say(sentence: str) -> None:
    """Says something to whoever sees standard error: behind ssh that is the client."""
    try:
        os.write(2, f"vaultd-gate: {sentence}.\n".encode("utf-8", "replace"))
    except OSError:
        pass
