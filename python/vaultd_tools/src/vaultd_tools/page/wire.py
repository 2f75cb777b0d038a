"""The page's connection to the server, by which it only asks. What comes back is bounded, whatever answers."""

from __future__ import annotations

import asyncio
import contextlib
from collections.abc import Sequence

MAX_LINES = 4000
LONGEST_REPLY = 16384
READ_BYTES = 65536
CONNECT_SECONDS = 5.0
REPLY_SECONDS = 15.0
QUIT_SECONDS = 2.0
# What the page may say at all: none of it changes anything.
QUESTIONS = frozenset(("hello", "quit", "claims", "show", "note", "list", "count", "fetch"))


class Broken(Exception):
    """The server can't be asked. The text continues "The server at HOST:PORT"."""


def reason(error: OSError) -> str:
    """Why a connection failed, in the system's words."""
    return (error.strerror or str(error)).strip() or type(error).__name__


class Wire:
    """A connection on which a session stands."""

    def __init__(self, reader: asyncio.StreamReader, writer: asyncio.StreamWriter):
        self.reader, self.writer = reader, writer
        self.lines = 0
        self.session = 0

    @classmethod
    async def opened(cls, host: str, port: int, designer: str) -> Wire:
        """Connects and says hello."""
        try:
            async with asyncio.timeout(CONNECT_SECONDS):
                reader, writer = await asyncio.open_connection(host, port)
        except TimeoutError as error:
            raise Broken("does not answer") from error
        except OSError as error:
            raise Broken(f"does not answer ({reason(error)})") from error
        except UnicodeError as error:
            raise Broken("can't be found: this is no host's name") from error
        wire = cls(reader, writer)
        try:
            greeting = (await wire.ask(["hello " + designer]))[0].split(b" ")
            if greeting[:2] != [b"OK", b"session"] or len(greeting) != 3 or not greeting[2].isdigit():
                raise refused(b" ".join(greeting))
            wire.session = int(greeting[2][:20])
        except BaseException:
            wire.drop()
            raise
        return wire

    def has_room_for(self, count: int) -> bool:
        """Whether this many lines may still be sent, and `quit` after them."""
        return self.lines + count < MAX_LINES

    async def ask(self, questions: Sequence[str]) -> list[bytes]:
        """The replies to some questions, which are sent at once. If that fails, the connection is of no more use. A cancellation isn't lost
        where the replies come together with it, as it would be by `wait_for`."""
        assert all(question.partition(" ")[0] in QUESTIONS for question in questions) and not any(
            question.startswith("note ") and question.count(" ") != 1 for question in questions)
        self.lines += len(questions)
        try:
            self.writer.write("".join(question + "\n" for question in questions).encode("ascii"))
            async with asyncio.timeout(REPLY_SECONDS):
                return await self._replies(len(questions))
        except TimeoutError as error:
            raise Broken("takes connections but does not answer; its workers may all be taken") from error
        except OSError as error:
            raise Broken(f"ended the connection ({reason(error)})") from error

    async def _replies(self, count: int) -> list[bytes]:
        told, ended = bytearray(), 0
        while ended < count:
            piece = await self.reader.read(READ_BYTES)
            if not piece:
                raise Broken("ended the connection")
            told += piece
            ended += piece.count(b"\n")
            if len(told) > (ended + 1) * LONGEST_REPLY:
                raise Broken("says lines without end; it is no vault server")
        *lines, rest = bytes(told).split(b"\n")
        if rest or len(lines) != count:
            if lines and lines[0].startswith(b"ERR 8"):
                raise refused(lines[0])
            raise Broken("says more than it was asked; it is no vault server")
        return lines

    async def leave(self) -> None:
        """Ends the session and the connection."""
        try:
            with contextlib.suppress(Broken, OSError):
                async with asyncio.timeout(QUIT_SECONDS):
                    await self.ask(["quit"])
        finally:
            self.drop()

    def drop(self) -> None:
        """Ends the connection."""
        with contextlib.suppress(OSError, RuntimeError):
            self.writer.close()


# By the first word behind ERR.
REFUSALS = {
    b"10": "does not know a question of this page: it is older than the page",
    b"31": "does not let this page ask in its name",
    b"50": "has no session left for this page: its limit is reached",
    b"80": "is full, or takes no more commands at this moment",
    b"81": "has no memory for this at this moment",
    b"82": "is there, but its disk failed and its vault is broken: whoever runs it has to mend that and to start it again",
}


def refused(reply: bytes) -> Broken:
    """What a reply that answers no question says of the server."""
    words = reply.split(b" ")
    if words[0] == b"ERR" and len(words) > 1 and words[1] in REFUSALS:
        return Broken(REFUSALS[words[1]])
    return Broken("said what no vault server says")
