"""How a command of a designer is carried out. If a connection ends before the answer, the client connects again. By questions that change
nothing, it finds out whether the command was done, before it says anything twice.
"""

import contextlib
import os
import time
from pathlib import Path
from typing import Callable, Iterator, List, Optional, Sequence, Tuple

from vault.client.limits import limit_in_words
from vault.client.memory import Command, Memory, command_word
from vault.client.recovery import SENT_AGAIN, NotYetError, Recovery, not_known
from vault.errors import LostError, RefusedError, UnreachableError, VaultError
from vault.files.hashes import sha256_of
from vault.files.own_folders import state_folder
from vault.files.system import may_be_named
from vault.protocol.address import Address, address_word
from vault.protocol.connection import Connection, Link, Patience, quiet
from vault.protocol.grammar import BROKEN, FULL, LIMIT, NAME, NO_MEMORY
from vault.protocol.queue import Line
from vault.protocol.replies import SENTENCES, Reply, claim_in, refusal_by, refusal_of
from vault.protocol.standing import Holder
from vault.protocol.words import checked

NAME_LENGTH = 200
OLDER = ("The server is older than this client, and doesn't tell who holds what, so that is left out here. Ask whoever runs it for a newer"
         " one.")


class Session:
    """A designer at a server. Every method raises a `VaultError` with a sentence if it can't do what it says."""

    def __init__(self, designer: str, host: str, port: int, state: Optional[Path] = None, patience: float = 30.0,
                 settling: float = 1.0, notice: Callable[[str], None] = quiet, progress: Callable[[str], None] = quiet,
                 others: Sequence[Address] = ()):
        """The others are further addresses of the same vault. The client uses the first one that answers, for as long as it does."""
        self.designer, self.servers = checked(NAME, designer, "designer's name"), [(host, port), *others]
        self.memory = Memory((state or state_folder()) / memory_name(designer, self.servers))
        self.patience, self.settling = patience, settling
        self.notice, self.progress = notice, progress
        self.link = Link(designer, self.servers, patience, progress, self.memory.saw)
        self.recovery = Recovery(self.link, self.memory, notice)
        self.line = Line(self.link)
        self.told: List[str] = []
        self.held_on: Optional[Connection] = None
        self.changed = False
        self.settled: Optional[Tuple[str, Reply]] = None

    @property
    def may_have_changed(self) -> bool:
        """Whether a command was done that changed something, or one is under way of which that isn't known."""
        return self.changed or self.memory.under_way is not None

    def close(self) -> None:
        """Leaves the server."""
        self.link.close()

    def hello(self) -> None:
        """Connects, and finds out what became of an earlier command."""
        with self._alone():
            self.link.connected()

    def settle(self) -> None:
        """Finds out what became of an earlier command, and sends it again if it wasn't done and may be."""
        with self._alone(changes=True):
            pass

    def remember_folder(self, path: str) -> None:
        """Remembers a working folder on this machine."""
        with self._alone():
            stand = [each for each in self.memory.folders if os.path.isdir(each)]
            if path not in stand:
                self.memory.folders = [*stand, path]
                self.memory.save()

    def folders(self) -> List[str]:
        """The working folders on this machine that were got by this designer."""
        with self._alone():
            return list(self.memory.folders)

    # How a command is carried out.

    @contextlib.contextmanager
    def _alone(self, changes: bool = False) -> Iterator[None]:
        """Locks the client's file meanwhile, and first finds out what became of an earlier command. Only what changes something sends that
        again."""
        with self.memory.locked(lambda: self.progress("waiting for another `vault` of this designer")):
            self.link.prefer(self.memory.server)
            self.settled = None
            try:
                self._settle(changes)
                yield
            finally:
                self._keep_server()

    def _keep_server(self) -> None:
        """Remembers which of several servers answered last, so that it is tried first."""
        server = address_word(*self.link.server)
        if len(self.servers) > 1 and self.memory.server != server and self.link.connection is not None:
            self.memory.server = server
            with contextlib.suppress(OSError):
                self.memory.save()

    def _change(self, command: Command) -> Reply:
        with self._alone(changes=True):
            return self._done_before(command) or self._carry_out(command)

    def _done_before(self, command: Command) -> Optional[Reply]:
        """The reply to an earlier try of the same command, if that has just turned out to be done: so it isn't done twice."""
        if self.settled is None or self.settled[0] != command.line:
            return None
        self.changed = True
        return self.settled[1]

    def _carry_out(self, command: Command) -> Reply:
        """Sends a command until it is answered, remembering it all the while, and keeps what its reply says."""
        self.memory.begin(command)
        try:
            reply = self._told(command)
        except (RefusedError, UnreachableError):
            self.memory.end()
            raise
        self.changed = self.changed or reply.ok
        self.memory.saw(reply)
        if reply.ok and command.kind == "checkout":
            self.recovery.put_aside(claim_in(reply))
        if reply.ok:
            self.memory.remember(command, reply, self.designer)
        self.memory.end()
        if not reply.ok:
            raise self._limit(reply, command) or self._refusal(reply, command.place, command.claim)
        return reply

    def _told(self, command: Command) -> Reply:
        """The reply to a command, whatever breaks in between. It is never sent again before it is known not to be done."""
        patience, lost = Patience(self.patience), False
        while True:
            reply = None
            try:
                reply = self._tried(command, lost)
            except LostError as error:
                self.progress(f"the connection ended ({error}); finding out whether `{command.kind}` was done")
            except UnreachableError as error:
                if lost:
                    raise not_known(command, str(error)) from error
                raise
            if reply is not None and reply.code in (FULL, NO_MEMORY):
                if patience.over() and lost and command.kind in SENT_AGAIN:
                    raise not_known(command, SENTENCES[reply.code], reply.code)
                if patience.over():
                    return reply
                patience.pause()
            elif reply is not None and reply.code != BROKEN:
                return reply
            else:
                lost = True
                if reply is not None:
                    self.link.pass_over()
                self._start_afresh()
                if patience.over():
                    raise not_known(command, SENTENCES[BROKEN] if reply else "The server can't be reached.", BROKEN if reply else None)

    def _tried(self, command: Command, lost: bool) -> Reply:
        """The reply to one try. The try is made only if no earlier one, whose reply was lost, turns out to be done."""
        found = self.recovery.find_out(command) if lost else None
        if found is not None:
            return found
        reply = self.link.connected().ask(command.line)
        return self.recovery.told_again(command, reply) if lost and reply.code not in (FULL, NO_MEMORY, BROKEN) else reply

    def _start_afresh(self) -> None:
        """Drops the connection, and lets a line that is still under way arrive before anything is asked."""
        self.link.drop()
        time.sleep(self.settling)

    def _settle(self, again: bool) -> None:
        """Finds out what became of a command that an earlier run of this client left under way, and sends it again if that may be and is
        asked."""
        command = self.memory.under_way
        if command is None:
            return
        age = time.time() - command.since
        if 0 <= age < self.settling:
            time.sleep(self.settling - age)
        try:
            said, reply = self.recovery.settled(command, again)
            self.settled = (command.line, reply) if reply is not None else None
            self.notice(said)
        except NotYetError as not_yet:
            self._tell_once(str(not_yet))
            return
        except RefusedError as refused:
            self.notice(f"Your earlier `{command_word(command)}`: {refused}")
        except UnreachableError as error:
            raise not_known(command, str(error)) from error
        self.memory.end()

    def _tell_once(self, sentence: str) -> None:
        """Says something, unless this run has said it before."""
        if sentence not in self.told:
            self.told.append(sentence)
            self.notice(sentence)

    def _line(self, place: str) -> Optional[List[Holder]]:
        """The claims at a place, in the order of the queue; nothing if the server is older. Remembers since when they are known."""
        found = self.line.at(place)
        self._tell_older()
        if found is not None and self.memory.knows(found, place == "/"):
            self.memory.save()
        return found

    def _tell_older(self) -> None:
        """Says once that the server is older, if it is."""
        if self.line.older:
            self._tell_once(OLDER)

    def _limit(self, reply: Reply, command: Command) -> Optional[RefusedError]:
        """Which limit refuses a command, if one does that can be told."""
        if reply.code != LIMIT:
            return None
        said = ""
        with contextlib.suppress(VaultError):
            said = limit_in_words(self.link, command)
        return RefusedError(said, reply.code) if said else None

    def _refusal(self, reply: Reply, place: str, claim: str = "") -> RefusedError:
        """A refusal at a place, with the owner of the claim in the way, as far as the server says."""
        named: Optional[List[Holder]] = None
        if reply.claims():
            with contextlib.suppress(VaultError):
                named = self.line.of(reply.claims()[:1])
                self._tell_older()
        return refusal_by(reply, named[0], self.designer, place) if named else refusal_of(reply, claim)


def memory_name(designer: str, servers: Sequence[Address]) -> str:
    """The name of the client's own file for a designer at a vault's servers, in whatever order."""
    name = f"{designer}@" + ",".join(sorted(f"{host}:{port}" for host, port in servers))
    if len(servers) > 1 and len(name) > NAME_LENGTH:
        name = name[:NAME_LENGTH // 2] + sha256_of(name.encode("utf-8"))
    return may_be_named(name) + ".json"
