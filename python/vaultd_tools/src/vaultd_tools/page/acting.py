"""What designers do by the page: each act is said in the designer's own session, and the page has no right of its own."""

from __future__ import annotations

import asyncio
import secrets
import threading
from collections.abc import Callable, Mapping
from concurrent.futures import ThreadPoolExecutor
from pathlib import Path
from typing import TypeVar

from vault.client import Client
from vault.client.memory import Command
from vault.errors import MisusedError, RefusedError, UnreachableError, VaultError
from vault.protocol.grammar import UNKNOWN_COMMAND, under
from vault.protocol.replies import Reply
from vault.protocol.standing import Standing
from vault.store.address import read_store_address
from vault.store.base import Store
from vault.store.parts import Parts
from vault.store.setting import Setting, open_store
from vaultd_tools.gate.lines import command_of
from vaultd_tools.gate.log import Log, UnwrittenError

THREADS = 24
# Uploads have threads of their own, since each waits for its browser.
UPLOADS = 48
# How long an act waits for a server that is away, and how long a page that is to be shown does.
PATIENCE_SECONDS, GLANCE_SECONDS = 8.0, 1.0
KEEPS_FREE = 60_000_000
Fields = Mapping[str, str]
Found = TypeVar("Found")


class Record:
    """The log of all changes, in the form of the ssh gate's, where one is wanted. A change that it doesn't take isn't made."""

    def __init__(self, path: Path | None, vault: str, say: Callable[[str], None]):
        self._vault, self._run, self._lock, self._number = vault, secrets.token_hex(8), threading.Lock(), 0
        self._log = Log("", str(path), False, "/dev/log", say) if path else None

    def write(self, run: str, designer: str, kind: str, what: str) -> None:
        """Writes a line."""
        if self._log is None:
            return
        with self._lock:
            self._log.who = f"vault={self._vault} from=- key=page by={designer}"
            try:
                self._log.write(run, designer, kind, what, KEEPS_FREE)
            except UnwrittenError as error:
                raise RefusedError(f"The page's log takes no line, and without one nothing is changed: {error}. Ask whoever runs it.") from error

    def next_number(self) -> str:
        """A number for a change."""
        with self._lock:
            self._number += 1
            return f"{self._run}.{self._number}"


class Designer(Client):
    """A designer who acts by the page, each of whose changes is recorded."""

    record: Record

    def _carry_out(self, command: Command) -> Reply:
        number, line = self.record.next_number(), command_of(command.line.encode("ascii"))
        assert line is not None
        self.record.write(number, self.designer, "asks", line.shown)
        try:
            reply = super()._carry_out(command)
        except RefusedError as refused:
            self.record.write(number, self.designer, "told", f"{line.shown} -> ERR {refused.code or UNKNOWN_COMMAND}")
            raise
        except VaultError:
            self.record.write(number, self.designer, "lost", line.shown)
            raise
        self.record.write(number, self.designer, "told", f"{line.shown} -> OK {' '.join(reply.words)}")
        return reply


class PageSetting(Setting):
    """The store that the vault names, if it is the one that whoever runs the page confirmed."""

    def __init__(self, client: Client, confirmed: str):
        super().__init__(client)
        self.confirmed = confirmed

    def store(self) -> Store | None:
        """The vault's store, or nothing if it names none."""
        named = self.named()
        if not named:
            return None
        if named != self.confirmed:
            raise RefusedError("The vault keeps its files at a store that this page doesn't follow. Ask whoever runs the page: --store names the one"
                               " that it follows.")
        return open_store(read_store_address(named))


class Acting:
    """Has designers act, one act of each at a time."""

    def __init__(self, host: str, port: int, folder: Path, store: str, record: Record):
        self.host, self.port, self.folder, self.confirmed, self.record = host, port, folder / "designers", store, record
        self.spool = folder / "spool"
        self.pool, self.uploads = ThreadPoolExecutor(THREADS, "act"), ThreadPoolExecutor(UPLOADS, "upload")
        self._turns: dict[str, asyncio.Lock] = {}

    async def perform(self, name: str, act: Callable[[Designer], Found], patience: float = PATIENCE_SECONDS) -> Found:
        """What an act of a designer comes to. It is done to its end, also where whoever asked is gone."""
        turn = self._turns.setdefault(name, asyncio.Lock())

        async def in_turn() -> Found:
            async with turn:
                return await asyncio.get_running_loop().run_in_executor(self.pool, self._performed, name, act, patience)
        return await asyncio.shield(asyncio.ensure_future(in_turn()))

    async def beside(self, name: str, act: Callable[[Designer], Found]) -> Found:
        """The same of one that takes as long as a browser sends, beside other acts of the designer."""
        return await asyncio.get_running_loop().run_in_executor(self.uploads, self._performed, name, act, PATIENCE_SECONDS)

    def _performed(self, name: str, act: Callable[[Designer], Found], patience: float) -> Found:
        client = Designer(name, self.host, self.port, self.folder, patience)
        client.record = self.record
        try:
            return act(client)
        finally:
            client.close()

    def parts(self, client: Client) -> Parts:
        """A designer's files."""
        return Parts(client, PageSetting(client, self.confirmed))


def said(standing: Standing, designer: str) -> str:
    """How a claim stands, and who is in the way."""
    return " ".join(filter(None, (standing.sentence(designer), standing.ring_in_words(designer),
                                  "" if standing.held else "The page tells when it is held.")))


def check_out(client: Designer, form: Fields) -> str:
    """Asks for a check-out of a place, with a note if there is one."""
    standing = client.checkout([f"{mode_of(form)}:{form.get('place', '')}"])
    if form.get("note"):
        client.set_note(standing.claim, form["note"].encode("utf-8"))
    return said(standing, client.designer)


def extend(client: Designer, form: Fields) -> str:
    """Asks for one more place in a check-out."""
    place = form.get("place", "").strip()
    client.extend(form.get("claim", ""), [f"{mode_of(form)}:{place}"])
    return f"{form['claim']} has {place}, too, to {'change' if mode_of(form) == 'w' else 'look at'}."


def mode_of(form: Fields) -> str:
    """Whether a form asks to change or to look."""
    return "r" if form.get("mode") == "r" else "w"


def give_up(client: Designer, form: Fields) -> str:
    """Gives a check-out up."""
    client.abandon(form.get("claim", ""))
    return f"{form['claim']} is given up, with its drafts."


def give(client: Designer, form: Fields) -> str:
    """Gives a check-out to somebody. One button names both."""
    claim, _, to = form.get("give", "").partition(" ")
    claim, to = form.get("claim", claim), form.get("to", to).strip()
    client.give(claim, to)
    return f"{claim} is {to}'s now, with its drafts."


def note(client: Designer, form: Fields) -> str:
    """Writes a note on a check-out."""
    client.set_note(form.get("claim", ""), form.get("note", "").encode("utf-8"))
    return f"{form['claim']} has {'the' if form.get('note') else 'no'} note now."


def make(client: Designer, form: Fields) -> str:
    """Makes a place in another one, in the name of one's own check-out of that if there is one."""
    above = form.get("place", "")
    place = f"{above.rstrip('/')}/{form.get('name', '').strip()}"
    held = [claim for claim, items in client.held(above).items() if any(item[0] == "w" and under(above, item[2:]) for item in items)]
    (client.nest if form.get("kind") == "nest" else client.make)(place, (held + [""])[0])
    return f"{place} is there."


def check_in(acting: Acting, client: Designer, form: Fields) -> str:
    """Makes versions of the drafts of a check-out, with a reason if there is one."""
    claim, why = form.get("claim", ""), form.get("why", "").strip()
    if why:
        try:
            acting.parts(client).set_note(claim, why)
        except MisusedError:
            if client.drafts(claim):
                raise
    made = acting.parts(client).checkin(claim)
    return f"{claim} is checked in: {made or 'no'} new version{'' if made == 1 else 's'}."


def drafts_of(client: Designer, claims: list[str]) -> dict[str, tuple[str, ...]]:
    """The parts that some check-outs of a designer have drafts of."""
    found: dict[str, tuple[str, ...]] = {}
    for claim in claims:
        try:
            found[claim] = tuple(client.drafts(claim))
        except UnreachableError:
            raise
        except VaultError:
            found[claim] = ()
    return found


ACTS: dict[str, Callable[[Acting, Designer, Fields], str]] = {
    "checkout": lambda _, client, form: check_out(client, form), "extend": lambda _, client, form: extend(client, form),
    "abandon": lambda _, client, form: give_up(client, form), "give": lambda _, client, form: give(client, form),
    "note": lambda _, client, form: note(client, form), "make": lambda _, client, form: make(client, form), "checkin": check_in,
}
