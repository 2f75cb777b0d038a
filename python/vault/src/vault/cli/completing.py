"""What may follow on a command line, for a shell that completes it by argcomplete: commands and options as the command line has them, files, and
places, claims and designers as the server says within a moment, or else as this machine knows them. Nobody waits for a server that is dead."""

import contextlib
import json
import os
import sys
import threading
from argparse import ArgumentParser, Namespace
from pathlib import Path
from typing import Any, Callable, Dict, Iterator, List, Optional, Sequence, TypeVar

from vault.cli.command_line import command_line
from vault.cli.session import last_designer
from vault.cli.vaults import at_folder, in_folder, known_vaults
from vault.client.session import memory_name
from vault.errors import VaultError
from vault.files.own_folders import state_folder
from vault.files.names import OWN_NAME
from vault.protocol.address import SSH, Address, address_word, read_address
from vault.protocol.connection import Link, quiet
from vault.protocol.queue import Line
from vault.protocol.replies import names_in
from vault.protocol.standing import Holder
from vault.working.folder import find_folder, read_folder

# For how long a server is asked, in seconds.
MOMENT = 0.5
# What may stand before a place in an item.
KINDS = ("r:", "w:")
# Which commands name a claim of anybody's.
OF_ANYBODY = ("wait", "note")
T = TypeVar("T")


class Asked:
    """A designer's vault, which is asked for a moment in all."""

    def __init__(self, who: str):
        self.designer, self.servers = read_address(who)
        self.remembered = remembered(self.designer, self.servers)
        first = [server for server in self.servers if address_word(*server) == self.remembered.get("server")]
        # ssh takes longer than a moment
        self.near = [server for server in [*first, *self.servers] if not server[0].startswith(SSH)]
        self.link = Link(self.designer, self.near, 0.0, quiet, lambda _reply: None)

    def names(self, place: str) -> Sequence[str]:
        """The names right beneath a place."""
        told = self._within_a_moment(lambda: names_in(self.link.read("list " + place)))
        return told if told is not None else self._names_known(place)

    def claims(self) -> List[Holder]:
        """The claims that stand, as far as the server says."""
        return self._within_a_moment(lambda: Line(self.link).at("/") or []) or []

    def own_claims(self) -> List[str]:
        """This designer's check-outs, with those that this machine remembers."""
        told = [holder.claim for holder in self.claims() if holder.is_check_out_of(self.designer)]
        return sorted({*told, *self.remembered.get("claims", {})}, key=lambda claim: int(claim[1:]))

    def designers(self) -> List[str]:
        """The other designers of whom the server tells, or this machine has heard."""
        known = {str(each.get("owner", "")) for each in self.remembered.get("known", {}).values()}
        return sorted((known | {holder.owner for holder in self.claims()}) - {"", self.designer})

    def _names_known(self, place: str) -> List[str]:
        """The names beneath a place of what is in this designer's working folders on this machine."""
        top = place.rstrip("/") + "/"
        return sorted({each[len(top):].partition("/")[0] for each in self._places_known() if each.startswith(top) and each != "/"})

    def _places_known(self) -> Iterator[str]:
        here = in_folder(Path("."))
        for path in {*self.remembered.get("folders", []), *([str(here)] if here is not None else [])}:
            with contextlib.suppress(VaultError, OSError):
                folder = read_folder(Path(path))
                if folder is not None and set(folder.server.split(",")) & {f"{host}:{port}" for host, port in self.servers}:
                    yield from folder.folders.values()
                    yield from (entry.place for entry in folder.files.values())

    def _within_a_moment(self, ask: Callable[[], T]) -> Optional[T]:
        """What a question answers, if it does so within a moment. One that isn't answered by then is left alone, and none is asked any more."""
        found: List[T] = []

        def asked() -> None:
            """Asks."""
            with contextlib.suppress(VaultError, OSError):
                found.append(ask())

        if self.near:
            thread = threading.Thread(target=asked, daemon=True)
            thread.start()
            thread.join(MOMENT)
        self.near = self.near if found else []
        return found[0] if found else None


def remembered(designer: str, servers: Sequence[Address]) -> Dict[str, Any]:
    """What this machine remembers of a designer at a vault, as far as it can be read."""
    try:
        found = json.loads((state_folder() / memory_name(designer, servers)).read_text("utf-8"))
        return found if isinstance(found, dict) else {}
    except (OSError, ValueError):
        return {}


def meant(given: Namespace) -> Optional[Asked]:
    """The vault that the words so far mean."""
    last = last_designer()
    who = given.designer or at_folder(Path("."), last) or last
    return Asked(who) if who else None


def places(prefix: str, parsed_args: Namespace, **_more: object) -> List[str]:
    """Places that begin so, those right beneath one that is the only one, and files, whose paths are places in a working folder."""
    name, colon, rest = prefix.partition(":")
    if colon and "/" not in name:
        known = next((each.who for each in known_vaults() if each.name == name), "")
        return [f"{name}:{place}" for place in places_in(Asked(known), rest)] if known else []
    vault = meant(parsed_args) if prefix[:1] in ("", "/") else None
    found = places_in(vault, prefix) if vault is not None else []
    vaults = [each.name + ":" for each in known_vaults() if each.name.startswith(prefix)] if prefix else []
    return found + vaults + (files(prefix) if not found or not prefix else [])


def places_in(vault: Asked, prefix: str) -> List[str]:
    """Places in a vault that begin so, and those right beneath one that is the only one."""
    found = beneath(vault, prefix.rpartition("/")[0], prefix)
    return found + beneath(vault, found[0], prefix) if len(found) == 1 else found


def beneath(vault: Asked, above: str, prefix: str) -> List[str]:
    """The places right beneath one that begin so."""
    return [place for name in vault.names(above or "/") if name != OWN_NAME and (place := f"{above}/{name}").startswith(prefix)]


def items(prefix: str, parsed_args: Namespace, **_more: object) -> List[str]:
    """What may be asked for: a place to look or to change."""
    kind = prefix[:2] if prefix[:2] in KINDS else ""
    found = [kind + place for place in places(prefix[len(kind):], parsed_args)]
    return found if kind else found + [each for each in KINDS if each.startswith(prefix)]


def claims(prefix: str, parsed_args: Namespace, **_more: object) -> List[str]:
    """The claims that a command may name: one's own check-outs, or anybody's claims; and working folders, whose check-outs are checked in."""
    vault, found = meant(parsed_args), folders(prefix) if parsed_args.command == "checkin" else []
    if vault is not None and parsed_args.command in OF_ANYBODY:
        found += [holder.claim for holder in vault.claims()]
    return found + (vault.own_claims() if vault is not None else [])


def designers(parsed_args: Namespace, **_more: object) -> List[str]:
    """Designers to whom a check-out may be given."""
    vault = meant(parsed_args)
    return vault.designers() if vault is not None else []


def addresses(**_more: object) -> List[str]:
    """The designers at vaults that this account said hello to."""
    return [each.who for each in known_vaults()]


def kept_before(parsed_args: Namespace, **_more: object) -> List[str]:
    """The files that gave way in a working folder, by their times."""
    return [each.stamp for each in find_folder(Path(parsed_args.folder or ".")).kept_before()]


def files(prefix: str, only_folders: bool = False, **_more: object) -> List[str]:
    """Files and folders that begin so; hidden ones only if that is said."""
    above, slash, own = prefix.rpartition("/")
    found = []
    with os.scandir(os.path.expanduser(above + slash) or ".") as entries:
        for entry in entries:
            if entry.name.startswith(own) and (own or entry.name[:1] != ".") and entry.name.isprintable() and (entry.is_dir() or not only_folders):
                found.append(above + slash + entry.name + ("/" if entry.is_dir() else ""))
    return sorted(found)


def folders(prefix: str, **_more: object) -> List[str]:
    """Folders that begin so."""
    return files(prefix, True)


# What completes a word of a command, by the name that the command line has for it.
COMPLETERS: Dict[str, Callable[..., List[str]]] = {
    "place": places, "items": items, "claim": claims, "claims": claims, "receiver": designers, "who": addresses, "designer": addresses,
    "which": kept_before, "file": files, "files": files, "to": files, "folder": files, "here": folders}


def quietly(completer: Callable[..., List[str]]) -> Callable[..., List[str]]:
    """A completer that offers nothing where it can't find out."""

    def offered(**words: Any) -> List[str]:
        """What is offered."""
        try:
            return completer(**words)
        except (VaultError, OSError, ValueError):
            return []

    return offered


def with_completers(parser: ArgumentParser) -> ArgumentParser:
    """A command line of whose words it is known what they may be."""
    for action in parser._actions:
        if action.dest in COMPLETERS:
            setattr(action, "completer", quietly(COMPLETERS[action.dest]))
        if action.dest == "command" and isinstance(action.choices, dict):
            for inner in action.choices.values():
                with_completers(inner)
    return parser


def complete() -> int:
    """Says what may follow, and ends the program. Where argcomplete isn't there, it ends with 1, and the shell offers files."""
    try:
        import argcomplete  # type: ignore[import]
    except ImportError:
        return 1
    argcomplete.autocomplete(with_completers(command_line()), always_complete_options=False, default_completer=quietly(lambda **_more: []))
    print("vault: `_ARGCOMPLETE` is for a shell that completes a command line: take it out of the environment.", file=sys.stderr)
    return 2
