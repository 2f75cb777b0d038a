"""The client's own file: the check-outs, copies of the drafts that were sent, and the command under way."""

import contextlib
import json
import time
from pathlib import Path
from typing import Any, Callable, Dict, Iterator, List, NamedTuple, Optional, Sequence, Tuple

from vault.errors import VaultError
from vault.files.locks import lock_at
from vault.files.whole import write_whole
from vault.protocol.replies import Reply, claim_in
from vault.protocol.standing import Holder

KNOWN = 1024


class Draft(NamedTuple):
    """A copy of what was sent for a part, kept until it is a version."""

    content: str
    source: str
    versions: Optional[int]


class Claim:
    """A check-out that this client asked for, with the drafts of it that were sent from here, and to whom it was given since."""

    def __init__(self, items: List[str], drafts: Optional[Dict[str, Draft]] = None, given: str = ""):
        self.items, self.drafts, self.given = items, drafts or {}, given

    def copy(self) -> "Claim":
        """The check-out as it is now."""
        return Claim(list(self.items), dict(self.drafts), self.given)

    def fields(self) -> Dict[str, Any]:
        """The check-out as it is kept."""
        return {"items": self.items, "drafts": fields_of(self.drafts), "given": self.given}


class Known(NamedTuple):
    """A claim that this client has heard of: whose it was, what it had, and when the client first heard of it."""

    owner: str
    items: List[str]
    since: float


class Command:
    """A command that changes the vault, as it is kept while it is under way; with a check-in the drafts that the server had before, if it
    tells them; with a draft the hash of the one that it is to replace, empty for none, if the server tells that."""

    def __init__(self, kind: str, line: str, claim: str = "", place: str = "", items: Sequence[str] = (), last_number: int = 0,
                 since: float = 0.0, second: str = "", drafts: Optional[Dict[str, Draft]] = None, replaces: Optional[str] = None):
        self.kind, self.line, self.claim, self.place, self.items = kind, line, claim, place, list(items)
        self.last_number, self.since, self.second, self.drafts, self.replaces = last_number, since, second, drafts, replaces

    def fields(self) -> Dict[str, Any]:
        """The command as it is kept."""
        return {**vars(self), "drafts": None if self.drafts is None else fields_of(self.drafts)}


class Memory:
    """The client's own file for one designer at one server; every change of it is on disk before the next step."""

    def __init__(self, path: Path):
        self.path, self.saved = path, b""
        self.last_number = 0
        self.claims: Dict[str, Claim] = {}
        self.under_way: Optional[Command] = None
        self.store = self.way = ""
        self.server = ""
        self.known: Dict[str, Known] = {}
        self.folders: List[str] = []

    @contextlib.contextmanager
    def locked(self, waiting: Callable[[], None]) -> Iterator[None]:
        """Keeps other clients of this designer on this machine away, and reads the file anew."""
        self.path.parent.mkdir(mode=0o700, parents=True, exist_ok=True)
        lock = lock_at(self.path.with_name(self.path.name + ".lock"))
        if not lock.take():
            waiting()
            lock.take(wait=True)
        try:
            self._load()
            yield
        finally:
            lock.release()

    def _load(self) -> None:
        try:
            self.saved = self.path.read_bytes()
            kept = json.loads(self.saved.decode("utf-8"))
            self.last_number = kept["last_number"]
            self.store, self.way, self.server = kept.get("store", ""), kept.get("way", ""), kept.get("server", "")
            self.folders = list(kept.get("folders", []))
            self.known = {name: Known(**known) for name, known in kept.get("known", {}).items()}
            self.claims = {
                name: Claim(claim["items"], drafts_of(claim["drafts"]), claim.get("given", "")) for name, claim in kept["claims"].items()}
            self.under_way = Command(**kept["under_way"]) if kept["under_way"] else None
            if self.under_way is not None and self.under_way.drafts is not None:
                self.under_way.drafts = drafts_of(kept["under_way"]["drafts"])
        except FileNotFoundError:
            self.last_number, self.claims, self.under_way, self.known, self.folders = 0, {}, None, {}, []
            self.store = self.way = self.server = ""
            self.saved = b""
        except (ValueError, KeyError, TypeError, AttributeError) as error:
            raise VaultError(f"The file {self.path} can't be read. It keeps copies of drafts, so move it away"
                             " rather than delete it, and run the command again.") from error

    def save(self) -> None:
        """Puts the file on disk, whole or not at all, if it isn't there as it is already."""
        kept = {
            "last_number": self.last_number,
            "store": self.store,
            "way": self.way,
            "server": self.server,
            "folders": self.folders,
            "claims": {name: claim.fields() for name, claim in self.claims.items()},
            "under_way": self.under_way.fields() if self.under_way else None,
            "known": {name: known._asdict() for name, known in self.known.items()},
        }
        content = json.dumps(kept, indent=1).encode("utf-8")
        if content != self.saved:
            write_whole(self.path, content)
            self.saved = content

    def confirmed_elsewhere(self, designer: str, address: str) -> Optional[str]:
        """This machine's own way to a store that a designer has confirmed at another vault, which is empty where that is its address; nothing if
        none of this designer's files here says so."""
        for path in sorted(self.path.parent.glob("*.json")):
            if path == self.path or not path.name.startswith(designer + "@"):
                continue
            with contextlib.suppress(OSError, ValueError, AttributeError):
                kept = json.loads(path.read_text("utf-8"))
                if kept.get("store") == address:
                    return str(kept.get("way") or "")
        return None

    def begin(self, command: Command) -> None:
        """Remembers a command before it is sent."""
        command.last_number, command.since = self.last_number, time.time()
        self.under_way = command
        try:
            self.save()
        except OSError:
            self.under_way = None
            raise

    def end(self) -> None:
        """Forgets the command under way, since what became of it is known."""
        self.under_way = None
        self.save()

    def saw(self, reply: Reply) -> None:
        """Keeps the greatest number of a check-out that the server ever named."""
        numbers = [int(claim[1:]) for claim in reply.claims() if claim[0] == "c"]
        self.last_number = max([self.last_number] + numbers)

    def knows(self, line: Sequence[Holder], all_claims: bool) -> bool:
        """Remembers claims that the server listed, and only these if it listed all that stand; of others the latest. Whether this changed
        what is remembered. If neither owner nor items of one are as before, it is another claim of that number, as after a restart of the server."""
        found = {}
        for holder in line:
            before = self.known.get(holder.claim)
            same = before is not None and (before.owner == holder.owner or before.items == list(holder.items))
            found[holder.claim] = Known(holder.owner, list(holder.items), before.since if before is not None and same else time.time())
        kept = found if all_claims else {**self.known, **found}
        latest = dict(sorted(kept.items(), key=lambda entry: (entry[0] in found, entry[1].since))[-KNOWN:])
        changed = latest != self.known
        self.known = latest
        return changed

    def remember(self, command: Command, reply: Reply, owner: str) -> None:
        """Keeps what a command that was done means for the check-outs of its designer."""
        if command.kind == "checkout":
            self.claims[claim_in(reply)] = Claim(command.items)
            self.known[claim_in(reply)] = Known(owner, command.items, time.time())
        elif command.kind == "extend" and command.claim in self.claims:
            self.claims[command.claim].items += command.items
        elif command.kind in ("checkin", "abandon"):
            self.claims.pop(command.claim, None)
            self.known.pop(command.claim, None)
        elif command.kind == "give" and command.claim in self.claims:
            self._given(command.claim, command.line.split()[2])

    def put_aside(self, name: str) -> Optional[Path]:
        """Forgets a check-out, and answers the file in which the copies of its drafts are kept, if there are any."""
        claim = self.claims.pop(name, None)
        if claim is None or not claim.drafts:
            return None
        path = self.path.with_name(f"{self.path.name}.{name}.{time.time_ns()}")
        write_whole(path, json.dumps(claim.fields(), indent=1).encode("utf-8"))
        return path

    def _given(self, claim: str, receiver: str) -> None:
        """Forgets a check-out that was given away, but not while copies of its drafts are kept."""
        if self.claims[claim].drafts:
            self.claims[claim].given = receiver
        else:
            del self.claims[claim]


def fields_of(drafts: Dict[str, Draft]) -> Dict[str, Dict[str, Any]]:
    """Drafts as they are kept, by place."""
    return {place: draft._asdict() for place, draft in drafts.items()}


def drafts_of(kept: Dict[str, Dict[str, Any]]) -> Dict[str, Draft]:
    """Drafts as they are read from the client's file, by place."""
    return {place: Draft(**draft) for place, draft in kept.items()}


def by_number(entry: Tuple[str, Claim]) -> int:
    """The order of check-outs."""
    return int(entry[0][1:])


def command_word(command: Command) -> str:
    """A command as a designer says it, with no content."""
    if command.kind == "put":
        return f"put {command.place}"
    return f"note {command.claim}" if command.kind == "note" else command.line
