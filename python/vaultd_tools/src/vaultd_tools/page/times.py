"""Since when check-outs are known: kept in a file over restarts of the page, and told by the log of the ssh gate where it has them."""

from __future__ import annotations

import json
import logging
from collections.abc import Iterable, Mapping
from dataclasses import dataclass
from datetime import datetime, timezone
from pathlib import Path

from vault.files.whole import write_whole
from vault.store.card import TIME
from vaultd_tools.files import Claim
from vaultd_tools.gate.history import outcomes, records
from vaultd_tools.page.model import Since
from vaultd_tools.page.timeline import Tail, time_of

FILE = "since.json"
MOST_BYTES = 1 << 20
MOST_OF_A_LOG = 64 << 20


@dataclass(frozen=True)
class Known:
    """What was known of a check-out: whose it was, what it had, and since when."""

    owner: str
    items: tuple[str, ...]
    since: Since

    def is_of(self, claim: Claim) -> bool:
        """Whether a check-out is this one: still its designer's, with at least what it had. A vault from a backup gives numbers again."""
        return self.owner == claim.owner and self.items == claim.items[:len(self.items)]


class Times:
    """The times of check-outs, by number."""

    def __init__(self, folder: Path | None = None, gate_log: Path | None = None):
        self.file, self.tail = folder / FILE if folder else None, Tail(gate_log, MOST_OF_A_LOG) if gate_log else None
        self.known: dict[str, Known] = {}
        self.logged: dict[str, Known] = {}
        self.written: bytes = b""
        self._read()

    def recalled(self, claim: Claim) -> Since | None:
        """Since when a check-out is known that the page hasn't seen yet."""
        found = [known[claim.name].since for known in (self.logged, self.known) if claim.name in known and known[claim.name].is_of(claim)]
        return found[0] if found else None

    def keep(self, claims: Iterable[Claim], since: Mapping[str, Since]) -> None:
        """Keeps the times of these check-outs, and of no others."""
        self.known = {claim.name: Known(claim.owner, claim.items, since[claim.name]) for claim in claims
                      if claim.name[0] == "c" and claim.name in since}

    def write(self) -> None:
        """Writes the file, if it isn't so already. If it can't be, the page goes on without it."""
        content = json.dumps({name: {"owner": one.owner, "items": one.items, "since": one.since.when.strftime(TIME), "exact": one.since.exact}
                              for name, one in self.known.items()}, indent=0).encode("ascii")
        if self.file is None or content == self.written:
            return
        try:
            write_whole(self.file, content)
            self.written = content
        except OSError as error:
            logging.warning("%s can't be written (%s): after a restart the page won't know since when what is held", self.file, error.strerror)
            self.file = None

    def read_log(self) -> None:
        """Reads on in the gate's log."""
        if self.tail is None:
            return
        try:
            for record in outcomes(records(self.tail.new(), [])):
                said = record.reply.split()
                if record.done and record.words[0] == "checkout" and len(said) > 2:
                    self.logged[said[2]] = Known(record.name, tuple(record.words[1:]), Since(time_of(record), True))
        except OSError as error:
            logging.warning("the gate's log %s can't be read (%s), so times are when the page first saw a claim", self.tail.path, error.strerror)
            self.tail = None

    def _read(self) -> None:
        """Takes in the file. One that isn't of this form is no file of the page's, and counts for nothing."""
        if self.file is None:
            return
        try:
            if self.file.stat().st_size <= MOST_BYTES:
                self.known = {name: Known(one["owner"], tuple(one["items"]),
                                          Since(datetime.strptime(one["since"], TIME).replace(tzinfo=timezone.utc), bool(one["exact"])))
                              for name, one in json.loads(self.file.read_bytes()).items()}
        except FileNotFoundError:
            return
        except (OSError, ValueError, TypeError, KeyError, AttributeError) as error:
            logging.warning("%s isn't the page's file of times, or can't be read (%s), so it counts for nothing", self.file, error)
