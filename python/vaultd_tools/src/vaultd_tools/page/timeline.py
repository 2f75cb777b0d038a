"""What was done in the vault, by the logs of the ssh gate and of the page itself, which last over restarts of the page."""

from __future__ import annotations

import logging
import os
import threading
from collections import deque
from collections.abc import Iterator, Sequence
from dataclasses import dataclass
from datetime import datetime, timezone
from pathlib import Path

from vaultd_tools.gate.history import ENDS, Claims, Record, concerns, records, sentence

LOG_TIME = "%Y-%m-%dT%H:%M:%S.%fZ"
EVENTS_KEPT = 20000
MOST_OF_A_LOG = 16 << 20
SMALL = ("save", "note")


class Tail:
    """The lines of a log that grows, each once, from at most so many bytes before its end on; also where another file took its name."""

    def __init__(self, path: Path, most: int):
        self.path, self.most = path, most
        self._read_to = (0, 0)

    def new(self) -> Iterator[str]:
        """The lines that came since the last call."""
        with open(self.path, "rb") as log:
            state = os.fstat(log.fileno())
            inode, end = self._read_to
            begin = end if inode == state.st_ino and end <= state.st_size else 0
            log.seek(max(begin, state.st_size - self.most))
            for line in log:
                if line.endswith(b"\n"):
                    self._read_to = (state.st_ino, log.tell())
                    yield line.decode("ascii", "replace")


def time_of(record: Record) -> datetime:
    """When a line was written."""
    return datetime.strptime(record.time, LOG_TIME).replace(tzinfo=timezone.utc, microsecond=0)


@dataclass(frozen=True)
class Event:
    """Something that was done: when, by whom and in whose name, in words, and the places that it concerns, as far as the log has them."""

    when: datetime
    vault: str
    by: str
    name: str
    keyword: str
    words: str
    places: tuple[str, ...]


class Timeline:
    """What some logs have, the newest last. A log that can't be read is said once, and left out."""

    def __init__(self, vault: str = "", files: Sequence[Path] = ()):
        self.vault = vault
        # What a rotation put away was before.
        self.tails = [Tail(path, MOST_OF_A_LOG) for file in dict.fromkeys(files) for path in (file.with_name(file.name + ".1"), file)]
        self.files = frozenset(files)
        self.events: deque[Event] = deque(maxlen=EVENTS_KEPT)
        self._claims: dict[str, Claims] = {}
        self._lock = threading.Lock()

    def read_on(self) -> None:
        """Reads what came since the last call."""
        with self._lock:
            found = [record for tail in list(self.tails) for record in self._new_in(tail)]
            for record in sorted(found, key=lambda record: record.time):
                self._take(record)

    def _new_in(self, tail: Tail) -> list[Record]:
        try:
            return list(records(tail.new(), []))
        except OSError as error:
            if not isinstance(error, FileNotFoundError) or tail.path in self.files:
                logging.warning("the log %s can't be read (%s), so the timeline is without it", tail.path, error.strerror)
                self.tails.remove(tail)
            return []

    def _take(self, record: Record) -> None:
        """Takes a line in. What was refused was not done, and what was only asked for has another line behind it."""
        claims = self._claims.setdefault(record.vault, Claims())
        if record.kind in ("told", "lost") and record.done is not False and record.words[0] != "hello":
            self.events.append(Event(time_of(record), record.vault, record.by, record.name, record.words[0], sentence(record, claims),
                                     tuple(claims.places(record) or ())))
        claims.learn(record)
        if record.done and record.words[0] in ENDS:
            claims.items.pop(record.words[1], None)
            claims.whole.discard(record.words[1])

    def of(self, place: str, designer: str, everything: bool) -> list[Event]:
        """What concerns a place, of one designer or of all, the newest first; drafts and notes only if that is asked. Where the logs are of more
        than one vault, only what is of this one."""
        several = len({event.vault for event in self.events}) > 1
        return [event for event in reversed(self.events) if (everything or event.keyword not in SMALL) and concerns(list(event.places), place)
                and (not designer or designer in (event.by, event.name)) and (not several or event.vault == self.vault)]
