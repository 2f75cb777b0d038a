"""A store on a remote of the client's own rclone, which reaches S3, Azure, WebDAV, SFTP and much else. No storage protocol is spoken here.

Little is asked of a remote: that it reads back what was written. So bytes come in under a name of their own, are read back through their
hash, and only then get the name by which they are found, which replaces no other file. Since many remotes can't change a file's time, a
second file of the same name, in `touched`, says since when bytes are wanted again.
"""

import contextlib
import json
import os
import re
import shutil
import subprocess
import time
from datetime import datetime
from pathlib import Path
from typing import Any, Dict, Iterator, List, Optional, Sequence, Tuple

from vault.errors import MisusedError
from vault.files.programs import started
from vault.files.text import shown
from vault.files.transfer import Meter, Nowhere, Own, Whole, copy_through_hash, steady
from vault.store.address import RcloneAddress
from vault.store.base import (
    GOING, MARK, MARK_NAME, Kept, MissingError, StoreAwayError, StoreFaultError, WrongBytesError, aside_of, compare, place_of, unsafe_name)

INCOMING = "incoming"
TOUCHED = "touched"
NOT_THERE = (3, 4)
PATIENCE = ("--contimeout", "15s", "--timeout", "60s", "--retries", "1", "--low-level-retries", "3", "--ask-password=false")
TIME = re.compile(r"([0-9]{4}-[0-9]{2}-[0-9]{2}T[0-9]{2}:[0-9]{2}:[0-9]{2})(?:\.[0-9]+)?(Z|[+-][0-9]{2}:[0-9]{2})")


class RcloneStore:
    """A path on a remote. Each step is a run of rclone, with the client's own configuration and no other words than those here."""

    def __init__(self, address: RcloneAddress):
        self.address, self.remote, self.path = address.text, address.remote, address.path
        self.program = shutil.which("rclone") or ""
        if not self.program:
            raise MisusedError(f"The store {self.address} is reached by the program rclone, which is not here. Install it, and make its remote"
                               f" {self.remote} by `rclone config`.")

    def prepare(self) -> None:
        """Makes the store at a path where nothing is yet, and tries it."""
        if self._read(MARK_NAME) != MARK:
            if self._list(""):
                raise MisusedError(f"{self.address} has files, but is no store. Name another path.")
            self._write(MARK_NAME, MARK)
        trial = f"{INCOMING}/{os.urandom(16).hex()}"
        self._write(trial, MARK)
        if self._read(trial) != MARK or self._read(MARK_NAME) != MARK:
            raise StoreFaultError(f"The store {self.address} doesn't give back what is written there. Ask whoever runs it.")
        self._delete(trial)

    def add(self, source: Path, meter: Meter, follow: bool = True) -> Kept:
        """Copies a file to the store if its bytes aren't there; if they are, they are read through and made young."""
        self._look()
        with steady(source, follow) as opened, meter(source.name, os.fstat(opened.fileno()).st_size) as moved:
            kept = Kept(*copy_through_hash(opened, Nowhere(), moved), time.time())
        try:
            self._look_through(self._place(kept.sha256)[0], kept, meter)
            self._write(f"{TOUCHED}/{kept.sha256}", MARK)
        except MissingError:
            self._bring_in(source, kept, meter, follow)
        return kept

    def find(self, sha256: str) -> Optional[Kept]:
        """What the store has under a name."""
        try:
            return self._kept(sha256, self._place(sha256)[1])
        except MissingError:
            self._look()
            return None

    def fetch(self, sha256: str, size: int, target: Own, meter: Meter) -> None:
        """Writes bytes into a file while they are hashed."""
        kept = self.find(sha256)
        if kept is None:
            raise MissingError()
        compare(sha256, size, sha256, kept.size)
        try:
            self._pass_through(place_of(sha256), Kept(sha256, size, 0), target, meter)
        except MissingError:
            # a sweep has set it aside meanwhile, or it can't be brought back from here
            self._pass_through(self._place(sha256)[0], Kept(sha256, size, 0), target, meter)

    def all(self) -> Iterator[Kept]:
        """All that the store has in its places, as young as it was wanted last."""
        self._look()
        return self._all_in("sha256")

    def going(self) -> Iterator[Kept]:
        """What a sweep set aside, as young as it was wanted last."""
        return self._all_in(GOING)

    def set_aside(self, kept: Kept, before: float) -> bool:
        """Moves bytes that are still older than that, and that nobody wanted again, out of their place. Those that somebody wanted on the way
        are moved back. A remote that can't move copies and deletes."""
        if self._wanted(kept.sha256, self._stat(place_of(kept.sha256))) >= before:
            return False
        if self._run("moveto", "--", self._at(place_of(kept.sha256)), self._at(aside_of(kept.sha256)), may_lack=True) is None:
            return False
        return not (self._wanted(kept.sha256, None) >= before and self.bring_back(kept.sha256))

    def bring_back(self, sha256: str) -> bool:
        """Moves what a sweep set aside back into its place, and notes that it is wanted."""
        if self._run("moveto", "--", self._at(aside_of(sha256)), self._at(place_of(sha256)), may_lack=True) is None:
            return False
        self._write(f"{TOUCHED}/{sha256}", MARK)
        return True

    def remove(self, kept: Kept) -> bool:
        """Removes what was set aside, unless it is gone from there, and the note of when it was wanted."""
        gone = self._is_deleted(aside_of(kept.sha256))
        if gone:
            self._is_deleted(f"{TOUCHED}/{kept.sha256}")
        return gone

    def leftovers(self, before: float) -> int:
        """Removes what killed clients left under names of their own."""
        old = [entry for entry in self._list(INCOMING) if self._since(entry) < before]
        for entry in old:
            self._delete(f"{INCOMING}/{entry['Path']}")
        return len(old)

    @staticmethod
    def near(_folder: Path) -> bool:
        """No remote is near."""
        return False

    # How it is done.

    def _all_in(self, folder: str) -> Iterator[Kept]:
        """All bytes beneath a folder of the store, as young as they were wanted last."""
        touched = {entry["Name"]: self._since(entry) for entry in self._list(TOUCHED)}
        for entry in self._list(folder):
            if not unsafe_name(entry["Name"]):
                kept = self._kept(entry["Name"], entry)
                yield Kept(kept.sha256, kept.size, max(kept.since, touched.get(kept.sha256, 0.0)))

    def _wanted(self, sha256: str, entry: Optional[Dict[str, Any]]) -> float:
        """When bytes were last wanted, by what the remote says of them and of their note."""
        ages = [self._since(each) for each in (entry, self._stat(f"{TOUCHED}/{sha256}")) if each]
        return max(ages, default=0.0)

    def _place(self, sha256: str) -> Tuple[str, Dict[str, Any]]:
        """Where bytes are, and what the remote says of them: in their place, into which what a sweep set aside is brought back. Who may not do
        that finds them where they lie."""
        entry, place = self._stat(place_of(sha256)), place_of(sha256)
        if entry is None:
            with contextlib.suppress(StoreAwayError):
                place = place if self.bring_back(sha256) else aside_of(sha256)
            entry = self._stat(place) or self._stat(place_of(sha256))
        if entry is None:
            raise MissingError()
        return place, entry

    def _bring_in(self, source: Path, kept: Kept, meter: Meter, follow: bool) -> None:
        """Writes a file under a name of its own, reads it back through its hash, and gives it its name, unless that has come meanwhile."""
        came = f"{INCOMING}/{os.urandom(16).hex()}"
        try:
            self._send(source, came, kept, meter, follow)
            self._look_through(came, kept, meter)
            self._give_name(came, kept)
        finally:
            with contextlib.suppress(StoreFaultError, StoreAwayError):
                if self._stat(came) is not None:
                    self._delete(came)

    def _send(self, source: Path, came: str, kept: Kept, meter: Meter, follow: bool) -> None:
        """Copies a file to the remote. It must be the one that was hashed before."""
        sent = None
        with started(self._words("rcat", "--", self._at(came)), subprocess.PIPE, subprocess.DEVNULL) as (rclone, heard):
            assert rclone.stdin is not None
            with steady(source, follow) as opened, meter(source.name, kept.size) as moved, contextlib.suppress(BrokenPipeError):
                sent = copy_through_hash(opened, Whole(rclone.stdin), moved)
        if rclone.returncode or sent is None:
            raise self._fault(heard.said)
        if sent != (kept.sha256, kept.size):
            raise MisusedError(f"{source} was changed while it was read, so nothing was put. Save it, and put it again.")

    def _look_through(self, place: str, kept: Kept, meter: Meter) -> None:
        """Reads bytes of the store through their hash."""
        try:
            self._pass_through(place, kept, Own(Nowhere(), place), meter)
        except MissingError:
            raise
        except WrongBytesError as wrong:
            raise StoreFaultError(f"The store {self.address} has damaged bytes under {place}: {wrong}. Nothing was put. Whoever runs the store has"
                                  " to take that file away; then put again.") from wrong

    def _give_name(self, came: str, kept: Kept) -> None:
        """Gives bytes their name, unless another client gave it to the same bytes meanwhile: some remotes refuse that then."""
        refused: Optional[StoreAwayError] = None
        try:
            self._run("moveto", "--ignore-existing", "--", self._at(came), self._at(place_of(kept.sha256)))
        except StoreAwayError as error:
            refused = error
        found = self.find(kept.sha256)
        if found is None or found.size != kept.size:
            raise refused or StoreFaultError(f"The store {self.address} lost {kept.sha256} while it was named. Nothing was put; put again.")

    def _pass_through(self, place: str, kept: Kept, target: Own, meter: Meter) -> None:
        """Reads bytes through their hash into a file."""
        words = self._words("cat", "--", self._at(place))
        with meter(kept.sha256[:12], kept.size) as moved, started(words, subprocess.DEVNULL, subprocess.PIPE) as (rclone, heard):
            found = copy_through_hash(rclone.stdout, target, moved, kept.size)
        if found[1] > kept.size:
            raise WrongBytesError(f"they are more than {kept.size:,} bytes")
        if rclone.returncode in NOT_THERE:
            raise MissingError()
        if rclone.returncode:
            raise self._fault(heard.said)
        compare(kept.sha256, kept.size, *found)

    def _look(self) -> None:
        """Refuses a path that isn't the store."""
        if self._read(MARK_NAME) != MARK:
            raise StoreAwayError(f"The store {self.address} is not there: that path has no file {MARK_NAME}. Look at your rclone's remote"
                                 f" {self.remote}, or ask whoever runs the vault.")

    def _read(self, place: str) -> Optional[bytes]:
        """A file no longer than the mark, or its beginning, or nothing if it isn't there."""
        return self._run("cat", "--count", str(len(MARK) + 1), "--", self._at(place), may_lack=True)

    def _write(self, place: str, content: bytes) -> None:
        self._run("rcat", "--", self._at(place), given=content)

    def _delete(self, place: str) -> None:
        self._run("deletefile", "--", self._at(place))

    def _is_deleted(self, place: str) -> bool:
        """Deletes a file, unless it is gone."""
        try:
            self._delete(place)
        except StoreAwayError:
            if self._stat(place) is not None:
                raise
            return False
        return True

    def _stat(self, place: str) -> Optional[Dict[str, Any]]:
        """What the remote says of a file."""
        told = self._run("lsjson", "--stat", "--no-mimetype", "--", self._at(place), may_lack=True)
        if told is None:
            return None
        entry = self._told(told)
        return entry if isinstance(entry, dict) and entry.get("IsDir") is False else {"Size": -1, "ModTime": ""}

    def _list(self, place: str) -> List[Dict[str, Any]]:
        """The files beneath a folder of the store."""
        told = self._run("lsjson", "-R", "--files-only", "--no-mimetype", "--", self._at(place), may_lack=True)
        entries = self._told(told) if told is not None else []
        if not isinstance(entries, list) or not all(isinstance(entry, dict) and isinstance(entry.get("Name"), str) for entry in entries):
            raise StoreFaultError(f"What rclone says of {self.address} can't be read. Is it a version of rclone that is much older or newer"
                                  " than 1.60?")
        return entries

    def _told(self, told: bytes) -> Any:
        """What rclone says in JSON."""
        try:
            return json.loads(told)
        except ValueError as error:
            raise StoreFaultError(f"What rclone says of {self.address} can't be read: {error}.") from error

    def _kept(self, sha256: str, entry: Dict[str, Any]) -> Kept:
        size = entry.get("Size")
        return Kept(sha256, size if isinstance(size, int) else -1, self._since(entry))

    @staticmethod
    def _since(entry: Dict[str, Any]) -> float:
        """When a file was written. If that isn't known, it counts as written just now, so that no sweep takes it."""
        found = TIME.fullmatch(str(entry.get("ModTime")))
        return datetime.strptime(found[1] + found[2], "%Y-%m-%dT%H:%M:%S%z").timestamp() if found else time.time()

    def _at(self, place: str) -> str:
        return f"{self.remote}:{self.path}/{place}"

    def lacking(self, wanted: Sequence[Kept]) -> List[Kept]:
        """Those of some bytes that the store hasn't of that size. One run of rclone looks for all of them."""
        names = "".join(place_of(kept.sha256) + "\n" for kept in wanted)
        told = self._run("lsjson", "-R", "--files-only", "--no-mimetype", "--no-modtime", "--files-from-raw", "-", "--", f"{self.remote}:{self.path}",
                         given=names.encode("ascii"), may_lack=True)
        entries = self._told(told) if told is not None else []
        sizes = {entry.get("Name"): entry.get("Size") for entry in entries if isinstance(entry, dict)} if isinstance(entries, list) else {}
        found = [kept for kept in wanted if sizes.get(kept.sha256) != kept.size]
        return [kept for kept in found if (there := self.find(kept.sha256)) is None or there.size != kept.size]

    def _words(self, *words: str) -> List[str]:
        return [self.program, words[0], *PATIENCE, *words[1:]]

    def _run(self, *words: str, given: bytes = b"", may_lack: bool = False) -> Optional[bytes]:
        """Runs rclone to its end, and answers what it said, or nothing if a file is missing that may be missing."""
        done = subprocess.run(self._words(*words), input=given, capture_output=True, check=False)
        if done.returncode in NOT_THERE and may_lack:
            return None
        if done.returncode:
            raise self._fault(done.stderr)
        return done.stdout

    def _fault(self, errors: bytes) -> StoreAwayError:
        """Why rclone failed, by its last line."""
        lines = errors.decode("utf-8", "replace").strip().splitlines() or ["it says nothing"]
        last = re.sub(r"^[0-9/]+ [0-9:]+ (ERROR : |Failed to )?", "", lines[-1])
        return StoreAwayError(f"The store {self.address} can't be used: rclone says `{shown(last)[:300]}`. `rclone lsd {self.remote}:` tries its"
                              " remote; no version was made of it.")
