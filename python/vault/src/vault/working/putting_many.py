"""Files of a working folder are put, many at a time, and no more than a check-out takes."""

import time
from pathlib import Path
from typing import Dict, List, NamedTuple, Optional, Sequence

from vault.client.many import batches
from vault.errors import RefusedError
from vault.files.looks import same
from vault.files.text import quoted
from vault.files.transfer import Moved, Read
from vault.protocol.grammar import DRAFTS
from vault.store.many import Wanted, put_all
from vault.store.parts import Parts
from vault.working.folder import Folder
from vault.working.naming import Naming
from vault.working.planning import too_many_drafts
from vault.working.told import Done

# After how many files what was done is written down.
WRITTEN_AFTER = 1024


class ToPut(NamedTuple):
    """A file that is to be put, the check-out, and the name that its card has then."""

    file: str
    claim: str
    name: str


class PuttingMany(Naming):
    """A working folder whose files are put at once."""

    def __init__(self, parts: Parts, folder: Folder):
        super().__init__(parts, folder)
        # How files looked that were put, by their names.
        self.put_as: Dict[str, Read] = {}
        # This designer's check-outs that wait still, once they are asked for.
        self.queued: Optional[Dict[str, Sequence[str]]] = None

    def _put_wanted(self, wanted: Sequence[ToPut], note: str, done: Done) -> None:
        """Puts files, each in its check-out. Those that can't be read are told, and the others are put all the same."""
        for claim in sorted({each.claim for each in wanted}):
            mine = [each for each in wanted if each.claim == claim]
            sizes = [seen.st_size for each in mine if (seen := self.folder.seen(each.file)) is not None]
            with self.parts.meter(self.folder.place if len(mine) > 1 else mine[0].name, sum(sizes)) as moved:
                for batch in batches(mine, WRITTEN_AFTER):
                    self._put_batch(batch, claim, note, moved, done)

    def _put_batch(self, batch: Sequence[ToPut], claim: str, note: str, moved: Moved, done: Done) -> None:
        """Puts some files, and remembers what was put, also if one of them was refused."""
        names = {self.folder.files[each.file].place: each.file for each in batch}
        looks = {each.file: (time.time_ns(), self.folder.seen(each.file)) for each in batch}
        wanted = [Wanted(self.folder.files[each.file].place, Path(self.folder.to_read(each.file)), each.name) for each in batch]
        put = put_all(self.parts, wanted, claim, note, moved)
        for place, sha256 in put.hashes.items():
            entry = self.folder.files[names[place]]
            entry.draft, entry.claim = sha256, claim
            looked, before = looks[names[place]]
            after = self.folder.seen(names[place])
            if before is not None and after is not None and same(before, after):
                self.put_as[names[place]] = Read(sha256, before, looked)
        done.files += [names[place] for place in put.hashes]
        for place, error in put.left.items():
            done.left.append((names[place], f"was not put: {str(error).rstrip('.')}"))
            done.unread.setdefault(claim, done.left[-1])
        done.failed += len(put.left)
        self.folder.save()
        refused: Optional[RefusedError] = next((error for error in put.left.values() if isinstance(error, RefusedError)), None)
        if refused is not None:
            raise refused

    def _fitting(self, wanted: Sequence[ToPut], in_parts: bool, done: Done) -> List[ToPut]:
        """As many of some files as their check-outs take beside what these have; of more, nothing is put, unless that is to be in parts."""
        found: List[ToPut] = []
        for claim in sorted({each.claim for each in wanted}):
            mine = [each for each in wanted if each.claim == claim]
            there = sum(self.folder.files[name].claim == claim for name in done.drafts) + list(done.named.values()).count(claim)
            if there + len(mine) > DRAFTS and not in_parts:
                raise too_many_drafts(self.folder.path, there + len(mine), f"vault checkin {quoted(str(self.folder.path))}")
            found += mine[:max(0, DRAFTS - there)]
        return found
