"""Files that a crash could leave under a server of eight clients, by its own calls: each opens as the durable vault, or as the one that
was being written, with all that was acknowledged to a client by then, and a server starts over them.

`VAULT_SEED` selects the moments. A large run, by hand: `VAULT_MOMENTS_OF_STOPS=8000 VAULT_SNAPSHOTS=6 tests/run test_stops` looks at
four pairs of files at each of 8,000 moments (default 150), over six snapshots (default 2).
"""

import os
import random
import subprocess
import sys
import tempfile
import unittest
from pathlib import Path
from typing import Dict, List

from servers import MEMORY, VAULTD
from stops import CLIENTS, Moment, Recording, moments, record, work_behind, work_of
from vault_files import Damaged, Vault, vault_of

SEED = int(os.environ.get("VAULT_SEED", "70"))
MOMENTS = int(os.environ.get("VAULT_MOMENTS_OF_STOPS", "150"))
SNAPSHOTS = int(os.environ.get("VAULT_SNAPSHOTS", "2"))
IMAGES = 4


class Stops(unittest.TestCase):
    """One recording, and many files."""

    deadline = 600 + MOMENTS * IMAGES
    folder: Path
    recording: Recording

    @classmethod
    def setUpClass(cls) -> None:
        folder = tempfile.TemporaryDirectory(prefix="vault-test-", dir=MEMORY)
        cls.addClassCleanup(folder.cleanup)
        cls.folder = Path(folder.name)
        cls.recording = record(cls.folder, SNAPSHOTS)

    def setUp(self) -> None:
        self.chance = random.Random(SEED)
        self.counted: Dict[str, int] = {}

    def chosen(self, recording: Recording, count: int) -> List[int]:
        """The calls inside which the machine crashes: two of three are any, and the third is of a snapshot, since these are few."""
        calls, rare = range(len(recording.calls)), recording.in_snapshots()
        return sorted(set(self.chance.sample(calls, count * 2 // 3) + self.chance.sample(rare, min(len(rare), count // 3))))

    def wrong_at(self, moment: Moment) -> List[str]:
        """What is wrong with the files that a crash may leave at a moment, by the program and by a reader of the format."""
        settled, writing, wrong = moment.vault("settled"), moment.vault("current"), []
        for client, told in enumerate(moment.told):
            if work_of(settled, client) not in (work_behind(client, told), work_behind(client, told + 1)):
                wrong.append(f"call {moment.call}: client {client} was told {told} commands, and they aren't settled")
        for _ in range(IMAGES):
            image = {name: disk.image(self.chance) for name, disk in moment.files.items()}
            try:
                found = self.opened(image)
            except Damaged as damage:
                wrong.append(f"call {moment.call}: {damage}")
                continue
            if found not in (settled, writing):
                wrong.append(f"call {moment.call}: {found.counts}, and neither {settled.counts} nor {writing.counts}")
            kind = "either" if settled == writing else "settled" if found == settled else "being written"
            self.counted[kind] = self.counted.get(kind, 0) + 1
        return wrong

    def opened(self, image: Dict[str, bytes]) -> Vault:
        """The vault of these files, as both say it."""
        paths = [self.folder / f"image-{name}" for name in image]
        for path, data in zip(paths, image.values()):
            path.write_bytes(data)
        said = self.said("inspect", paths).splitlines()
        found = vault_of(image["a"], image["b"])
        if said[2:3] != [found.counts]:
            raise Damaged(f"inspect says {said[:3]}, and the files hold {found.counts}")
        if "A server starts" not in self.said("check", paths):
            raise Damaged(f"check says {self.said('check', paths)}, and a stop left these files")
        return found

    def said(self, word: str, paths: List[Path]) -> str:
        """What the program says of two files."""
        return subprocess.run([VAULTD, word, *map(str, paths)], capture_output=True, text=True, timeout=60, check=False).stdout

    def wrong_in(self, recording: Recording, count: int) -> List[str]:
        """What is wrong at this many moments of a recording."""
        return [wrong for moment in moments(recording, self.chosen(recording, count)) for wrong in self.wrong_at(moment)]

    def test_stops(self) -> None:
        self.assertGreaterEqual(len(self.recording.heads), SNAPSHOTS)
        wrong = self.wrong_in(self.recording, MOMENTS)
        print(f"stops: seed {SEED}, {CLIENTS} clients, {len(self.recording.calls)} calls, {len(self.recording.heads)} snapshots,"
              f" {sum(self.counted.values())} pairs of files: {self.counted}", file=sys.stderr)
        self.assertEqual(wrong, [])
        for kind in ("either", "settled", "being written"):
            self.assertGreater(self.counted.get(kind, 0), 0, self.counted)

    def test_a_server_without_some_syncs(self) -> None:
        """Such files show it, so the files above would, too."""
        self.assertNotEqual(self.wrong_in(self.recording.without_syncs_of_bodies(), 60), [])

    def test_a_server_that_tells_early(self) -> None:
        self.assertIn("aren't settled", "".join(self.wrong_in(self.recording.told_early(), 60)))


if __name__ == "__main__":
    unittest.main()
