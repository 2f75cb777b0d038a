"""Every moment of the client's commands and of the sweep, in steps: at a call that they make into the system a designer saves, the program is killed,
the disk is full, the server is killed, or another machine of the designer works. No saved bytes are gone, no change is untold, no version is
without its bytes, and what is said again ends as if it was said once. By hand tests/by_hand/moments tries all moments."""

import contextlib
import sys
import unittest
from typing import List, Optional, Sequence, Tuple

from moments.deeds import DEEDS, Deed
from moments.disks import Disk, NoDisk, small_disk
from moments.scenes import SAVES, SCENES, Scene
from moments.tries import Tries
from moments.world import World
from servers import MEMORY

# One in so many moments is tried, each with a share of what may happen, by turns.
STEP, SHARE = 13, 4
# On a disk with coarse times, where a save has to be waited for, and on one where the power is cut: from here on they differ.
COARSE_STEP, POWER_STEP, WRITES = 31, 31, 100
# For how many seconds each goes on at most: beside proofs a try takes ten times as long, and fewer are made.
SECONDS, COARSE_SECONDS, POWER_SECONDS = 180.0, 45.0, 30.0
FOLDER = [scene for scene in SCENES if "get" in scene.name or scene.name in ("status", "put of a folder", "checkin of a folder", "add")]


class Moments(unittest.TestCase):
    """Commands on a disk of their own."""

    deadline = 1800

    def try_all(self, disk: Optional[Disk], scenes: List[Scene], deeds: Sequence[Deed], seconds: float, steps: Tuple[int, int, int]) -> None:
        """Tries moments of commands: in steps, with a share of what may happen, from one on. Each command has the same part of the time."""
        world = World(disk, MEMORY)
        self.addCleanup(world.close)
        tries, (step, share, first) = Tries(world), steps
        for place, scene in enumerate(scenes):
            with self.subTest(scene.name):
                found = list(tries.learn(scene))
                wanted = tries.wanted(scene, deeds, step, share, first + place % step)
                found += tries.within(scene, wanted, seconds / len(scenes))
                self.assertEqual(list(map(str, found)), [])
        print(f"{tries.count} moments were tried", file=sys.stderr)

    def small_disk(self, kind: str) -> Disk:
        """A disk that is needed."""
        try:
            return self.enterContext(small_disk(kind, MEMORY))
        except NoDisk as error:
            self.skipTest(str(error))

    def test_ext4(self) -> None:
        """Where no disk can be mounted, none is ever full."""
        disk = None
        with contextlib.suppress(NoDisk):
            disk = self.enterContext(small_disk("ext4", MEMORY))
        self.try_all(disk, SCENES, DEEDS, SECONDS, (STEP, SHARE, 0))

    def try_coarse(self, kind: str) -> None:
        """Saves in a folder on a disk with coarse times."""
        saves = [deed for deed in DEEDS if deed.kind == SAVES]
        self.try_all(self.small_disk(kind), FOLDER, saves, COARSE_SECONDS, (COARSE_STEP, 1, WRITES))

    def test_vfat(self) -> None:
        """Times of two seconds, by the kernel's vfat where it has one."""
        self.try_coarse("vfat")

    def test_two_seconds(self) -> None:
        """Times of two seconds, on a disk that any kernel has."""
        self.try_coarse("two_seconds")

    def test_power(self) -> None:
        """A power cut, on a disk that keeps only what was put on it."""
        self.try_all(self.small_disk("ext2"), FOLDER, DEEDS, POWER_SECONDS, (POWER_STEP, 1, WRITES))
