"""The commands whose moments are tried, each with where it begins."""

import os
import shutil
import time
from dataclasses import dataclass
from typing import Callable, FrozenSet, List, Tuple

from moments.programs import VAULT
from moments.world import ASSEMBLY, NAMES, PART, ROD, SIZES, World, content_of, sha256_of

DAY = 86400
# The check-out that the designer has, behind two by which the vault was filled.
CLAIM = "c3"
NEW = "/engine/block/neu_sldprt"
NEW_FILE = "Neu.SLDPRT"
# Which deeds there are for a scene.
SAVES, KILLS, FULL, RESTARTS, PUTS, CHECKS_IN, ADDS, SWEEPS, POWER = (
    "saves", "kills", "full", "restarts", "puts", "checks in", "adds", "sweeps", "power")
ALWAYS = frozenset({KILLS, FULL, RESTARTS, POWER})


@dataclass(frozen=True)
class Scene:
    """A command, where it begins, the part whose file is saved meanwhile, and what may happen then; which status it may end with if it is said
    again once it was done; and what is done behind it, because it says so."""

    name: str
    prepare: Callable[[World], None]
    words: Callable[[World], Tuple[str, ...]]
    kinds: FrozenSet[str]
    part: str = PART
    done: FrozenSet[int] = frozenset({0})
    behind: Callable[[World], None] = lambda world: None


def changed(about: str) -> bytes:
    """What the designer made of the part's file before the command."""
    return content_of(f"changed {about}", SIZES[PART])


def change(world: World, about: str) -> None:
    """The designer saves the part's file, some time before the command."""
    world.file(PART).write_bytes(changed(about))


def newer(world: World) -> None:
    """The vault has a newer version of the part."""
    world.new_versions({PART: content_of("second", SIZES[PART])})


def renamed(world: World) -> None:
    """The vault has a newer version of a part, by another file name."""
    world.new_versions({ROD: content_of("second rod", SIZES[ROD])}, {ROD: "Pleuelstange.SLDPRT"})


def missing(world: World) -> None:
    """A file is missing at the desk, and the vault has a newer version of it."""
    newer(world)
    world.file(PART).unlink()


def first(world: World) -> None:
    """The desk has no folder yet."""
    shutil.rmtree(world.desk.folder)


def behind_killed(world: World) -> None:
    """The first `get` was killed once the part's file was there, before this was remembered."""
    first(world)

    def meanwhile(_pid: int, _call: str) -> str:
        kept = world.desk.folder / ".vault" / "folder.json"
        there = all(world.file(place).exists() for place in (PART, ROD))
        return "kill" if there and NAMES[PART] not in kept.read_text("utf-8") else "again"

    done = world.programs.run(world.desk.environment(), world.desk.home, VAULT, list(get(world)[1:]), 0, meanwhile)
    assert done.status == -9, done


def checked_out(world: World) -> None:
    """The assembly is checked out, and the part's file is changed."""
    assert world.checkout(world.desk, ASSEMBLY) == CLAIM
    change(world, "once")


def put_before(world: World) -> None:
    """The same; it was put, and changed again."""
    checked_out(world)
    world.desk.vault("put", str(world.desk.folder))
    change(world, "twice")


def put_already(world: World) -> None:
    """The same; it was put, and is as it was put."""
    checked_out(world)
    world.desk.vault("put", str(world.desk.folder))


def old_bytes(world: World) -> None:
    """The same, and the store has these bytes since long ago, and nobody names them."""
    checked_out(world)
    lay_old(world, changed("once"))


def lay_old(world: World, content: bytes) -> None:
    """Has the store bytes that are old, and that nobody names."""
    sha256 = sha256_of(content)
    path = world.store / "sha256" / sha256[:2] / sha256[2:4] / sha256
    path.parent.mkdir(parents=True, exist_ok=True)
    path.write_bytes(content)
    path.chmod(0o444)
    for each in world.store.glob("sha256/*/*/*"):
        os.utime(each, (time.time() - 40 * DAY,) * 2)


def swept(world: World) -> None:
    """The part was put, and the draft's bytes are gone, as by a sweep behind a backup that was brought back."""
    put_already(world)
    sha256 = sha256_of(changed("once"))
    (world.store / "sha256" / sha256[:2] / sha256[2:4] / sha256).unlink()


def store_copied(world: World) -> None:
    """The store was copied to another place."""
    put_already(world)
    shutil.copytree(world.store, world.second)


def copied_again(world: World) -> None:
    """All that is in the store that the vault named before is copied to the one that it names, as `vault store set` says."""
    shutil.copytree(world.store, world.second, dirs_exist_ok=True)


def set_elsewhere(world: World) -> None:
    """The store was copied, then the part was put, and then the vault was told to keep its files at the other place."""
    shutil.copytree(world.store, world.second)
    put_already(world)
    world.laptop.vault("store", "set", f"file://{world.second}")
    world.desk.vault("store", "confirm", f"file://{world.second}")


def set_by_another(world: World) -> None:
    """The store was copied, and another machine told the vault so."""
    store_copied(world)
    world.laptop.vault("store", "set", f"file://{world.second}")


def new_file(world: World) -> None:
    """The assembly is checked out, a file is new in the folder, and the laptop has a folder, too."""
    world.laptop.vault("get", ASSEMBLY, "--to", str(world.laptop.folder))
    world.checkout(world.desk, ASSEMBLY)
    (world.desk.folder / NEW_FILE).write_bytes(content_of("new", 4000))


def unnamed(world: World) -> None:
    """The part is checked out, and the store has bytes that are old, and that nobody names."""
    world.checkout(world.desk, PART)
    lay_old(world, content_of("again", 4000))


def get(world: World) -> Tuple[str, ...]:
    """Brings the folder up to the vault."""
    return "vault", "get", ASSEMBLY, "--to", str(world.desk.folder)


def put(world: World) -> Tuple[str, ...]:
    """Puts what was changed."""
    return "vault", "put", str(world.desk.folder)


GETS = ALWAYS | {SAVES, CHECKS_IN}
CHANGES = ALWAYS | {SAVES, PUTS, CHECKS_IN}
REFUSED_THEN = frozenset({0, 1})

SCENES: List[Scene] = [
    Scene("get of a newer version", newer, get, GETS),
    Scene("get of a version with another name", renamed, get, GETS, ROD),
    Scene("get of a missing file", missing, get, GETS),
    Scene("first get", first, get, GETS),
    Scene("get behind a killed get", behind_killed, get, GETS),
    Scene("status", newer, lambda world: ("vault", "status", str(world.desk.folder)), GETS),
    Scene("put of a folder", checked_out, put, CHANGES),
    Scene("put of a folder, again", put_before, put, CHANGES),
    Scene("put of a file", checked_out, lambda world: ("vault", "put", PART, str(world.file(PART))), CHANGES),
    Scene("put of bytes that are old", old_bytes, put, ALWAYS | {SWEEPS}),
    Scene("checkin of a folder", checked_out, lambda world: ("vault", "checkin", str(world.desk.folder)), CHANGES, done=REFUSED_THEN),
    Scene("checkin with a note", put_already, lambda world: ("vault", "checkin", str(world.desk.folder), "-m", "larger bore"), CHANGES,
          done=REFUSED_THEN),
    Scene("checkin of a check-out", put_already, lambda world: ("vault", "checkin", CLAIM), CHANGES, done=REFUSED_THEN),
    Scene("checkin of bytes that were swept", swept, lambda world: ("vault", "checkin", CLAIM), ALWAYS, done=REFUSED_THEN),
    Scene("checkin of a folder, swept", swept, lambda world: ("vault", "checkin", str(world.desk.folder)), ALWAYS, done=REFUSED_THEN),
    Scene("checkin, with the store set elsewhere", set_elsewhere, lambda world: ("vault", "checkin", CLAIM), ALWAYS, done=REFUSED_THEN),
    Scene("add", new_file, lambda world: ("vault", "add", str(world.desk.folder / NEW_FILE)), ALWAYS | {SAVES, ADDS}, NEW),
    Scene("abandon", put_already, lambda world: ("vault", "abandon", CLAIM), CHANGES - {PUTS}, done=REFUSED_THEN),
    Scene("store set", store_copied, lambda world: ("vault", "store", "set", f"file://{world.second}"), ALWAYS | {CHECKS_IN},
          behind=copied_again),
    Scene("store confirm", set_by_another, lambda world: ("vault", "store", "confirm", f"file://{world.second}"), ALWAYS),
    Scene("store check", put_already, lambda world: ("vault", "store", "check"), ALWAYS | {CHECKS_IN}),
    Scene("sweep", unnamed, lambda world: ("vaultd-sweep", *world.server.files, f"file://{world.store}", "--days", "1", "--yes"),
          ALWAYS | {PUTS, CHECKS_IN}),
]
