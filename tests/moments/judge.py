"""What may not be so after a moment: bytes that a designer saved are gone, a change that isn't told, a version without its bytes, or another
end than if nothing had happened."""

import json
import re
from dataclasses import dataclass
from typing import Dict, Iterator, List, Tuple

from moments.deeds import Try
from moments.world import SETTINGS, Seen, World

OWN = ".vault/"


@dataclass(frozen=True)
class End:
    """How all stands once a command was done: the files, and what the vault has."""

    files: Dict[str, str]
    versions: Dict[str, List[str]]
    drafts: Dict[str, Tuple[str, Dict[str, str]]]
    store: str


def end_of(world: World) -> End:
    """How all stands."""
    seen = world.seen()
    files = {name: sha256 for name, sha256 in world.files(world.desk.folder).items() if not name.startswith(OWN)}
    return End(files, seen.versions, seen.drafts, str(world.named_store(seen)))


def faults_of(tried: Try) -> Iterator[str]:
    """What may not be so, in words."""
    seen, files = tried.world.seen(), tried.world.files(tried.world.desk.folder)
    yield from gone(tried, seen, files)
    yield from without_bytes(tried.world, seen)
    yield from replaced(tried, seen)
    yield from untold(tried.world, seen, files)


def gone(tried: Try, seen: Seen, files: Dict[str, str]) -> Iterator[str]:
    """What was saved, and is in no file of the folder, in no draft and in no version."""
    there = {*files.values(), *(sha256 for _, sha256 in seen.hashes())}
    for sha256, what in tried.saved.items():
        if sha256 not in there:
            yield f"gone: what was saved in {what}"


def without_bytes(world: World, seen: Seen) -> Iterator[str]:
    """Versions and drafts whose bytes are not in the store."""
    for what, sha256 in seen.hashes():
        if not sha256.startswith("content ") and not world.stored(sha256, seen):
            if what.startswith("version"):
                yield f"without bytes: {what}"


def replaced(tried: Try, seen: Seen) -> Iterator[str]:
    """A draft that was put last, and isn't there any more, because what was sent before was sent again."""
    if tried.newest and tried.newest not in {sha256 for _, sha256 in seen.hashes()}:
        yield "replaced: the laptop's draft, which was newer"


def untold(world: World, seen: Seen, files: Dict[str, str]) -> Iterator[str]:
    """What `status` doesn't tell."""
    if not (world.desk.folder / ".vault" / "folder.json").exists():
        return
    done = world.desk.vault("--json", "status", str(world.desk.folder), status=None)
    if done.status != 0:
        yield f"no status: {done.out} {done.errors}"
        return
    told = json.loads(done.out)
    states = {state["place"]: state for state in told["files"]}
    for place, versions in seen.versions.items():
        if place == SETTINGS or not versions:
            continue
        state = states.get(place)
        if state is None:
            if place not in {each["place"] for each in told["new"]}:
                yield f"untold: {place} has {len(versions)} versions and no file"
            continue
        yield from untold_of(state, versions, files.get(state["file"], ""))
    named = {state["file"] for state in told["files"]} | set(told["others"])
    for name in files:
        if not name.startswith(".") and name not in named and not any(other.endswith("/") and name.startswith(other) for other in named):
            yield f"untold: the file {name}"


def untold_of(state: Dict[str, object], versions: List[str], sha256: str) -> Iterator[str]:
    """What `status` doesn't tell of a file."""
    number, here = state["version"], state["changed"] or state["draft"]
    if not sha256:
        if not state["missing"]:
            yield f"untold: {state['file']} is missing"
        return
    if isinstance(number, int) and 0 < number <= len(versions) and sha256 != versions[number - 1] and not here:
        yield f"untold: {state['file']} isn't version {number}"
    elif sha256 != versions[-1] and not here and number == len(versions):
        yield f"untold: {state['file']} isn't the newest version"


def other_end(tried: Try, wanted: End) -> Iterator[str]:
    """In what all stands otherwise than if nothing had happened."""
    found = end_of(tried.world)
    for what in ("files", "versions", "drafts", "store"):
        if getattr(found, what) != getattr(wanted, what):
            yield f"another end: {what} are {shortly(getattr(found, what))}, and not {shortly(getattr(wanted, what))}"


def shortly(what: object) -> str:
    """Something in words, with the first digits of each hash."""
    return re.sub(r"\b([0-9a-f]{6})[0-9a-f]{58}\b", r"\1", repr(what))
