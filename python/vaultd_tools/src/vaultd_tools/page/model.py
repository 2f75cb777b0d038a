"""What the page knows of a vault: its places, its claims in the order of the queue, and what of this changed while somebody looked."""

from __future__ import annotations

from collections import OrderedDict, deque
from collections.abc import Iterator
from dataclasses import dataclass, field
from datetime import datetime, timezone
from typing import Any

from vault.files.names import OWN_NAME
from vault.store.card import Card
from vault.store.naming import is_of_names, named_by
from vaultd_tools.files import Claim

MAX_PLACES = 4096
MAX_BENEATH = 64
MAX_CLAIMS = 256
MAX_VERSIONS = 65535
MAX_NAMES = 7
PART_NAMES = 3
KEPT_VERSIONS = 20000
KEPT_NEWS = 60
KINDS = ("library", "project", "assembly")


def now() -> datetime:
    """The time, to the second."""
    return datetime.now(timezone.utc).replace(microsecond=0)


def depth(path: str) -> int:
    """How many names a path has."""
    return 0 if path == "/" else path.count("/")


@dataclass(frozen=True)
class Version:
    """A version of a part, by what it says of itself: the card of a longer file, or bytes without one, which may be the real name of the project or
    the assembly that the part stands in."""

    number: int
    size: int
    card: Card | None
    names: str = ""


@dataclass
class Place:
    """A place, with those right beneath it in the order in which they were made. Whether it is a part isn't always known yet, nor how many
    versions it has."""

    path: str
    part: bool | None
    children: list[str] = field(default_factory=list)
    versions: int = 0
    counted: bool = False
    latest: Version | None = None

    @property
    def name(self) -> str:
        """Its own name."""
        return self.path.rpartition("/")[2] or "the library"

    @property
    def kind(self) -> str:
        """What it is, in a word."""
        return "part" if self.part else KINDS[min(2, depth(self.path))]


@dataclass(frozen=True)
class Since:
    """When the page first saw a claim, and whether it had also looked right before that."""

    when: datetime
    exact: bool


@dataclass(frozen=True)
class News:
    """Something that changed while the page looked: who did what, and where. Any of the three may be missing."""

    when: datetime
    owner: str
    does: str
    place: str


@dataclass(frozen=True)
class Link:
    """How the page stands with the server: `resting` while nobody looks, `reading`, `live`, `slow` or `away`, since when, and why."""

    kind: str
    since: datetime
    why: str = ""


class Model:
    """All of it. It is changed by the watcher alone, between two waits, so whoever reads it sees one state."""

    def __init__(self) -> None:
        self.link = Link("resting", now())
        self.as_of: datetime | None = None
        self.claims: list[Claim] = []
        self.since: dict[str, Since] = {}
        self.places: dict[str, Place] = {}
        self.versions: OrderedDict[tuple[str, int], Version] = OrderedDict()
        self.read = 0
        self.read_bytes = 0
        # The real names of projects and assemblies, where they have others than their places.
        self.names: dict[str, str] = {}
        # It counts what changed of places and their names, and what was worked out of them for pages is kept.
        self.shape = 0
        self.trees: OrderedDict[str, Any] = OrderedDict()
        self.news: deque[News] = deque(maxlen=KEPT_NEWS)

    def forget(self) -> None:
        """Forgets all but the queue. When a claim in it came isn't known any more."""
        self.places.clear()
        self.versions.clear()
        self.names.clear()
        self.trees.clear()
        self.shape += 1
        self.read = self.read_bytes = 0
        self.since = {claim.name: Since(now(), False) for claim in self.claims}

    def add(self, path: str) -> Place:
        """Adds a place that wasn't known. Its depth says whether it is a part, no part, or possibly either."""
        names = depth(path)
        self.shape += 1
        self.places[path] = place = Place(path, False if names < PART_NAMES else True if names == MAX_NAMES else None)
        return place

    def keep(self, path: str, version: Version, size: int) -> None:
        """Keeps what a version says. The oldest that nobody asked for since are dropped."""
        if (path, version.number) not in self.versions:
            self.read += 1
            self.read_bytes += size
        self.versions[path, version.number] = version
        self.versions.move_to_end((path, version.number))
        if len(self.versions) > KEPT_VERSIONS:
            self.versions.popitem(last=False)
        place = self.places.get(path)
        if place is not None and version.number == place.versions:
            place.latest = version
            self.shape += 1
            if named_by(path):
                self._take_name(named_by(path), version.names)

    def _take_name(self, path: str, name: str) -> None:
        """Takes the real name of a project or an assembly in."""
        if name and name != self.names.get(path) and self.link.kind == "live":
            self.tell("", f"is called {name}", path)
        self.names[path] = name
        if not name:
            del self.names[path]

    def is_hidden(self, path: str) -> bool:
        """Whether a place is there for the real name of another one alone: what keeps that, or is to keep it, and the assembly around it."""
        if not path.endswith(OWN_NAME) or not is_of_names(path):
            return False
        place = self.places.get(path)
        if place is not None and not named_by(path):
            return all(map(self.is_hidden, place.children))
        return place is None or place.latest is None or bool(place.latest.names)

    def place(self, path: str) -> Place:
        """A place, also one that isn't known any more."""
        return self.places.get(path) or Place(path, None)

    def title(self, path: str) -> str:
        """The real name of a place, as far as it has another one."""
        place = self.places.get(path)
        return place.latest.card.name if place and place.latest and place.latest.card else self.names.get(path, "")

    def beneath(self, path: str) -> list[str]:
        """The places right beneath one that are there for themselves."""
        place = self.places.get(path)
        return [child for child in place.children if not self.is_hidden(child)] if place else []

    def tell(self, owner: str, does: str, place: str = "") -> None:
        """Notes something that changed."""
        self.news.appendleft(News(now(), owner, does, place))

    def walk(self, path: str) -> Iterator[Place]:
        """The places at and beneath one that are there for themselves, each before those beneath it."""
        waiting = [path]
        while waiting:
            place = self.places.get(waiting.pop())
            if place is not None:
                yield place
                waiting.extend(reversed(self.beneath(place.path)))

    def owners(self) -> list[str]:
        """The designers who have claims, by name."""
        return sorted({claim.owner for claim in self.claims})
