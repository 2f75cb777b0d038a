"""Turns what is known of a vault into HTML, by the templates: for the live page in pieces, which are sent again when they change, and for
the board as one file."""

from __future__ import annotations

import functools
import hashlib
import re
import unicodedata
import zlib
from collections.abc import Iterable
from dataclasses import dataclass, field
from datetime import datetime, timezone
from importlib import resources
from typing import Any

from jinja2 import Environment, PackageLoader, StrictUndefined
from markupsafe import Markup

from vault.files.text import shown
from vault.protocol.grammar import under
from vault.store.card import TIME
from vaultd_tools.page.rows import BlockerRow, ClaimRow

HUES = 24
ROWS_KEPT = 8192
RINGS_KEPT = 64
MARKS = 3
STATIC = {"page.css": "text/css", "page.js": "text/javascript", "stream.js": "text/javascript", "icon.svg": "image/svg+xml"}
APART = "/~"
TAKEN = "designers"
UNITS = ("bytes", "kB", "MB", "GB", "TB", "PB")


def address(path: str) -> str:
    """Where the page of a place is: at its own path, but for a project whose name the page needs itself."""
    return APART + path if path.split("/")[1] == TAKEN else path


def hue(name: str) -> str:
    """The class of a designer's colour, which is the same everywhere and always."""
    return f"h{zlib.crc32(name.encode('utf-8')) % HUES}"


def initials(name: str) -> str:
    """The letters in a designer's face: the first ones of the first two words of the name, or of its only word."""
    words = [word for word in re.split(r"[_-]+", name) if word]
    return words[0][0] + words[1][0] if len(words) > 1 else (words[0] if words else name)[:2]


def covering(rows: Iterable[ClaimRow], path: str) -> list[str]:
    """The check-outs of these that are held and take in a place for change."""
    return [row.name for row in rows if row.held and row.name[0] == "c" and any(one.change and under(path, one.path) for one in row.items)]


def number(count: int) -> str:
    """A number as people read it."""
    return f"{count:,}"


def in_bytes(count: int) -> str:
    """A number of bytes as people read it."""
    value, unit = float(count), 0
    while value >= 999.5 and unit < len(UNITS) - 1:
        value, unit = value / 1000, unit + 1
    return f"{count} {'byte' if count == 1 else 'bytes'}" if unit == 0 else f"{value:.3g} {UNITS[unit]}"


def time_of(text: str) -> datetime:
    """The time that a card says."""
    return datetime.strptime(text, TIME).replace(tzinfo=timezone.utc)


def spelled(text: str) -> str:
    """A stranger's text as it is shown: only a few combining marks on a letter, since many would reach over what is around them."""
    marks, letters = 0, []
    for letter in shown(text):
        marks = marks + 1 if unicodedata.category(letter) in ("Mn", "Me") else 0
        letters.append(letter if marks <= MARKS else "" if marks > MARKS + 1 else "\N{HORIZONTAL ELLIPSIS}")
    return "".join(letters)


def static(name: str) -> str:
    """A file that a page needs beside itself."""
    return resources.files("vaultd_tools.page").joinpath("templates", name).read_text("utf-8")


@dataclass
class Pieces:
    """A page in pieces by their ids: texts that are replaced, lists whose items have keys, and branches of the tree, which only
    grow."""

    texts: dict[str, str] = field(default_factory=dict)
    lists: dict[str, dict[str, str]] = field(default_factory=dict)
    branches: dict[str, tuple[str, ...]] = field(default_factory=dict)
    tree: Any = None


class Renderer:
    """The templates, with links between pages or without."""

    def __init__(self, links: bool):
        self.environment = Environment(loader=PackageLoader("vaultd_tools.page", "templates"), autoescape=True, undefined=StrictUndefined,
                                       trim_blocks=True, lstrip_blocks=True, auto_reload=False)
        self.environment.globals.update(links=links, style=Markup(static("page.css")), fingerprint=fingerprint())
        self.environment.tests["match_checkout"] = lambda name: name[0] == "c"
        self.environment.filters.update(covering=covering)
        self.environment.filters.update(address=address, hue=hue, initials=initials, shown=spelled, number=number, bytes=in_bytes, time=time_of)
        self.parts: Any = self.environment.get_template("parts.html").module
        self.row = functools.lru_cache(ROWS_KEPT)(lambda row: self._tidy(self.parts.row(row)))
        self.leaf = functools.lru_cache(ROWS_KEPT)(lambda row: self._tidy(self.parts.leaf(row, self.row(row))))
        self.claim_item = functools.lru_cache(ROWS_KEPT)(lambda row: self._tidy(self.parts.claim_item(row)))
        self.rings = functools.lru_cache(RINGS_KEPT)(lambda rings: self._tidy(self.parts.rings(rings)))
        self.blocker = functools.lru_cache(ROWS_KEPT)(lambda row: self._tidy(self.parts.blocker(row)))

    def prepare(self) -> None:
        """Reads all templates, so that the first page is as quick as others, and those of a later version don't come under this program."""
        for name in self.environment.list_templates(extensions=["html"]):
            self.environment.get_template(name)

    def page(self, template: str, **words: Any) -> str:
        """A whole page."""
        usual: dict[str, Any] = {"visitor": None, "mine": [], "live": False, "again": 0, "see": "", "asked": "", "texts": {}, "lists": {}}
        return self.environment.get_template(template).render(**{**usual, **words})

    def piece(self, macro: str, *words: Any) -> Markup:
        """One piece."""
        return self._tidy(getattr(self.parts, macro)(*words))

    def claims(self, rows: Iterable[ClaimRow]) -> dict[str, str]:
        """The items of a list of claims."""
        return {row.name: self.claim_item(row) for row in rows}

    def blockers(self, rows: Iterable[BlockerRow]) -> dict[str, str]:
        """The items of a list of claims that others wait for."""
        return {row.claim.name: self.blocker(row) for row in rows}

    @staticmethod
    def _tidy(html: Markup) -> Markup:
        return Markup(html.strip())


@functools.lru_cache(1)
def fingerprint() -> str:
    """What tells one edition of the files beside the page from another."""
    return hashlib.sha256("".join(map(static, STATIC)).encode("utf-8")).hexdigest()[:12]
