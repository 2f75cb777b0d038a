"""The streams of changes to open pages: what each page was sent last, and what of that is different now."""

from __future__ import annotations

import asyncio
import contextlib
import json
from collections import deque
from collections.abc import Callable
from typing import Any

from vaultd_tools.page.render import Pieces
from vaultd_tools.page.view import Source, View

MAX_WAITING = 32
BEAT_SECONDS = 10.0


class Stream:
    """What is still to be sent to an open page."""

    def __init__(self) -> None:
        self.messages: deque[bytes] = deque()
        self.wake = asyncio.Event()
        self.over = False

    def push(self, message: bytes) -> None:
        """Queues something for the page. A page that takes nothing is dropped."""
        self.messages.append(message)
        if len(self.messages) > MAX_WAITING:
            self.end()
        self.wake.set()

    def end(self) -> None:
        """Sends it no more."""
        self.over = True
        self.wake.set()

    async def next(self) -> bytes:
        """What is to be sent next, or that there is nothing."""
        if not self.messages and not self.over:
            self.wake.clear()
            with contextlib.suppress(TimeoutError):
                async with asyncio.timeout(BEAT_SECONDS):
                    await self.wake.wait()
        return self.messages.popleft() if self.messages else BEAT


class Channel:
    """All streams of one page, and what they were sent last."""

    def __init__(self, view: View, source: Source, revision: int):
        self.view, self.source, self.changed_at = view, source, revision
        self.pieces = view.pieces(source)
        self.streams: set[Stream] = set()

    def update(self, revision: int, sentences: list[str]) -> None:
        """Sends all of them what is different now."""
        old, self.pieces = self.pieces, self.view.pieces(self.source)
        changed = difference(old, self.pieces, lambda path: self.view.branch(self.source, path))
        if changed == {}:
            return
        self.changed_at = revision
        see = self.view.address
        message = again(see) if changed is None else event({"see": see, **changed, "revision": revision, "say": sentences})
        for stream in list(self.streams):
            stream.push(message)

    def end(self) -> None:
        """Ends all of them. A browser reads the page again then."""
        for stream in self.streams:
            stream.end()


def event(words: dict[str, Any]) -> bytes:
    """A message of a stream."""
    return b"data: " + json.dumps(words, separators=(",", ":")).encode("ascii") + b"\n\n"


def again(see: str) -> bytes:
    """The message that a page has to be read as a whole again."""
    return b"event: again\n" + event({"see": see})


BEAT = b"event: beat\ndata: \n\n"


def difference(old: Pieces, new: Pieces, branch: Callable[[str], str]) -> dict[str, Any] | None:
    """What an open page must replace; nothing if it is right, or None if it must be read as a whole again."""
    if old.lists.keys() != new.lists.keys() or any(
            path not in new.branches or new.branches[path][:len(children)] != children for path, children in old.branches.items()):
        return None
    if old.texts.keys() - new.texts.keys() or {name for name in new.texts.keys() - old.texts.keys() if not name.startswith("row:")}:
        return None
    changed: dict[str, Any] = {}
    texts = {name: html for name, html in new.texts.items() if name in old.texts and old.texts[name] != html}
    if texts.keys() - {"pill"}:
        changed["texts"] = texts
    lists = {name: {"order": list(items), "items": {key: html for key, html in items.items() if old.lists[name].get(key) != html}}
             for name, items in new.lists.items() if list(old.lists[name].items()) != list(items.items())}
    if lists:
        changed["lists"] = lists
    added = [["under:" + path, branch(child)] for path, children in new.branches.items() if path in old.branches
             for child in children[len(old.branches[path]):]]
    if added:
        changed["added"] = added
    return changed
