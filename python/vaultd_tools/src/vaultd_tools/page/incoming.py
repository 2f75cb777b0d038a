"""An upload as a browser sends it: the fields of its form, and then files, each of which is taken in as it comes."""

from __future__ import annotations

import asyncio
import contextlib
from collections.abc import AsyncIterator, Callable

from aiohttp import BodyPartReader, MultipartReader, web

from vault.errors import MisusedError, VaultError
from vault.files.ignoring import IGNORE_FILE
from vault.protocol.grammar import PLACE
from vault.store.card import name_word
from vaultd_tools.page.acting import Acting, Designer
from vaultd_tools.page.doors import TAKE_SECONDS
from vaultd_tools.page.folders import IGNORED, LeftOutError, Rules, path_of
from vaultd_tools.page.mine import Told
from vaultd_tools.page.uploads import Broken, Coming, File, Taken, Target, check_room, file_name, received, target_of

FIELDS = 16
FIELD_BYTES = 4096
FORM_SECONDS = 20.0
# How long an upload that was refused is still listened to, so that its browser gets the answer.
PASS_SECONDS = 20.0
PIECE = 1 << 18
RULES_BYTES = 1 << 16
NAMED = 3


class Upload:
    """One upload of a designer, and what became of its files. `room` is how many bytes all uploads under way have."""

    def __init__(self, acting: Acting, name: str, most_bytes: int, room: int, look_at_token: Callable[[str, str], None]):
        self.acting, self.name, self.most_bytes, self.room, self.look_at_token = acting, name, most_bytes, room, look_at_token
        self.fields: dict[str, str] = {}
        self.target: Target | None = None
        self.taken: list[tuple[str, Taken]] = []
        self.left: list[tuple[str, str]] = []
        self.rules, self.size = Rules(), 0

    async def take(self, reader: MultipartReader) -> Told:
        """Takes each file in. The fields of the form come first."""
        try:
            async for part in parts_of(reader):
                if part.filename:
                    await self._take_in(part)
                else:
                    self.fields[part.name or ""] = (await bytes_of(part, FIELD_BYTES)).decode("utf-8")
        except VaultError as error:
            await passed_over(reader)
            return Told(" ".join([*self._sentences(), str(error)]), False)
        self.look_at_token(self.fields.get("token", ""), self.name)
        return Told(" ".join(self._sentences()) or "No file was chosen, so nothing was put.", bool(self.taken))

    async def _take_in(self, part: BodyPartReader) -> None:
        """Takes one file in, or leaves it out with the reason, where it is one of a folder."""
        if self.target is None:
            self.look_at_token(self.fields.get("token", ""), self.name)
            self.target = await self._look()
        sent = part.filename or ""
        try:
            file = await self._file_at(sent, part)
            if file is not None:
                self.taken.append((sent, await self._take(self.target, part, file)))
        except LeftOutError as reason:
            self.left.append((sent.partition("/")[2], str(reason)))

    async def _file_at(self, sent: str, part: BodyPartReader) -> File | None:
        """The file that a browser's name for it leads to; nothing where it only says what is left out."""
        assert self.target is not None
        if "folder" not in self.fields:
            return File((), file_name(sent))
        names = path_of(sent)
        if names == [IGNORE_FILE]:
            try:
                self.rules.take(await bytes_of(part, RULES_BYTES))
            except ValueError as error:
                raise MisusedError(f"The folder's {IGNORE_FILE} has more than {RULES_BYTES:,} bytes.") from error
            return None
        self.rules.look_at(names)
        self.target.there.look_at(names[:-1])
        return File(tuple(names[:-1]), name_word(names[-1]))

    async def _look(self) -> Target:
        claim, place = self.fields.get("claim", ""), self.fields.get("place", "")
        if PLACE.fullmatch(place) is None:
            raise MisusedError(f"`{place}` is no place.")

        def look(client: Designer) -> Target:
            target = target_of(client, self.acting.parts(client).store, claim, place, "folder" in self.fields)
            check_room(target.store, self.room, self.acting.spool)
            return target
        return await self.acting.perform(self.name, look)

    async def _take(self, target: Target, part: BodyPartReader, file: File) -> Taken:
        """Takes one file in. If its bytes end before they should, nothing is left of it."""
        coming = Coming(self.most_bytes - self.size)
        taking = asyncio.ensure_future(self.acting.beside(self.name, lambda client: received(client, target, coming, file, self.acting.spool)))
        try:
            while not taking.done():
                async with asyncio.timeout(TAKE_SECONDS):
                    piece = await part.read_chunk(PIECE)
                await coming.feed(bytes(piece))
                if not piece:
                    break
        except BaseException as error:
            with contextlib.suppress(VaultError):
                await coming.feed(None)
            with contextlib.suppress(VaultError):
                await taking
            if isinstance(error, (OSError, TimeoutError, web.HTTPException)):
                raise Broken("The upload was broken off, and nothing was put of what came last.") from error
            raise
        finally:
            self.size += coming.size
        return await taking

    def _sentences(self) -> list[str]:
        """What became of the files so far."""
        claim = self.fields.get("claim", "")
        drafts = list(dict.fromkeys(one.part for _, one in self.taken if one.draft))
        same = [one.part for _, one in self.taken if not one.draft and one.part not in drafts]
        made = self.target.there.made if self.target else []
        renamed = [one for sent, one in self.taken if self.target and self.target.part and one.name != sent.replace("\\", "/").rpartition("/")[2]]
        return [*([f"{listed(drafts)} {'is a draft' if len(drafts) == 1 else 'are drafts'} in {claim}."] if drafts else []),
                *([f"Made {'an assembly' if len(made) == 1 else f'{len(made)} assemblies'}: {listed(made)}."] if made else []),
                *([f"Its file is called {renamed[0].name} still."] if renamed else []),
                *([f"{listed(same)} {'is' if len(same) == 1 else 'are'} as before, so nothing was put there."] if same else []),
                *([f"Left out: {listed([f'{path} ({reason})' for path, reason in sorted(self.left, key=is_ignored)])}."] if self.left else [])]


def is_ignored(left: tuple[str, str]) -> bool:
    """Whether a file was left out as it was meant to be."""
    return left[1] == IGNORED


def listed(words: list[str]) -> str:
    """Some of them, and how many more there are."""
    return ", ".join(words[:NAMED]) + (f" and {len(words) - NAMED} more" if len(words) > NAMED else "")


async def parts_of(reader: MultipartReader) -> AsyncIterator[BodyPartReader]:
    """The parts of a form, of which none has parts of its own."""
    count = 0
    while (part := await reader.next()) is not None:
        count += 1
        if not isinstance(part, BodyPartReader) or not part.filename and count > FIELDS:
            raise ValueError("a form in a form")
        yield part


async def passed_over(reader: MultipartReader) -> None:
    """Reads on to the end, where that comes soon: who still sends takes no answer."""
    with contextlib.suppress(TimeoutError, OSError, ValueError, web.HTTPException):
        async with asyncio.timeout(PASS_SECONDS):
            while await reader.next() is not None:
                pass


async def bytes_of(part: BodyPartReader, most: int) -> bytes:
    """The bytes of a short part."""
    async with asyncio.timeout(FORM_SECONDS):
        text = bytearray()
        while piece := await part.read_chunk(most):
            text += piece
            if len(text) > most:
                raise ValueError("a long field")
    return bytes(text)
