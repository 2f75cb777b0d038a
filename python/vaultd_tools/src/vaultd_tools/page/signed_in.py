"""What the web server in front hands on for designers who are signed in: they read as anybody does, act as themselves, put files and take
them away. It comes by a socket of its own, which nobody else reaches."""

from __future__ import annotations

import asyncio
import contextlib
import secrets
from collections import Counter, OrderedDict
from collections.abc import Awaitable, Callable, Iterator
from urllib.parse import parse_qsl

from aiohttp import web

from vault.errors import UnreachableError, VaultError
from vault.protocol.grammar import PLACE
from vaultd_tools.page.acting import ACTS, GLANCE_SECONDS, Acting, Designer, drafts_of
from vaultd_tools.page.doors import HEADERS, NOT_KEPT, TAKE_SECONDS, Door, Refusal
from vaultd_tools.page.downloads import Download, version_of, zip_of
from vaultd_tools.page.identity import Identity, own_page_alone
from vaultd_tools.page.incoming import FORM_SECONDS, Upload
from vaultd_tools.page.mine import MINE, NOBODY, Told, Visitor
from vaultd_tools.page.views import view_at
from vaultd_tools.page.web import Page, fields_in

FORM_BYTES = 16384
FIELDS = 16
AT_ONCE = 4
UPLOADS_AT_ONCE = 32
TOLD_KEPT = 1024
TWICE_SECONDS = 5.0
UPLOAD, FILE, ZIP = "/.act/upload", "/.file", "/.zip"
KEPT_BY_BROWSER = {**HEADERS, "Content-Security-Policy": "default-src 'none'; sandbox", "Content-Type": "application/octet-stream",
                   "Cache-Control": NOT_KEPT}


class SignedIn:
    """The page for designers who are signed in."""

    def __init__(self, page: Page, acting: Acting, identity: Identity, most_bytes: int):
        self.page, self.acting, self.identity, self.most_bytes = page, acting, identity, most_bytes
        # Whose uploads are under way, and how many bytes each has.
        self.uploading: dict[str, int] = {}
        self.downloading: Counter[str] = Counter()
        # What acts came to, by numbers that pages are asked with right after them.
        self.told: OrderedDict[tuple[str, str], Told] = OrderedDict()
        # The forms that were sent last, when, and what becomes of them.
        self.sent: OrderedDict[tuple[object, ...], tuple[float, asyncio.Future[Told]]] = OrderedDict()

    async def answer(self, request: web.BaseRequest) -> web.StreamResponse:
        """Answers any request."""
        assert isinstance(request.protocol, Door)
        request.protocol.begin_answer()
        visitor = NOBODY
        try:
            host = self.page.look_at(request)
            name = self.identity.designer_of(request.headers)
            path, _, query = request.raw_path.partition("?")
            visitor = Visitor(name, self.identity.token(name), self._told(name, query), self.most_bytes)
            if request.method == "POST":
                response = await self._act(request, path, name, host)
            elif path.startswith("/.act/"):
                raise Refusal(405, "Something is only done by a form of the page.", Allow="POST")
            elif path.startswith((FILE + "/", ZIP + "/")):
                return await self._hand_out(request, path, fields_in(query), name)
            else:
                await self._learn_drafts(path, name)
                return await self.page.answer_to(request, visitor)
        except Refusal as refusal:
            response = self.page.refuse(request, refusal, visitor)
        return await self.page.send(request, response)

    def _told(self, name: str, query: str) -> Told | None:
        return self.told.get((name, fields_in(query).get("told", "")))

    async def _learn_drafts(self, path: str, name: str) -> None:
        """Asks of which parts there are drafts, for a page that shows that. Where the vault is away the page shows what was known."""
        if path != MINE and not path.startswith("/.claim/"):
            return
        await self.page.watcher.fresh()
        if self.page.watcher.model.link.kind != "live":
            return
        claims = [claim.name for claim in self.page.watcher.model.claims if claim.owner == name and claim.name[0] == "c"]
        with contextlib.suppress(VaultError):
            drafts = self.page.source.drafts
            drafts[name] = await self.acting.perform(name, lambda client: drafts_of(client, claims), GLANCE_SECONDS) if claims else {}

    # Acts

    async def _act(self, request: web.BaseRequest, path: str, name: str, host: str) -> web.Response:
        """Does what a form asks for, and leads back to where it stood."""
        own_page_alone(request.headers, host)
        if path == UPLOAD:
            return await self._upload(request, name)
        act = ACTS.get(path[len("/.act/"):]) if path.startswith("/.act/") else None
        if act is None:
            raise Refusal(404, "The page has no such form.")
        form = await self._form(request)
        self._look_at_token(form.get("token", ""), name)
        done = act
        sent = (name, path, *sorted(form.items()))
        told = await self._once(sent, lambda: self.acting.perform(name, lambda client: done(self.acting, client, form)))
        return self._lead_back(name, form.get("back", ""), told)

    async def _once(self, form: tuple[object, ...], act: Callable[[], Awaitable[str]]) -> Told:
        """What an act comes to. A form that is sent twice, as by a double click, is one: each page's forms have a token of their own."""
        loop = asyncio.get_running_loop()
        begun, outcome = self.sent.get(form, (0.0, None))
        if outcome is None or outcome.done() and loop.time() - begun > TWICE_SECONDS:
            outcome = asyncio.ensure_future(self._outcome(act()))
            self.sent[form] = loop.time(), outcome
            while len(self.sent) > TOLD_KEPT:
                self.sent.popitem(last=False)
        return await asyncio.shield(outcome)

    async def _form(self, request: web.BaseRequest) -> dict[str, str]:
        """The fields of a small form."""
        if request.content_type != "application/x-www-form-urlencoded":
            raise Refusal(415, "A form of the page comes in another form.")
        try:
            async with asyncio.timeout(FORM_SECONDS):
                body = await request.content.read(FORM_BYTES + 1)
                while not request.content.at_eof() and len(body) <= FORM_BYTES:
                    body += await request.content.read(FORM_BYTES + 1)
        except TimeoutError as error:
            raise Refusal(408, "The form took too long. Nothing was done.") from error
        if len(body) > FORM_BYTES:
            raise Refusal(413, "The form is too long. Nothing was done.")
        try:
            return dict(parse_qsl(body.decode("utf-8"), keep_blank_values=True, max_num_fields=FIELDS, errors="strict"))
        except ValueError as error:
            raise Refusal(400, "This is no form of the page. Nothing was done.") from error

    def _look_at_token(self, token: str, name: str) -> None:
        if not self.identity.is_token(token, name):
            raise Refusal(403, "This form is too old, or isn't yours, and nothing was done. Go back, load the page again, and try once more.")

    async def _outcome(self, act: Awaitable[str]) -> Told:
        """What an act came to, in the words of the client."""
        try:
            told = Told(await act, True)
        except VaultError as error:
            told = Told(str(error), False)
        await self.page.watcher.caught_up()
        return told

    def _lead_back(self, name: str, back: str, told: Told) -> web.Response:
        number = secrets.token_hex(6)
        self.told[name, number] = told
        while len(self.told) > TOLD_KEPT:
            self.told.popitem(last=False)
        own = back == MINE or view_at(back, {}) is not None
        return web.Response(status=303, headers={**HEADERS, "Cache-Control": NOT_KEPT, "Location": f"{back if own else MINE}?told={number}"})

    # Files that are put

    async def _upload(self, request: web.BaseRequest, name: str) -> web.Response:
        """Takes files in, one upload of a designer at a time."""
        if request.content_type != "multipart/form-data":
            raise Refusal(415, "A form of the page comes in another form.")
        length = request.content_length
        if length is not None and length > self.most_bytes + FORM_BYTES:
            raise Refusal(413, f"The page takes at most {self.most_bytes:,} bytes at once (--most-bytes). Nothing was put.")
        if name in self.uploading:
            raise Refusal(429, "Another upload of yours is under way. Wait until it is through; nothing was put.")
        if len(self.uploading) >= UPLOADS_AT_ONCE:
            raise Refusal(503, f"{UPLOADS_AT_ONCE} designers put files at this moment. Try again in a minute; nothing was put.",
                          **{"Retry-After": "60"})
        self.uploading[name] = length or 0
        try:
            upload = Upload(self.acting, name, self.most_bytes, sum(self.uploading.values()), self._look_at_token)
            told = await upload.take(await request.multipart())
        except ValueError as error:
            raise Refusal(400, "This is no form of the page. Nothing was put.") from error
        finally:
            del self.uploading[name]
        await self.page.watcher.caught_up()
        return self._lead_back(name, upload.fields.get("back", ""), told)

    # Files that are taken away

    async def _hand_out(self, request: web.BaseRequest, path: str, query: dict[str, str], name: str) -> web.StreamResponse:
        """Sends a version of a part, or a zip."""
        if request.method not in ("GET", "HEAD"):
            raise Refusal(405, "This can only be read.", Allow="GET, HEAD")
        begins = FILE if path.startswith(FILE + "/") else ZIP
        place, version = path[len(begins):], query.get("version", "")
        if PLACE.fullmatch(place) is None or version and not (version.isascii() and version.isdigit() and len(version) < 6):
            raise Refusal(404, "There is no such file.")
        if self.downloading[name] >= AT_ONCE:
            raise Refusal(429, f"{AT_ONCE} downloads of yours are under way. Wait until one is through.")
        self.downloading[name] += 1
        try:
            made: Callable[[Designer], Download] = (lambda client: version_of(self.acting, client, place, int(version) if version else None)) if (
                begins == FILE) else (lambda client: zip_of(self.acting, client, place))
            download = await self.acting.perform(name, made)
            return await self._pour(request, download)
        except VaultError as error:
            raise Refusal(503 if isinstance(error, UnreachableError) else 404, str(error)) from error
        finally:
            self.downloading[name] -= 1

    async def _pour(self, request: web.BaseRequest, download: Download) -> web.StreamResponse:
        """Sends bytes as somebody takes them. Where they aren't what was put, the connection ends before the last of them."""
        response = web.StreamResponse(headers={**KEPT_BY_BROWSER, "Content-Disposition": download.disposition})
        response.content_length = download.size
        loop = asyncio.get_running_loop()
        try:
            await response.prepare(request)
            while request.method == "GET":
                piece = await loop.run_in_executor(self.acting.pool, next_of, download.pieces)
                if piece is None:
                    break
                async with asyncio.timeout(TAKE_SECONDS):
                    await response.write(piece)
            await response.write_eof()
        except (ConnectionError, TimeoutError, VaultError):
            if request.transport is not None:
                request.transport.abort()
        return response


def next_of(pieces: Iterator[bytes]) -> bytes | None:
    """The next piece, if there is one; not all have bytes."""
    return next(pieces, None)
