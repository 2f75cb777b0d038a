"""Hands the page out by HTTP, and sends changes to open pages as they are seen. No request changes anything.

Whoever can reach it isn't trusted: host names are checked, streams and connections are bounded, and who takes nothing is dropped.
"""

from __future__ import annotations

import asyncio
import contextlib
import gzip
import re
import secrets
from collections.abc import Iterable, Iterator, Sequence
from pathlib import Path
from typing import Any
from urllib.parse import parse_qsl

from aiohttp import web

from vaultd_tools.page.doors import HEADERS, KEPT, NOT_KEPT, TAKE_SECONDS, Door, Refusal
from vaultd_tools.page.mine import MINE, NOBODY, MineView, Visitor
from vaultd_tools.page.model import News
from vaultd_tools.page.render import STATIC, Renderer, fingerprint, static
from vaultd_tools.page.streams import BEAT, Channel, Stream, again
from vaultd_tools.page.tables import KINDS, table_of
from vaultd_tools.page.timeline import Timeline
from vaultd_tools.page.times import Times
from vaultd_tools.page.tree import Tree
from vaultd_tools.page.view import Source, View
from vaultd_tools.page.views import view_at
from vaultd_tools.page.watch import Watcher, is_place

MAX_STREAMS = 256
MAX_SEEN = 24
MAX_FIELDS = 16
PREPARE_SECONDS = 3.0
AGAIN_SECONDS = 10
SENTENCES = 4
SMALL_BYTES = 1000
HOST = re.compile(r"([a-z0-9._-]{1,255}|\[[0-9a-f:.]{2,45}\])(:[0-9]{1,5})?")


def fields_in(query: str) -> dict[str, str]:
    """The fields of an address."""
    return dict(pairs_in(query, MAX_FIELDS))


def pairs_in(query: str, most: int) -> list[tuple[str, str]]:
    """The fields of an address in their order, at most so many."""
    try:
        return parse_qsl(query, keep_blank_values=True, max_num_fields=most, errors="replace")
    except ValueError as error:
        raise Refusal(400, "This asks for too much at once.") from error


class Page:
    """The page of one vault."""

    def __init__(self, host: str, port: int, designer: str, hosts: Iterable[str], title: str, most_streams: int = MAX_STREAMS,
                 times: Times | None = None, logs: Sequence[Path] = ()):
        server = f"[{host}]:{port}" if ":" in host else f"{host}:{port}"
        self.watcher = Watcher(host, port, designer, self.publish, self.wanted, times, Timeline(f"{host}:{port}", logs))
        self.source = Source(Renderer(links=True), self.watcher.model, server, title, timeline=self.watcher.timeline)
        self.source.renderer.prepare()
        self.hosts = frozenset(name.lower() for name in hosts)
        self.most_streams = most_streams
        self.run_name, self.revision = secrets.token_hex(8), 1
        self.channels: dict[View, Channel] = {}
        self.static = {name: static(name).encode("utf-8") for name in STATIC}
        self.zipped = {name: gzip.compress(content) for name, content in self.static.items()}
        self.told: News | None = None

    # What is seen is sent

    def publish(self) -> None:
        """Sends all open pages what changed."""
        self.revision += 1
        sentences = self._sentences()
        for view, channel in list(self.channels.items()):
            if view.settled(self.watcher.model) == view:
                channel.update(self.revision, sentences)
            else:
                channel.end()

    def wanted(self) -> list[tuple[str, int]]:
        """The versions that open pages show and that aren't known."""
        return [version for view in self.channels for version in view.missing(self.watcher.model)]

    def _sentences(self) -> list[str]:
        """What is new, for those who listen to the page by a screen reader; not all of it if it is much."""
        found: list[str] = []
        for news in self.watcher.model.news:
            if news is self.told:
                break
            found.append(" ".join(word for word in (news.owner or news.place, news.does, news.place if news.owner else "") if word))
        self.told = next(iter(self.watcher.model.news), None)
        return [*found[:SENTENCES], f"and {len(found) - SENTENCES} more changes"] if len(found) > SENTENCES else found

    # What is asked

    async def answer(self, request: web.BaseRequest) -> web.StreamResponse:
        """Answers any request of a stranger, who may read and change nothing."""
        return await self.answer_to(request, NOBODY)

    async def answer_to(self, request: web.BaseRequest, visitor: Visitor) -> web.StreamResponse:
        """Answers a request to read."""
        assert isinstance(request.protocol, Door)
        request.protocol.begin_answer()
        path = ""
        try:
            path, query = self._read(request)
            if path == "/.events":
                return await self._stream(request, query, visitor)
            response = await self._response_to(path, query, visitor)
        except Refusal as refusal:
            response = self.refuse(request, refusal, visitor)
        if "gzip" in request.headers.get("Accept-Encoding", ""):
            self._zip(response, path if response.status == 200 else "")
        return await self.send(request, response)

    async def _response_to(self, path: str, query: str, visitor: Visitor) -> web.Response:
        """What is at an address."""
        if path.startswith("/.static/"):
            return self._static(path, query)
        if path == "/.branch":
            return await self._branch(fields_in(query))
        return await self._show(path, fields_in(query), visitor)

    def _zip(self, response: web.Response, path: str) -> None:
        """Makes a body shorter on its way. What repeats words of its address stays as it is: its length would tell a stranger who chooses them
        what else is on the page."""
        name, body = path[len("/.static/"):], response.body
        response.headers["Vary"] = "Accept-Encoding"
        if isinstance(body, bytes) and len(body) > SMALL_BYTES and path != "/.search":
            response.body = self.zipped[name] if name in self.zipped and path.startswith("/.static/") else gzip.compress(body, 5, mtime=0)
            response.headers["Content-Encoding"] = "gzip"

    async def send(self, request: web.BaseRequest, response: web.Response) -> web.StreamResponse:
        try:
            await response.prepare(request)
            async with asyncio.timeout(TAKE_SECONDS):
                await response.write_eof()
        except (ConnectionError, TimeoutError):
            if request.transport is not None:
                request.transport.abort()
        return response

    def _read(self, request: web.BaseRequest) -> tuple[str, str]:
        """The address that is asked for and its fields, if the request is one that is answered at all."""
        self.look_at(request)
        if request.method not in ("GET", "HEAD"):
            raise Refusal(405, "The page can only be read.", Allow="GET, HEAD")
        if "Transfer-Encoding" in request.headers or request.body_exists:
            raise Refusal(400, "The page takes nothing here.")
        path, _, query = request.raw_path.partition("?")
        if not path.startswith("/") or not request.raw_path.isascii():
            raise Refusal(400, "This is no address of the page.")
        if request.method == "HEAD" and path == "/.events":
            raise Refusal(405, "A stream can only be read.", Allow="GET")
        return path, query

    def look_at(self, request: web.BaseRequest) -> str:
        """Refuses what comes by a foreign name or from a foreign page. Answers the name by which it comes."""
        headers = request.headers
        named = [name.strip().lower() for name in headers.getall("Host", [])]
        found = HOST.fullmatch(named[0]) if len(named) == 1 else None
        if found is None or found[1] not in self.hosts:
            raise Refusal(421, "The page isn't served by this name. Whoever runs it can name it with --host.")
        if "Upgrade" in headers:
            raise Refusal(400, "The page speaks HTTP alone.")
        origin, site, mode = headers.get("Origin"), headers.get("Sec-Fetch-Site", "none"), headers.get("Sec-Fetch-Mode", "")
        if origin is not None and origin.lower() not in (f"http://{named[0]}", f"https://{named[0]}"):
            raise Refusal(403, "Another page can't read this one.")
        if site in ("cross-site", "same-site") and (mode != "navigate" or headers.get("Sec-Fetch-Dest", "document") != "document"):
            raise Refusal(403, "Another page can't read this one.")
        return named[0]

    def refuse(self, request: web.BaseRequest, refusal: Refusal, visitor: Visitor) -> web.Response:
        unknown = refusal.status == 503 and "Retry-After" not in refusal.headers
        if refusal.status == 404 or unknown:
            response = self._html("message.html", refusal.status, visitor, heading="Not known" if unknown else "Not here", words=refusal.words,
                                  title=self.source.vault, texts=self.source.common(asks=unknown).texts, again=AGAIN_SECONDS if unknown else 0)
        else:
            response = self._response(refusal.status, f"{refusal.words}\n", "text/plain", NOT_KEPT)
        response.headers.update(refusal.headers)
        if refusal.status not in (404, 503):
            response.force_close()
        return response

    def _response(self, status: int, body: str | bytes, kind: str, kept: str) -> web.Response:
        return web.Response(status=status, body=body.encode("utf-8") if isinstance(body, str) else body, content_type=kind, charset="utf-8",
                            headers={**HEADERS, "Cache-Control": kept})

    def _html(self, template: str, status: int, visitor: Visitor, **words: Any) -> web.Response:
        rows = self.source.rows()
        mine = rows.claims(claim for claim in self.watcher.model.claims if claim.owner == visitor.name) if visitor.name else []
        html = self.source.renderer.page(template, vault=self.source.vault, visitor=visitor, mine=mine,
                                         drafts=self.source.drafts.get(visitor.name, {}), **words)
        return self._response(status, html, "text/html", NOT_KEPT)

    def _static(self, path: str, query: str) -> web.Response:
        name = path[len("/.static/"):]
        if name not in self.static:
            raise Refusal(404, "There is no such file.")
        return self._response(200, self.static[name], STATIC[name], KEPT if fingerprint() in query else "no-cache")

    def _view(self, path: str, query: dict[str, str], visitor: Visitor) -> View:
        view = MineView(visitor.name) if visitor.name and path == MINE else view_at(path, query)
        if view is None and len(path) > 2 and path[-1] == "/" and view_at(path[:-1], query) is not None:
            raise Refusal(302, "A place's address has no slash at its end.", Location=path[:-1])
        if view is None:
            raise Refusal(404, "No place and no page can have this address. The address of a place is its path.")
        return view

    async def _show(self, path: str, query: dict[str, str], visitor: Visitor) -> web.Response:
        """A whole page."""
        view, model = self._view(path, query, visitor), self.watcher.model
        await self.watcher.fresh()
        with contextlib.suppress(TimeoutError):
            async with asyncio.timeout(PREPARE_SECONDS):
                await view.prepare(self.watcher)
        if not view.is_there(model):
            if not self.watcher.whole or model.link.kind == "away":
                raise Refusal(503, "The vault can't be read now, so the page doesn't know whether there is such a place.")
            raise Refusal(404, "The vault has no such place, or had none a moment ago.")
        if view.settled(model) != view:
            raise Refusal(302, "This page has another address.", Location=view.settled(model).address)
        if "as" in query:
            return self._table(view, query["as"])
        pieces = self.channels[view].pieces if view in self.channels else view.pieces(self.source)
        words = {"live": view.live, "watch": view.address, "revision": self.revision, "run": self.run_name, "lists": pieces.lists,
                 "texts": {**pieces.texts, **self.source.common(view.live).texts}, **view.words(self.source, pieces)}
        return self._html(view.template, 200, visitor, **words)

    def _table(self, view: View, kind: str) -> web.Response:
        """What a page shows, for another program."""
        table = table_of(view, self.source)
        if table is None or kind not in KINDS:
            raise Refusal(404, "This page has no such table: ?as=csv and ?as=json are behind the address of a page with a table.")
        response = self._response(200, table.spelled(kind), KINDS[kind], NOT_KEPT)
        response.headers["Content-Disposition"] = f"attachment; filename=vault.{kind}"
        return response

    async def _branch(self, query: dict[str, str]) -> web.Response:
        """What stands beneath a place, for a page that has only the place itself."""
        path = query.get("at", "")
        await self.watcher.fresh()
        if not is_place(path) or path not in self.watcher.model.places:
            raise Refusal(404, "There is no such place.")
        tree = Tree(self.source.renderer, self.watcher.model, path)
        return self._response(200, tree.beneath_of(path), "text/html", NOT_KEPT)

    async def _stream(self, request: web.BaseRequest, query: str, visitor: Visitor) -> web.StreamResponse:
        """Sends changes to the open pages of a browser until they are closed."""
        seen = self._seen(pairs_in(query, 3 * MAX_SEEN), visitor)
        if self.watcher.streams >= self.most_streams:
            raise Refusal(503, "So many pages are open that no further one can be told of changes.", **{"Retry-After": "15"})
        stream = Stream()
        assert isinstance(request.protocol, Door)
        request.protocol.on_lost = stream.end
        self.watcher.streams += 1
        try:
            await self.watcher.fresh()
            with contextlib.ExitStack() as joined:
                for view, read_at, run in seen:
                    joined.enter_context(self._joined(view.settled(self.watcher.model), stream, read_at, run))
                response = await self._pour(request, stream)
            return response
        finally:
            self.watcher.streams -= 1

    def _seen(self, pairs: list[tuple[str, str]], visitor: Visitor) -> list[tuple[View, str, str]]:
        """The pages that a stream is for, each with when it was read, and from which run of this program."""
        found: list[tuple[View, dict[str, str]]] = []
        for name, value in pairs:
            if name == "see":
                path, _, rest = value.partition("?")
                found.append((self._view(path, fields_in(rest), visitor), {}))
            elif found:
                found[-1][1][name] = value
        if not found or not all(view.live for view, _ in found):
            raise Refusal(404, "This page doesn't change.")
        return [(view, words.get("from", ""), words.get("run", "")) for view, words in found]

    @contextlib.contextmanager
    def _joined(self, view: View, stream: Stream, read_at: str, run: str) -> Iterator[None]:
        """Adds the stream to those of its page, and notes whether the page changed since it was read. What is known and not sent yet
        belongs to the next revision."""
        channel = self.channels.get(view)
        if channel is None:
            channel = self.channels[view] = Channel(view, self.source, self.revision + self.watcher.changed)
        channel.streams.add(stream)
        try:
            known = run == self.run_name and read_at.isascii() and read_at.isdigit() and len(read_at) < 16
            if not known or int(read_at) < channel.changed_at:
                stream.push(again(view.address))
            yield
        finally:
            channel.streams.discard(stream)
            if not channel.streams:
                self.channels.pop(view, None)

    async def _pour(self, request: web.BaseRequest, stream: Stream) -> web.StreamResponse:
        response = web.StreamResponse(headers={**HEADERS, "Cache-Control": NOT_KEPT, "Content-Type": "text/event-stream; charset=utf-8",
                                               "X-Accel-Buffering": "no"})
        response.force_close()
        try:
            await response.prepare(request)
            if not stream.messages:
                await response.write(BEAT)
            while not stream.over:
                message = await stream.next()
                if not stream.over:
                    async with asyncio.timeout(TAKE_SECONDS):
                        await response.write(message)
        except (ConnectionError, TimeoutError):
            pass
        if request.transport is not None:
            request.transport.abort()
        return response
