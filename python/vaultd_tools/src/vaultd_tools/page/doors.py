"""The connections of browsers: bounded in number and in what they send, and ended where nothing comes or nothing is taken."""

from __future__ import annotations

import asyncio
import socket
from collections.abc import Callable
from typing import Any

from aiohttp import web

MAX_CONNECTIONS = 1024
MAX_PIPELINED = 16
MAX_UNANSWERED = 65536
TAKE_SECONDS = 20.0
FIRST_SECONDS = 15.0
HEADERS = {
    "Content-Security-Policy": "default-src 'none'; script-src 'self'; style-src 'self'; img-src 'self'; connect-src 'self'; form-action 'self';"
                               " base-uri 'none'; frame-ancestors 'none'",
    "X-Content-Type-Options": "nosniff",
    "X-Frame-Options": "DENY",
    "Referrer-Policy": "same-origin",
    "Cross-Origin-Resource-Policy": "same-origin",
    "Cross-Origin-Opener-Policy": "same-origin",
    "Server": "vaultd-page",
}
NOT_KEPT, KEPT = "no-store", "public, max-age=31536000, immutable"


class Refusal(Exception):
    """A request that is refused, with why."""

    def __init__(self, status: int, words: str, **headers: str):
        super().__init__(words)
        self.status, self.words, self.headers = status, words, headers


class Door(web.RequestHandler):
    """A connection of a browser. One that says nothing for long, or too much at once, is ended."""

    def __init__(self, manager: Doors, **words: Any):
        super().__init__(manager, **words)
        self.doors = manager
        self.unanswered = 0
        self.on_lost: Callable[[], None] = lambda: None

    def connection_made(self, transport: asyncio.BaseTransport) -> None:
        """Takes a connection, if there is room for one more."""
        if len(self.doors.connections) >= MAX_CONNECTIONS and isinstance(transport, asyncio.Transport):
            transport.abort()
            return
        super().connection_made(transport)
        end = transport.get_extra_info("socket")
        if end is not None and end.family != socket.AF_UNIX and hasattr(socket, "TCP_USER_TIMEOUT"):
            end.setsockopt(socket.IPPROTO_TCP, socket.TCP_USER_TIMEOUT, int(TAKE_SECONDS * 1000))
        self._loop.call_later(FIRST_SECONDS, self._end_where_silent)

    def _end_where_silent(self) -> None:
        if self._request_count == 0:
            self.force_close()

    def data_received(self, data: bytes) -> None:
        """Takes bytes. Only a few requests, and few bytes, may wait behind others. What comes behind a request for another protocol is never
        read: such a request is refused, and ends the connection."""
        self.unanswered += len(data)
        if self.unanswered > MAX_UNANSWERED:
            self.force_close()
            return
        super().data_received(data)
        self._message_tail = b""
        if len(self._messages) > MAX_PIPELINED:
            self.force_close()

    def begin_answer(self) -> None:
        """Its first request is answered from now on. Where none waits behind that, bytes are counted anew."""
        if not self._messages:
            self.unanswered = 0

    def connection_lost(self, error: BaseException | None) -> None:
        """The browser is gone."""
        self.on_lost()
        super().connection_lost(error)

    def handle_error(self, request: web.BaseRequest, status: int = 500, exc: BaseException | None = None,
                     message: str | None = None) -> web.StreamResponse:
        """Answers what is no request, or what went wrong here, with nothing of either in it."""
        if status == 500:
            self.log_exception("A request was answered 500", exc_info=exc)
        response = web.Response(status=status, text="This is no request that the page understands.\n" if status < 500 else
                                "The page failed. Its log says how.\n", headers={**HEADERS, "Cache-Control": NOT_KEPT})
        response.force_close()
        return response


class SignedInDoor(Door):
    """A connection of the web server in front, which hands on what designers send. A request's body waits where nobody reads it."""

    def data_received(self, data: bytes) -> None:
        """Takes bytes."""
        web.RequestHandler.data_received(self, data)
        self._message_tail = b""


class Doors(web.Server):
    """The connections of browsers."""

    door = Door

    def __call__(self) -> Door:
        """A new one."""
        return self.door(self, loop=self._loop, **self._kwargs)


class SignedInDoors(Doors):
    """The connections of the web server in front."""

    door = SignedInDoor
