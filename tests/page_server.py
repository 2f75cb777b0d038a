"""The page's program for tests, and what asks it: single requests, and streams of changes."""

import contextlib
import json
import os
import re
import selectors
import signal
import socket
import subprocess
import time
from pathlib import Path
from typing import Any, Callable, Dict, List, Optional, Sequence, Tuple

from servers import TOP, free_port, program

START_SECONDS = 30
ANSWER_SECONDS = 20


class PageServer:
    """`vaultd-page` before a server of a vault, by the packages in this folder."""

    def __init__(self, vault_port: int, *words: str, port: Optional[int] = None, packages: Path = TOP / "python"):
        self.port = port or free_port()
        begins = [word.replace(str(TOP / "python"), str(packages)) for word in program("vaultd-page")]
        self.process = subprocess.Popen([*begins, "--vault", f"127.0.0.1:{vault_port}", "--listen", f"127.0.0.1:{self.port}", *words],
                                        stdin=subprocess.DEVNULL, stdout=subprocess.PIPE, stderr=subprocess.PIPE)
        assert self.process.stdout is not None
        with selectors.DefaultSelector() as ready:
            ready.register(self.process.stdout, selectors.EVENT_READ)
            said = self.process.stdout.readline() if ready.select(START_SECONDS) else b""
        if said != b"listening\n":
            raise AssertionError(f"vaultd-page said {said!r}, {self.end()!r}")

    @property
    def address(self) -> str:
        """Where browsers find it."""
        return f"http://127.0.0.1:{self.port}"

    def end(self) -> bytes:
        """Ends it as a service manager does, and answers what it said on standard error."""
        if self.process.poll() is None:
            self.process.send_signal(signal.SIGTERM)
        return self.process.communicate(timeout=20)[1]

    def raw(self, request: bytes, seconds: float = ANSWER_SECONDS) -> bytes:
        """The answer to some bytes, up to the end of the connection or of what the answer's head says, and for this long at most. The page may
        end the connection before it has them all."""
        end = time.monotonic() + seconds
        with socket.create_connection(("127.0.0.1", self.port), timeout=seconds) as client:
            with contextlib.suppress(ConnectionError):
                client.sendall(request)
            told = b""
            while not whole(told) and time.monotonic() < end:
                client.settimeout(max(0.01, end - time.monotonic()))
                try:
                    piece = client.recv(1 << 20)
                except (ConnectionError, socket.timeout):
                    break
                if not piece:
                    break
                told += piece
        return told

    def get(self, path: str, method: str = "GET", **headers: str) -> Tuple[int, Dict[str, str], str]:
        """A request: its status, its headers in lower case, and its body."""
        named = {"Host": f"127.0.0.1:{self.port}", **{name.replace("_", "-"): value for name, value in headers.items()}}
        head = "".join(f"{name}: {value}\r\n" for name, value in named.items())
        told = self.raw(f"{method} {path} HTTP/1.1\r\n{head}Connection: close\r\n\r\n".encode())
        return parted(told)

    def page(self, path: str) -> str:
        """A page that must be there."""
        status, _, body = self.get(path)
        if status != 200:
            raise AssertionError((path, status, body[:500]))
        return body

    def stream(self, path: str) -> "Stream":
        """A stream of a page's changes, as an open page has it."""
        body = self.page(path)
        data = dict(re.findall(r'data-(revision|run|watch)="([^"]*)"', body))
        return Stream(self.port, data["watch"], data["revision"], data["run"])

    def processor_seconds(self) -> float:
        """How much processor time it has taken."""
        return processor_seconds(self.process.pid)

    def memory(self) -> int:
        """How many bytes of memory it has."""
        with open(f"/proc/{self.process.pid}/statm", encoding="ascii") as file:
            return int(file.read().split()[1]) * os.sysconf("SC_PAGE_SIZE")


def processor_seconds(process: int) -> float:
    """How much processor time a process has taken."""
    with open(f"/proc/{process}/stat", encoding="ascii") as file:
        fields = file.read().rpartition(")")[2].split()
    return (int(fields[11]) + int(fields[12])) / os.sysconf("SC_CLK_TCK")


def whole(told: bytes) -> bool:
    """Whether an answer has all the bytes that its head names."""
    head, end, body = told.partition(b"\r\n\r\n")
    size = re.search(rb"\r\ncontent-length: (\d+)", head.lower())
    return bool(end and size and len(body) >= int(size[1]))


def parted(told: bytes) -> Tuple[int, Dict[str, str], str]:
    """An answer's status, headers and body."""
    head, _, body = told.partition(b"\r\n\r\n")
    first, *lines = head.decode("latin-1").split("\r\n")
    headers = {name.lower(): value.strip() for name, _, value in (line.partition(":") for line in lines)}
    return int(first.split(" ")[1]) if first else 0, headers, body.decode("utf-8", "replace")


class Stream:
    """A stream of changes, by hand."""

    def __init__(self, port: int, see: str, revision: str, run: str):
        self.socket = socket.create_connection(("127.0.0.1", port), timeout=ANSWER_SECONDS)
        self.socket.sendall(f"GET /.events?see={see}&from={revision}&run={run} HTTP/1.1\r\nHost: 127.0.0.1:{port}\r\n\r\n".encode())
        self.told = b""
        self.events: List[Tuple[str, Any]] = []

    def close(self) -> None:
        """Ends it, as a page that is closed."""
        self.socket.close()

    def next(self, wanted: Callable[[str, Any], bool], seconds: float) -> Tuple[float, Any]:
        """Waits for such an event, on a busy machine longer. Gives how long that took, and what the event says."""
        begun = time.monotonic()
        while True:
            while self.events:
                kind, data = self.events.pop(0)
                if wanted(kind, data):
                    return time.monotonic() - begun, data
            left = begun + soon(seconds) - time.monotonic()
            if left <= 0 or not self._take(left):
                raise AssertionError("such an event never came")

    def change(self, *parts: str, seconds: float = 5.0) -> Tuple[float, Any]:
        """Waits for a change that has all these parts in it."""
        return self.next(lambda kind, data: kind == "message" and all(part in json.dumps(data) for part in parts), seconds)

    def _take(self, seconds: float) -> bool:
        self.socket.settimeout(seconds)
        try:
            piece = self.socket.recv(1 << 20)
        except (socket.timeout, ConnectionError):
            return False
        *blocks, self.told = (self.told + piece).split(b"\n\n")
        for block in blocks:
            fields = dict(re.findall(rb"^(event|data): ?(.*)$", block, re.MULTILINE))
            if b"data" in fields:
                kind = fields.get(b"event", b"message").decode()
                self.events.append((kind, json.loads(fields[b"data"]) if kind == "message" else None))
        return bool(piece)


def told_lines(sent: bytes) -> Sequence[bytes]:
    """The lines that were sent on a connection."""
    return sent.split(b"\n")[:-1]


def soon(seconds: float = 1.0) -> float:
    """How soon something must be there: within a second; on a machine with more to do than it has processors for, in proportion later."""
    return seconds * max(1.0, os.getloadavg()[0] / len(os.sched_getaffinity(0)))


def until(holds: Callable[[], bool], seconds: float) -> float:
    """Waits until something holds, on a busy machine longer. Gives how long that took."""
    begun = time.monotonic()
    while not holds():
        if time.monotonic() - begun > soon(seconds):
            raise AssertionError(f"it never held in {time.monotonic() - begun:.0f} seconds")
        time.sleep(0.02)
    return time.monotonic() - begun
