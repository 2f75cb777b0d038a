"""What tests of the live page stand on: a vault with its server and the page of it, and an office with a browser before it."""

import hashlib
import html
import json
import os
import re
import socket
import tempfile
import unittest
from pathlib import Path
from typing import List, Tuple

from browser import Browser
from busy_vault import Office
from page_server import PageServer, Stream, soon, told_lines, until
from servers import MEMORY, TOP, Server, Tap
from tries import told

from vault import Client
from vault.store.card import Card

PART = "/engine/block/piston"
CARD = Card("ab" * 32, 48_000_000, "Kolben <b>80</b>.SLDPRT", "anna", "2026-11-20T08:15:00Z", "bore & \u202e80")
# Of the office, whose vault has machines.
PISTON = "/engine/piston_group/piston"
PICTURES = Path(os.environ.get("VAULT_PICTURES", str(TOP / "tests" / "out")))
CHECK = (TOP / "tests" / "pages" / "check.js").read_text("utf-8")
EVIL = "<img src=x onerror=alert(1)><b>\u202egpj.exe</b>" + "W" * 190


class WithPage(unittest.TestCase):
    """A vault with a part, its server, a tap before that, and the page behind the tap."""

    words: Tuple[str, ...] = ()

    def setUp(self) -> None:
        self.server = Server("--workers", "32", folder=MEMORY)
        self.addCleanup(self.server.close)
        self.server.start()
        self.tap = Tap(self.server.port)
        self.addCleanup(self.tap.close)
        folder = tempfile.TemporaryDirectory(prefix="vault-test-", dir=MEMORY)
        self.addCleanup(folder.cleanup)
        self.folder = Path(folder.name)
        self.anna, self.ben = self.client("anna"), self.client("ben")
        for place in ("/engine", "/engine/block", PART):
            self.anna.make(place)
        self.check_in(CARD.spell())
        self.page = PageServer(self.tap.port, *self.words)
        self.addCleanup(self.page.end)

    def client(self, name: str) -> Client:
        """A designer at the server itself."""
        client = Client(name, "127.0.0.1", self.server.port, self.folder / "state", 10.0, 0.05)
        self.addCleanup(client.close)
        return client

    def check_in(self, content: bytes, part: str = PART) -> None:
        """A new version of a part by anna."""
        claim = self.anna.checkout(["w:" + part]).claim
        self.anna.put(part, content, claim)
        self.anna.checkin(claim)

    def files(self) -> List[str]:
        """What the vault's two files are now."""
        return [hashlib.sha256(Path(file).read_bytes()).hexdigest() for file in self.server.files]

    def text(self, path: str) -> str:
        """The text of a page, without its markup."""
        _, start, body = self.page.page(path).partition("<body")
        return re.sub(r"\s+", " ", html.unescape(re.sub(r"<[^>]*>", " ", re.sub(r"</?mark>", "", start + body))))

    def stream(self, path: str) -> Stream:
        """An open page's stream."""
        stream = self.page.stream(path)
        self.addCleanup(stream.close)
        return stream

    def asked(self) -> List[bytes]:
        """All lines that the page sent the server."""
        return [line for heard in self.tap.heard for line in told_lines(bytes(heard.sent))]


class WithOffice(unittest.TestCase):
    """A vault of machines with sixteen designers, the page of it, and a browser."""

    def setUp(self) -> None:
        self.server = Server("--workers", "64", folder=MEMORY)
        self.addCleanup(self.server.close)
        self.server.start()
        self.office = Office(self.server.port)
        self.addCleanup(self.office.close)
        self.page = PageServer(self.server.port, "--title", "Plant 1 <machines>")
        self.addCleanup(lambda: self.page.end())
        self.browser = Browser()
        self.addCleanup(self.browser.close)

    def fill(self) -> None:
        """Builds the machines, with check-outs and odd things among them."""
        self.office.build()
        card = Card("ee" * 32, 10 ** 15, EVIL, "eva", "2026-11-28T00:00:00Z", "<script>alert(2)</script> " + "\u0301" * 60)
        claim = self.say("eva", "checkout w:/gripper/base/flange").split()[2]
        self.say("eva", f"save {claim} /gripper/base/flange {card.spell().hex()}")
        self.say("eva", f"note {claim} {'<img src=x onerror=alert(3)>'.encode().hex()}")
        self.office.work(0)
        longest = "/" + "/".join("w" * 32 for _ in range(7))
        for count in range(1, 8):
            place = "/".join(longest.split("/")[:count + 1])
            self.say("anna", ("nest " if 3 <= count < 7 else "make ") + place)
        self.say("w" * 32, f"checkout w:{longest} r:{longest} w:{longest}")

    def say(self, name: str, line: str) -> str:
        """The reply to a designer, who need not be one of the office."""
        if name in self.office.sessions:
            reply = self.office.say(name, line)[0]
            return ("OK " if reply.ok else "ERR ") + " ".join(reply.words)
        with self.server.connect() as client, client.makefile("rb") as told:
            client.sendall(f"hello {name}\n{line}\nquit\n".encode())
            return [told.readline() for _ in range(3)][1].decode().strip()

    def open(self, path: str) -> None:
        """Opens a page, and waits until it is live, if it can be."""
        self.browser.open(self.page.address + path)
        if self.browser.value("document.body.dataset.watch || ''"):
            until(lambda: self.words("#pill") == "live", 10)

    def words(self, selector: str) -> str:
        """The text of the first such element."""
        return str(self.browser.value(f"document.querySelector({json.dumps(selector)})?.innerText.replace(/\\s+/g, ' ').trim() ?? ''"))

    def is_so(self, expression: str) -> bool:
        """Whether an expression holds in the page."""
        return bool(self.browser.value(expression))

    def shows(self, selector: str, words: str, seconds: float = 1.0) -> None:
        """Waits until such an element has these words."""
        try:
            took = until(lambda: words in self.words(selector), seconds + 9)
        except AssertionError as error:
            raise AssertionError((words, "isn't in", self.words(selector)[:600], self.words("#pill"))) from error
        self.assertLess(took, 3 * soon(seconds), words)      # a virtual machine may stand still meanwhile; test_page_changes asks for the second


def fill(port: int, places: int, claims: int) -> None:
    """Makes a vault with this many places and claims: projects of an assembly each, with up to 64 parts."""
    made, parts = 1, []
    lines: List[str] = []
    while made < places:
        project = f"/p{len(lines):05}"
        new = [project, project + "/block"] + [f"{project}/block/part_{number:02}" for number in range(64)]
        lines += ["make " + place for place in new[:places - made]]
        parts += new[2:places - made]
        made += min(len(new), places - made)
    lines += [f"checkout {'rw'[number % 2]}:{parts[number * 37 % len(parts)]}" for number in range(claims)]
    for first in range(0, len(lines), 2000):
        with socket.create_connection(("127.0.0.1", port)) as client:
            piece = lines[first:first + 2000]
            said = told(client, ("hello filler\n" + "".join(line + "\n" for line in piece)).encode(), 1 + len(piece))
            if said.count(b"OK") != 1 + len(piece):
                raise AssertionError([line for line in said.split(b"\n") if b"ERR" in line][:3])
