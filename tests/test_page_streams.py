"""What open pages get of new places and of a server that is away, since when they know of a claim, and the page's connections to the server:
each left in time, and none while nobody looks."""

import re
import time
import unittest
from typing import List

from page_server import PageServer, soon, told_lines, until
from servers import MEMORY, Server, Tap
from tries import told
from with_page import PART, WithPage, fill

RENEWAL_SECONDS = 60
# How old a place may be on an open page; and what it takes to ask for it then, and to tell of it, on a busy machine longer.
PLACES_SECONDS, TELLING_SECONDS = 20, 4


class Streams(WithPage):
    """What open pages get, and what is asked for them."""

    def test_new_places(self) -> None:
        """Places that are made meanwhile come into the tree. A place that is younger than the last look is asked for."""
        stream = self.stream("/")
        self.anna.make("/wing")
        self.anna.make("/wing/rib")
        stream.change("row:/wing", "under:/", seconds=20)
        self.anna.make("/wing/rib/web")
        self.assertIn("web", self.page.page("/wing/rib/web"))
        self.assertIn("under:/wing/rib", str(stream.change("row:/wing/rib/web")[1]["added"]))

    def test_nobody_looks(self) -> None:
        """Before anybody looks, and after the last one has gone, the server gets no line."""
        time.sleep(1)
        self.assertEqual(len(self.tap.heard), 0)
        stream = self.page.stream("/")
        stream.next(lambda kind, data: kind == "beat", 10)
        until(lambda: len(self.asked()) > 20, 20)
        stream.close()
        until(lambda: self.asked()[-1] == b"quit", 10)
        asked = len(self.asked())
        time.sleep(2)
        self.assertEqual(len(self.asked()), asked)
        self.assertTrue(all(heard.ended.wait(5) for heard in self.tap.heard))
        self.page.page("/")
        self.assertGreater(len(self.asked()), asked)

    def test_connections_are_renewed(self) -> None:
        """One connection at a time, each left before its lines are used up."""
        with self.server.connect() as client:
            told(client, b"hello anna\n" + b"checkout r:/engine\n" * 250, 251)
        stream = self.stream("/designers")
        until(lambda: len(self.tap.heard) >= 3, RENEWAL_SECONDS)
        for heard in self.tap.heard[:-1]:
            lines = told_lines(bytes(heard.sent))
            self.assertTrue(heard.ended.wait(5))
            self.assertEqual((lines[0], lines[-1], 1000 < len(lines) < 4096), (b"hello page", b"quit", True))
            self.assertTrue(bytes(heard.told).endswith(b"OK left\n"))
        stream.next(lambda kind, data: kind == "beat", 30)

    def test_since(self) -> None:
        """A claim that came while the page looked shows when it came; one that was there before shows that it was."""
        self.anna.checkout(["r:" + PART])
        stream = self.stream("/")
        self.assertRegex(self.text("/"), r"c2 held .* since before 20")
        self.anna.checkout(["r:" + PART])
        stream.change("line:c3")
        self.assertRegex(self.text("/"), r"c3 held .* since 20\d\d-")

    def test_the_server_is_away(self) -> None:
        """The page says since when, shows what it knew, and goes on by itself."""
        self.page.end()
        self.page = PageServer(self.server.port)
        self.addCleanup(self.page.end)
        self.anna.checkout(["w:" + PART])
        stream = self.stream("/")
        self.server.kill()
        took, data = stream.change("No vault since", "led away", seconds=10)
        self.assertIn("ended the connection", data["texts"]["state"])
        text = self.text("/")
        self.assertRegex(text, r"No vault since \S+ \S+ UTC : the server at 127.0.0.1:\d+ .* What stands here was so at \S+ \S+ UTC\b")
        self.assertIn("anna c2 held", text)
        since = re.findall(r"No vault since (\S+ \S+)", text)
        time.sleep(1)
        self.assertEqual(re.findall(r"No vault since (\S+ \S+)", self.text("/")), since)
        self.server.start()
        back = stream.next(lambda kind, data: kind == "message" and "led live" in data["texts"].get("pill", ""), 15)[1]
        self.assertEqual(back["texts"]["state"].strip(), "")
        self.ben.checkout(["r:/"])
        stream.change("stopped:c2:c3")


class FullVault(unittest.TestCase):
    """A vault that is nearly full, and a tap before its server."""

    def setUp(self) -> None:
        self.server = Server("--workers", "32", folder=MEMORY)
        self.addCleanup(self.server.close)
        self.server.start()
        fill(self.server.port, 4090, 256)
        self.tap = Tap(self.server.port)
        self.addCleanup(self.tap.close)
        self.page = PageServer(self.tap.port)
        self.addCleanup(self.page.end)

    def projects_asked(self) -> List[bytes]:
        """The projects that the page asked for places in."""
        return [line[5:] for heard in self.tap.heard for line in told_lines(bytes(heard.sent)) if re.fullmatch(rb"list /p\d+", line)]

    def asks_again(self) -> bool:
        """Whether it has read the whole vault, and asks for places the second time."""
        asked = self.projects_asked()
        return len(asked) > len(set(asked))

    def test_new_places_within_twenty_seconds(self) -> None:
        """Also one that is made right behind the question for its like, so that all others are asked for before it."""
        stream = self.page.stream("/")
        self.addCleanup(stream.close)
        until(self.asks_again, 60)
        project = self.projects_asked()[-1]
        with self.server.connect() as client:
            self.assertIn(b"OK place", told(client, b"hello filler\nmake " + project + b"/new\n", 2))
        took, _ = stream.change(f"row:{project.decode()}/new", seconds=60)
        self.assertLess(took, PLACES_SECONDS + soon(TELLING_SECONDS))


if __name__ == "__main__":
    unittest.main()
