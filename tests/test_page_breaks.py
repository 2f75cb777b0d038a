"""The live page after its connection to the server broke, after a backup was put in place, and before servers of other kinds."""

import asyncio
import functools
import gc
import html
import re
import signal
import shutil
import socket
import threading
import time
import unittest
from pathlib import Path
from typing import Any, Dict, List
from unittest import mock

from page_server import PageServer, Stream, until
from servers import MEMORY, Answering, Cutter, Server
from tries import told
from with_page import PART, WithPage, fill

from vault.store.card import Card
from vaultd_tools.page import model as page_model
from vaultd_tools.page import watch, web
from vaultd_tools.page.wire import Broken, Wire


class Waiting(Cutter):
    """Hands lines on, but not the next question of another kind after this line, until it may."""

    def __init__(self, server_port: int, line: bytes):
        super().__init__(server_port)
        self.line, self.armed = line, False
        self.reached, self.may_go_on = threading.Event(), threading.Event()

    def _cut(self, words: List[bytes], line: bytes) -> bool:
        if self.armed and not line.startswith(self.line.split()[0]):
            self.reached.set()
            self.may_go_on.wait(10)
        self.armed = self.armed or line == self.line
        return super()._cut(words, line)


def stand_still(reached: threading.Event, may_go_on: threading.Event) -> None:
    """Says that this was reached, and waits until it may go on."""
    reached.set()
    may_go_on.wait(30)


class Breaks(WithPage):
    """What the page shows after its connection to the server broke, and after a backup was put in place."""

    def say(self, name: str, *lines: str, port: int = 0) -> List[str]:
        """What the server replies to a designer, without the greeting."""
        with socket.create_connection(("127.0.0.1", port or self.server.port), timeout=30) as client:
            replies = told(client, "".join(line + "\n" for line in (f"hello {name}", *lines)).encode(), 1 + len(lines))
        return replies.decode().splitlines()[1:]

    def version(self, name: str, file: str, port: int = 0) -> None:
        """A designer checks in a new version of the part."""
        card = Card("cd" * 32, 5000, file, name, "2026-11-28T00:00:00Z", "").spell()
        claim = self.say(name, f"checkout w:{PART}", port=port)[0].split()[2]
        self.assertEqual(self.say(name, f"save {claim} {PART} {card.hex()}", f"checkin {claim}", port=port), ["OK saved", "OK checked in 1"])

    def back_up(self) -> None:
        """Copies both files."""
        for file in self.server.files:
            shutil.copy(file, self.folder)

    def stop_and_restore(self, *streams: Stream) -> Server:
        """Kills the server, and puts the backup in place once open pages have said so. Gives another server of it, at another address."""
        self.server.kill()
        for stream in streams:
            stream.change("No vault since", seconds=10)
        for file in self.server.files:
            shutil.copy(self.folder / Path(file).name, file)
        other = Server("--workers", "4", folder=MEMORY, files=self.server.files)
        self.addCleanup(other.close)
        other.start()
        return other

    def start_again(self, stream: Stream) -> None:
        """Starts the server, and waits until an open page says that it is live."""
        self.server.start()
        stream.next(lambda kind, data: kind == "again" or kind == "message" and "led live" in data["texts"].get("pill", ""), 60)
        until(lambda: "led live" in self.page.page("/"), 60)

    def test_versions_stay(self) -> None:
        """A break empties no page: versions and files' names stand until they are known anew."""
        for number in range(2, 5):
            self.version("anna", f"file{number}.step")
        part, tree = self.stream(PART), self.stream("/")
        self.server.kill()
        changes = [stream.change("No vault since", seconds=10)[1] for stream in (part, tree)]
        self.assertEqual([name for change in changes for name in ("lists", "added") if name in change], [])
        self.assertNotIn("row:" + PART, changes[1]["texts"])
        for text in (self.text(PART), self.text("/"), self.text("/.search?q=file4")):
            self.assertIn("file4.step", text)
        self.assertEqual(self.page.get("/engine/made-meanwhile")[0], 503)
        self.start_again(part)
        self.assertEqual(self.page.page(PART).count(".step"), 4)
        self.assertNotIn("not read yet", self.text(PART))

    def test_a_page_that_is_opened_meanwhile(self) -> None:
        """If the server was away when a part was opened, its versions come once it is back."""
        for number in range(2, 5):
            self.version("anna", f"file{number}.step")
        self.stream("/")
        until(lambda: "file4.step" in self.text("/"), 5)
        self.server.kill()
        until(lambda: "No vault since" in self.text(PART), 10)
        part = self.stream(PART)
        self.assertEqual(self.text(PART).count("not read yet"), 3)
        self.server.start()
        until(lambda: self.text(PART).count("not read yet") == 0, 15)
        part.change("file2.step", "file3.step", seconds=10)

    def test_a_backup(self) -> None:
        """After a restore all is read from nothing: each part is one, and what came after the backup is gone."""
        for name in ("pin", "ring", "rod"):
            self.anna.make(f"/engine/block/{name}")
        self.back_up()
        self.version("anna", "later.step")
        self.anna.make("/engine/block/valve")
        stream = self.stream("/")
        self.assertIn("1 project, 1 assembly, 5 parts.", self.text("/"))
        until(lambda: "later.step" in self.text("/"), 5)
        self.stop_and_restore(stream).close()
        self.start_again(stream)
        self.assertIn("1 project, 1 assembly, 4 parts.", self.text("/"))
        until(lambda: "piston Kolben <b>80</b>.SLDPRT v1" in self.text("/") and "has read 1 version," in self.text("/"), 5)
        self.assertEqual(self.page.get("/engine/block/valve")[0], 404)

    def test_a_backup_with_as_many_versions(self) -> None:
        """What a version says is asked again after a break: it may be another one by now."""
        self.back_up()
        self.version("anna", "lost.step")
        stream = self.stream(PART)
        until(lambda: "lost.step" in self.text(PART), 5)
        other = self.stop_and_restore(stream)
        self.version("ben", "again.step", other.port)
        other.close()
        self.start_again(stream)
        until(lambda: "again.step" in self.text(PART) and "lost.step" not in self.text(PART), 5)

    def test_a_backup_while_nobody_looks(self) -> None:
        """The same while the page rests, and of check-outs that have numbers of earlier ones: it doesn't know since when."""
        self.back_up()
        self.version("anna", "lost.step")
        stream = self.page.stream("/")
        self.assertEqual(self.say("anna", f"checkout w:{PART}"), ["OK held c3"])
        stream.change("line:c3")
        self.assertRegex(self.text("/"), r"anna c3 held .* since 20\d\d-")
        until(lambda: "lost.step" in self.text(PART), 5)
        stream.close()
        until(lambda: self.asked()[-1] == b"quit", 15)
        other = self.stop_and_restore()
        self.version("ben", "again.step", other.port)
        other.close()
        self.server.start()
        self.assertEqual(self.say("ben", "checkout r:/"), ["OK held c3"])
        for _ in range(10):
            self.say("cara")
        self.assertRegex(self.text("/"), r"ben c3 held .* since before 20\d\d-")
        until(lambda: "again.step" in self.text(PART) and "lost.step" not in self.text(PART), 5)

    def through_a_cutter(self) -> Cutter:
        """Has the page ask through something that cuts a connection, instead of the tap."""
        cutter = Cutter(self.server.port)
        self.addCleanup(cutter.close)
        self.start_page(cutter.port)
        return cutter

    def start_page(self, port: int) -> None:
        """Ends the page, and starts another one."""
        self.page.end()
        self.page = PageServer(port)
        self.addCleanup(self.page.end)

    def test_while_it_reads(self) -> None:
        """If the connection breaks while places are read for the first time, all are known in the end."""
        cutter = self.through_a_cutter()
        for word in (b"list /engine\n", b"count ", b"list "):
            with self.subTest(word):
                cutter.before = [word]
                self.start_page(cutter.port)
                until(lambda: "1 project, 1 assembly, 1 part." in self.text("/"), 10)
                self.assertEqual(cutter.before, [])

    def test_while_it_asks_for_a_new_place(self) -> None:
        """A place that was asked for as the connection broke is asked for again."""
        cutter = self.through_a_cutter()
        until(lambda: "1 project, 1 assembly, 1 part." in self.text("/"), 10)
        cutter.before = [b"count /engine/block/pin\n"]
        self.anna.make("/engine/block/pin")
        until(lambda: "1 project, 1 assembly, 2 parts." in self.text("/"), 40)
        self.assertEqual(cutter.before, [])

    def test_a_change_between_page_and_stream(self) -> None:
        """A page that is read before a change, and opens its stream before that is sent, is told to read again."""
        waiting = Waiting(self.server.port, b"note c2\n")
        self.addCleanup(waiting.close)
        self.addCleanup(waiting.may_go_on.set)
        self.start_page(waiting.port)
        data = dict(re.findall(r'data-(revision|run)="([^"]*)"', self.page.page("/engine")))
        self.anna.checkout(["w:" + PART])
        self.assertTrue(waiting.reached.wait(10))
        stream = Stream(self.page.port, "/engine", data["revision"], data["run"])
        self.addCleanup(stream.close)
        stream.next(lambda kind, data: kind == "again", 8)         # in less than the ten seconds that the page's question waits
        self.assertIn("anna c2 held", self.text("/engine"))
        waiting.may_go_on.set()

    def test_it_ends_while_it_asks(self) -> None:
        """It ends without a word of trouble while the server lets it wait: itself, as it looks again, or for a page that was asked for."""
        for number in range(2, 4):
            self.version("anna", f"file{number}.step")
        for question, path in ((b"claims /\n", "/"), (f"fetch {PART} 1\n".encode(), PART)):
            with self.subTest(question):
                cutter = self.through_a_cutter()
                until(lambda: "led live" in self.page.page("/"), 10)
                asked, may_go_on = threading.Event(), threading.Event()
                self.addCleanup(may_go_on.set)
                cutter.meanwhile = functools.partial(stand_still, asked, may_go_on)
                cutter.before = [question]
                self.page.page(path)
                self.assertTrue(asked.wait(5))
                self.assertEqual(self.page.end(), b"")

    def test_many_that_end(self) -> None:
        """Where many check-outs of one place end at once, each part beneath it is looked at once."""
        fill(self.server.port, 100, 0)
        stream = self.stream("/")
        replies = self.say("ben", *["checkout w:/"] * 200)
        stream.change("<b>199</b>")
        self.assertEqual(self.say("ben", *[f"abandon {reply.split()[2]}" for reply in replies]), ["OK abandoned"] * 200)
        stream.change("is done with c201")
        before = len(self.asked())
        until(lambda: self.asked()[before:].count(b"claims /") >= 3, 20)
        self.assertLess(self.asked()[before:].count(b"count " + PART.encode()), 4)


class Restarts(unittest.IsolatedAsyncioTestCase):
    """A page that runs in this process, before a server that is started again."""

    parts = [f"/e/b/p{number}" for number in range(6)]

    async def asyncSetUp(self) -> None:
        asyncio.get_running_loop().slow_callback_duration = 10
        self.server = Server("--workers", "16", folder=MEMORY)
        self.addCleanup(self.server.close)
        self.server.start()
        with self.server.connect() as client:
            lines = ["hello anna", "make /e", "make /e/b", *(f"make {part}" for part in self.parts), "checkout w:/e",
                     *(f"save c1 {part} 00" for part in self.parts), "checkin c1"]
            told(client, "".join(line + "\n" for line in lines).encode(), len(lines))
        self.watcher = web.Page("127.0.0.1", self.server.port, "page", ["127.0.0.1"], "x").watcher
        self.watcher.streams = 1
        watch = asyncio.ensure_future(self.watcher.run())
        self.addAsyncCleanup(self.watcher.close)
        self.addCleanup(watch.cancel)

    async def known(self, kind: str, claims: int = 0) -> None:
        """Waits until the page stands so with the server, has this many claims, and knows what each part's last version says."""
        model = self.watcher.model
        for _ in range(500):
            if model.link.kind == kind and len(model.claims) == claims and sum(place.latest is not None for place in model.places.values()) == 6:
                return
            await asyncio.sleep(0.02)
        self.fail((kind, model.link, model.claims, model.places))

    async def test_the_last_of_each_part(self) -> None:
        """What each part's last version says stays known over a break, though other versions took its room."""
        with mock.patch.object(page_model, "KEPT_VERSIONS", 2):
            await self.known("live")
            self.server.kill()
            await self.known("away")
            self.server.start()
            await self.known("live")
        self.assertEqual(len(self.watcher.model.versions), 2)

    async def test_notes_of_what_ended(self) -> None:
        """A claim that ended leaves no question behind: the more is kept, the more is asked in a turn."""
        await self.known("live")
        with self.server.connect() as client:
            told(client, b"hello anna\ncheckout w:/e\nnote c2 00\n", 3)
            await self.known("live", claims=1)
            self.assertEqual(self.watcher._line[-1], b"OK note 00")
            told(client, b"abandon c2\n", 1)
        await self.known("live")
        self.assertEqual(self.watcher._line, [b"OK claims 0"])
        self.assertEqual([question for question in self.watcher._said if question.startswith(("note", "show"))], [])

    async def test_whoever_asks_is_gone(self) -> None:
        """What waits for the connection is asked no more, what was sent is read to its end, and the watch goes on over the same connection."""
        await self.known("live")
        assert self.server.process is not None
        self.server.suspend()
        try:
            tasks = [asyncio.ensure_future(self.watcher.learn_versions([(f"/e/b/p{number}", 1)])) for number in range(6) for _ in range(8)]
            await asyncio.sleep(0.3)
            for task in tasks:
                task.cancel()
            await asyncio.gather(*tasks, return_exceptions=True)
            await asyncio.sleep(0)
            self.assertLess(len(asyncio.all_tasks()), 8)
        finally:
            self.server.process.send_signal(signal.SIGCONT)
        session = self.watcher._session
        await asyncio.sleep(1)
        await self.known("live")
        self.assertEqual(self.watcher._session, session)

    async def test_just_as_a_connection_is_renewed(self) -> None:
        """Between two connections of which one follows the other, the server was started again: then a hold is another one."""
        await self.known("live")
        with self.server.connect() as client:
            told(client, b"hello anna\nhold w:/e\n", 2)
            await self.known("live", claims=1)
        self.assertTrue(self.watcher.model.since["h1"].exact)
        self.server.kill()
        self.server.start()
        with self.server.connect() as client:
            told(client, b"hello ben\nhold w:/e\n", 2)
            assert self.watcher._wire is not None
            self.watcher._wire.lines = 4000
            await self.known("away", claims=1)
            self.assertEqual(self.watcher.model.link.why, "was started again")
            await self.known("live", claims=1)
        self.assertEqual([claim.owner for claim in self.watcher.model.claims], ["ben"])
        self.assertFalse(self.watcher.model.since["h1"].exact)


class Odd(Answering):
    """A server that says what no vault server says: to all, or to some words."""

    usual = {b"hello": b"OK session 1", b"claims": b"OK claims 0", b"list": b"OK list 0", b"quit": b"OK left"}

    def __init__(self, replies: Dict[bytes, bytes], first: bytes = b"", endless: bytes = b""):
        self.replies, self.first, self.endless = replies, first, endless
        super().__init__()

    def answer(self, client: socket.socket) -> None:
        """Says the first words alone, where there are some, and behind the greeting some without an end."""
        client.sendall(self.first)
        for line in client.makefile("rb") if not self.first else ():
            while self.endless and not line.startswith(b"hello"):
                client.sendall(self.endless)
            client.sendall(self.reply(line.strip()))

    def reply(self, line: bytes) -> bytes:
        word = line.split()[0]
        reply = self.replies.get(line, self.replies.get(word, self.usual.get(word, b"OK")))
        return reply and reply + b"\n"


class Leaving(unittest.IsolatedAsyncioTestCase):
    """The end of the page's connection."""

    async def test_while_somebody_reads(self) -> None:
        """Whoever still reads is told that it is over, and so is whoever waits behind that; no connection is left."""
        silent = Odd({b"fetch": b""})
        self.addCleanup(silent.close)
        watcher = watch.Watcher("127.0.0.1", silent.port, "page", lambda: None, lambda: ())
        await watcher._connect()
        reads, waits = (asyncio.ensure_future(watcher.ask([question])) for question in ("fetch /e/b/p 1", "claims /"))
        for _ in range(20):         # turns of the loop, within which the first one has asked and reads
            await asyncio.sleep(0)
        await asyncio.wait_for(watcher.close(), 10)
        for task in (reads, waits):
            with self.assertRaises(Broken):
                await task
        self.assertIsNone(watcher._wire)

    async def test_just_as_a_reply_comes(self) -> None:
        """Whoever asks is ended for good, also where a reply comes at that moment: it would go on asking else."""
        reader = asyncio.StreamReader()
        asks = asyncio.ensure_future(Wire(reader, mock.Mock()).ask(["claims /"]))
        for _ in range(20):
            await asyncio.sleep(0)
        reader.feed_data(b"OK claims 0\n")
        asks.cancel()
        with self.assertRaises(asyncio.CancelledError):
            await asks

    async def test_a_turn_that_fails_as_it_ends(self) -> None:
        """A turn is over before the watch is, and what became of it is nothing to report."""
        said: List[Dict[str, Any]] = []
        asyncio.get_running_loop().set_exception_handler(lambda _loop, words: said.append(words))
        watcher = watch.Watcher("127.0.0.1", 1, "page", lambda: None, lambda: ())
        failed, may_fail = asyncio.Event(), asyncio.Event()

        async def fails() -> None:
            try:
                await may_fail.wait()
            finally:
                failed.set()
                raise Broken("ended the connection")

        with mock.patch.object(watcher, "_ask_a_turn", fails):
            turns = asyncio.ensure_future(watcher._turn())
            for _ in range(20):
                await asyncio.sleep(0)
            turns.cancel()
            with self.assertRaises(asyncio.CancelledError):
                await turns
        self.assertTrue(failed.is_set())
        gc.collect()
        self.assertEqual(said, [])

    async def test_while_a_connection_is_renewed(self) -> None:
        """A connection that is made just then is left, too."""
        usual = Odd({b"fetch": b"OK content 00"})
        self.addCleanup(usual.close)
        watcher = watch.Watcher("127.0.0.1", usual.port, "page", lambda: None, lambda: ())
        await watcher._connect()
        assert watcher._wire is not None
        watcher._wire.lines, watcher._session = 4000, 0
        renews = asyncio.ensure_future(watcher.ask(["fetch /e/b/p 1"]))
        while watcher._wire is not None:
            await asyncio.sleep(0)
        await asyncio.wait_for(watcher.close(), 10)
        self.assertEqual(await renews, [b"OK content 00"])
        self.assertIsNone(watcher._wire)


class OddServers(unittest.TestCase):
    """Whatever answers in the place of a vault's server, the page says what it found, and stays."""

    def said_of(self, odd: Odd, path: str = "/") -> str:
        """What the page says before such a server."""
        self.addCleanup(odd.close)
        page = PageServer(odd.port)
        try:
            status, _, body = page.get(path)
            self.assertEqual(status, 200)
            self.assertEqual(page.get("/.static/page.css")[0], 200)
        finally:
            self.assertEqual(page.end(), b"")
        return re.sub(r"\s+", " ", html.unescape(re.sub(r"<[^>]*>", " ", body)))

    def test_first_words(self) -> None:
        for first, said in ((b"SSH-2.0-OpenSSH_9.2\r\n", "said what no vault server says"), (b"HTTP/1.1 400 Bad Request\r\n\r\n", "no vault server"),
                            (b"ERR 80\n", "is full, or takes no more commands"), (b"\x00\xff" * 100 + b"\n", "no vault server"),
                            (b"<script>alert(1)</script>\n", "no vault server"), (b"x" * 3000000, "says lines without end"),
                            (b"OK session 1\nOK session 2\n", "no vault server"), (b"OK session \xd9\xa1\n", "no vault server")):
            self.assertIn(said, self.said_of(Odd({}, first=first)), first[:40])

    def test_replies(self) -> None:
        for replies, said in (({b"hello": b"ERR 50"}, "has no session left"), ({b"claims": b"ERR 10"}, "is older than the page"),
                              ({b"claims": b"ERR 82"}, "its disk failed"), ({b"hello": b"ERR 31"}, "does not let this page ask in its name"),
                              ({b"claims": b"OK claims 1"}, "no vault server"), ({b"claims": b"OK claims 300" + b" c1" * 300}, "no vault server"),
                              ({b"claims": b"OK claims 2 c1 c1"}, "no vault server"), ({b"list": b"OK list 1 .."}, "no vault server"),
                              ({b"list": b"OK list 1 <b>"}, "no vault server"),
                              ({b"list": b"OK list 65" + b"".join(b" a%d" % n for n in range(65))}, "no vault server"),
                              ({b"claims": b"OK claims 1 c1", b"show": b"OK claim c2 anna held w:/e"}, "no vault server"),
                              ({b"claims": b"OK claims 1 c1", b"show": b"OK claim c1 <b> held w:/e"}, "no vault server"),
                              ({b"claims": b"OK claims 1 c1", b"show": b"OK claim c1 anna held w:/../e"}, "no vault server")):
            self.assertIn(said, self.said_of(Odd(replies)), replies)

    def test_a_tree_without_end(self) -> None:
        """A server that lists places beneath every place: the page takes no more than a vault may have."""
        names = b"OK list 64" + b"".join(b" a%d" % number for number in range(64))
        self.assertIn("lists more places than a vault has", self.said_of(Odd({b"list": names, b"count": b"ERR 22"})))

    def test_without_end(self) -> None:
        self.assertIn("says lines without end", self.said_of(Odd({}, endless=b"x" * 65536)))
        self.assertIn("no vault server", self.said_of(Odd({}, endless=b"OK\n" * 1000)))

    def test_nothing(self) -> None:
        """A server that takes connections and says nothing: the page is there within seconds, and says what it knows: nothing."""
        begun = time.monotonic()
        self.assertIn("The vault is being read.", self.said_of(Odd({b"hello": b""})))
        self.assertLess(time.monotonic() - begun, 20)

    def test_nobody(self) -> None:
        """No server at all. The page doesn't deny a place because of it."""
        page = PageServer(1)
        self.addCleanup(page.end)
        status, _, body = page.get("/engine")
        self.assertEqual((status, "so the page doesn’t know" in body or "so the page doesn&#39;t know" in body), (503, True))
        self.assertIn('http-equiv="refresh" content="10"', body)
        self.assertIn("does not answer", page.page("/"))

    def test_who_asks_again(self) -> None:
        """Whether a page asks again by itself stands on it as it is."""
        page = PageServer(1)
        self.addCleanup(page.end)
        for path, asks in (("/", True), ("/engine", True), ("/designers", True), ("/.search?q=e", True), ("/ENGINE", False)):
            body = page.get(path)[2]
            self.assertEqual((path, "The page asks again by itself." in body, "Load the page again to ask again." in body), (path, asks, not asks))
            self.assertEqual((path, "data-watch" in body or 'http-equiv="refresh" content="10"' in body), (path, asks))


if __name__ == "__main__":
    unittest.main()
