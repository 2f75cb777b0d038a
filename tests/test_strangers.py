"""What reaches the server's port and isn't meant for it: pages of anybody's in a designer's browser, tools, and probes of other protocols."""

import random
import re
import socket
import subprocess
import tempfile
import time
import unittest
from pathlib import Path
from typing import Dict, List, Tuple
from urllib.parse import quote, urlencode

from browser import Browser, Pages, needed
from probes import ENDED, OTHERS
from servers import MEMORY, TOP, VAULTD, Heard, Server, Tap
from tries import heard, told

from vault import Client, UnreachableError

LINES = b"hello anna\nabandon c1\nquit\n"
TLS = b"\x16"
REQUEST = b" HTTP/"
# Within these something comes, or is ended. A connection that the server takes for a client's is ended only after 60, for want of a session.
SEEN_SECONDS = 30
PAUSE = re.compile(r"Trying again in ([0-9.]+) seconds")


class Border(unittest.TestCase):
    """A vault in which anna has c1, a server of it, and a tap before that by which strangers come."""

    words: Tuple[str, ...] = ()

    def setUp(self) -> None:
        self.new_vault()

    def new_vault(self) -> None:
        """Makes the vault, its server and the tap."""
        self.server = Server("--workers", "16", *self.words, folder=MEMORY)
        self.addCleanup(self.server.close)
        self.server.start()
        self.tap = Tap(self.server.port)
        self.addCleanup(self.tap.close)
        self.sessions = 1
        with self.server.connect() as anna:
            told(anna, b"hello anna\nmake /engine\ncheckout w:/engine\nnote c1 6d696e65\nquit\n", 5)
        self.before = self.files()

    def files(self) -> List[bytes]:
        """The vault's two files."""
        return [Path(path).read_bytes() for path in self.server.files]

    def inspected(self) -> str:
        """What the program says of copies of the files."""
        copies = [Path(self.server.folder.name) / name for name in ("copy-a", "copy-b")]
        for copy, content in zip(copies, self.files()):
            copy.write_bytes(content)
        done = subprocess.run([VAULTD, "inspect", *map(str, copies)], capture_output=True, text=True, timeout=20, check=True)
        return done.stdout

    def check_untouched(self) -> None:
        """The files are the same bytes, the check-out stands with its note, and nobody has said hello but those of this test."""
        self.sessions += 1
        with self.server.connect() as watcher:
            said = told(watcher, b"hello watcher\nstate c1\nquit\n", 3)
        self.assertEqual(said, b"OK session %d\nOK held c1\nOK left\n" % self.sessions)
        self.assertEqual(self.files(), self.before)
        self.assertEqual(self.inspected().splitlines()[2:], ["places 2, versions 0, claims 1, drafts 0",
                                                             "c1 anna held w:/engine note 6d696e65"])

    def sent_by(self, since: int, part: bytes) -> Heard:
        """The connection, after the first few, on which such bytes came, once the server has ended it."""
        end = time.monotonic() + SEEN_SECONDS
        while time.monotonic() < end:
            for connection in self.tap.heard[since:]:
                if part in connection.sent:
                    self.assertTrue(connection.ended.wait(SEEN_SECONDS), (bytes(connection.sent[:80]), "is served on"))
                    return connection
            time.sleep(0.02)
        raise AssertionError((part, "never came", [bytes(connection.sent[:200]) for connection in self.tap.heard[since:]]))

    def check_ended(self, since: int, part: bytes) -> None:
        """Such bytes came, and whatever came by HTTP or TLS was ended with no byte written; nothing was done."""
        self.sent_by(since, part)
        self.check_untouched()
        for connection in self.tap.heard[since:]:
            if connection.sent:
                first = bytes(connection.sent[:100])
                self.assertTrue(connection.sent.startswith(TLS) or REQUEST in connection.sent.partition(b"\n")[0], first)
                self.assertEqual((bytes(connection.told), connection.ended.wait(SEEN_SECONDS)), (b"", True), first)


class Page(Border):
    """A page that another server handed out. Each way that it tries is a connection of the browser's, and none does anything."""

    in_path = b"%0Aabandon%20c1%0A"
    # What the browser sends in each way; it writes the ends of lines in a form's fields anew, and not those in a file.
    ways: Dict[str, bytes] = {
        "fetch": LINES,
        "fetch, text/plain": LINES,
        "fetch, a file in a form": LINES,
        "fetch, a long path": LINES,
        "fetch, a path of a megabyte": LINES,
        "fetch, keepalive": LINES,
        "fetch, with cors": LINES,
        "fetch, another method": b"OPTIONS / HTTP/1.1\r\n",
        "fetch, by TLS": TLS,
        "XMLHttpRequest": LINES,
        "beacon": LINES,
        "form, text/plain": b"typed=hello anna\r\nabandon c1\r\n",
        "form, multipart": LINES,
        "form, urlencoded": b"typed=hello+anna%0D%0Aabandon+c1%0D%0A",
        "WebSocket": in_path,
        "EventSource": in_path,
        "image": in_path,
        "script": in_path,
        "frame": in_path,
        "worker": LINES,
        "navigation": in_path,
    }

    def setUp(self) -> None:
        super().setUp()
        self.pages = Pages(TOP / "tests" / "pages")
        self.addCleanup(self.pages.close)
        self.browser = Browser()
        self.addCleanup(self.browser.close)

    def open_page(self) -> None:
        """Opens the stranger's page."""
        asked = urlencode({"target": f"127.0.0.1:{self.tap.port}", "lines": LINES.decode()})
        self.browser.open(f"{self.pages.origin}/stranger.html?{asked}")

    def test_ways_of_a_page(self) -> None:
        self.open_page()
        self.assertEqual(set(self.browser.value("Object.keys(ways)")), set(self.ways) | {"relay"})
        for way, sent in self.ways.items():
            with self.subTest(way):
                self.new_vault()
                self.open_page()
                self.browser.value(f"ways[{way!r}]()")
                self.check_ended(0, sent)

    def test_another_address(self) -> None:
        """The lines stand in the address that somebody opens."""
        self.browser.try_to_open(f"http://127.0.0.1:{self.tap.port}/%0ahello%20anna%0aabandon%20c1%0aquit%0a")
        self.check_ended(0, b"%0aabandon%20c1%0a")

    def test_a_relay(self) -> None:
        """What a browser asks of a relay for calls is no line, and holds nothing of the page's."""
        self.open_page()
        self.browser.value("ways.relay()")
        end = time.monotonic() + SEEN_SECONDS
        while time.monotonic() < end and not any(b"\x21\x12\xa4\x42" in connection.sent for connection in self.tap.heard):
            time.sleep(0.02)
        asked = [connection for connection in self.tap.heard if connection.sent]
        self.assertTrue(any(b"\x21\x12\xa4\x42" in connection.sent for connection in asked), asked)
        self.assertEqual([connection for connection in asked if b"abandon" in connection.sent], [])
        self.check_untouched()


def run_tool(*words: str, given: bytes = b"") -> Tuple[int, bytes, bytes]:
    """Runs a tool to its end: its status, what it printed, and its errors."""
    done = subprocess.run([needed(words[0]), *words[1:]], input=given, capture_output=True, timeout=60, check=False)
    return done.returncode, done.stdout, done.stderr


class Tools(Border):
    """What people have at hand, by HTTP and TLS and without either."""

    def test_curl(self) -> None:
        """It sends the lines by HTTP in each of its versions, and by TLS, and gets no reply."""
        address, posts = f"127.0.0.1:{self.tap.port}/", ("--data-binary", LINES.decode())
        for words, sent in ((posts, LINES), (("--http1.0", *posts), LINES), (("--http2-prior-knowledge", *posts), b"PRI * HTTP/2.0\r\n"),
                            (("--http2", *posts), LINES), (("--http0.9", *posts), LINES), (("--header", f"X-A: {'a' * 5000}", *posts), LINES),
                            (("--upload-file", "-"), b"PUT / HTTP/1.1\r\n"), (("--form", "a=<-"), b"POST / HTTP/1.1\r\n")):
            with self.subTest(words=words):
                since = len(self.tap.heard)
                status, out, errors = run_tool("curl", "-sS", "--max-time", str(SEEN_SECONDS), *words, "http://" + address, given=LINES)
                self.assertEqual((status in (16, 18, 52, 55, 56), out), (True, b""), errors)
                self.check_ended(since, sent)
        since = len(self.tap.heard)
        status, out, errors = run_tool("curl", "-sSk", "--max-time", str(SEEN_SECONDS), *posts, "https://" + address)
        self.assertEqual((status, out), (35, b""), errors)
        self.check_ended(since, TLS)

    def test_openssl(self) -> None:
        """Lines stand in the clear in what TLS says first, if a tool lets them: as the name of a protocol."""
        for words in ((), ("-tls1_2",), ("-alpn", "\n" + LINES.decode()), ("-servername", "anna.example")):
            with self.subTest(words=words):
                since = len(self.tap.heard)
                status, out, errors = run_tool("openssl", "s_client", "-connect", f"127.0.0.1:{self.tap.port}", *words, given=LINES)
                self.assertEqual((status, b"CONNECTED" in out), (1, True), errors)
                self.check_ended(since, LINES if "-alpn" in words else TLS)

    def test_nc(self) -> None:
        """A MiB of random bytes is read as lines that are no commands; a request by hand is ended."""
        noise = random.Random(63).randbytes(1 << 20)
        self.assertNotEqual(noise[:1], TLS)
        lines = run_tool("nc", "-N", "127.0.0.1", str(self.tap.port), given=noise)[1].split(b"\n")
        self.assertEqual((set(lines[:-1]), lines[-1]), ({b"ERR 10"}, b""))
        self.assertEqual(len(lines) - 1, min(noise.count(b"\n"), 4096))
        self.check_untouched()
        for asked in (b"GET / HTTP/1.0\r\n\r\n", b"POST / HTTP/1.1\n" + LINES, TLS + noise):
            since = len(self.tap.heard)
            self.assertEqual(run_tool("nc", "127.0.0.1", str(self.tap.port), given=asked)[1], b"")
            self.check_ended(since, asked[:15])
        self.assertEqual(run_tool("nc", "-N", "127.0.0.1", str(self.tap.port), given=b"GET /\r\n")[1], b"ERR 10\n")
        self.check_untouched()


class WithoutHttp(Border):
    """A tool that says lines as a client does, at a server that soon ends whoever has no session."""

    words = ("--hello", "1")

    def test_curl_without_http(self) -> None:
        """By telnet and gopher it sends what it is given and nothing before, so its lines are heard as any client's."""
        host = f"127.0.0.1:{self.tap.port}"
        for address, given, said in ((f"telnet://{host}", b"state c1\nGET / HTTP/1.0\r\nhello\n", b"ERR 11\nERR 10\nERR 10\n"),
                                     (f"telnet://{host}", b"GET / HTTP/1.0\r\n" + LINES, b""),
                                     (f"gopher://{host}/_state%20c1%0Ahello%0Aquit", b"", b"ERR 11\nERR 10\nERR 10\n"),
                                     (f"gopher://{host}/_GET%20/%20HTTP/1.0%0A{quote(LINES)}", b"", b""),
                                     (f"dict://{host}/hello%20anna", b"", b"ERR 10\nERR 10\nERR 10\n")):
            with self.subTest(address=address):
                _, out, errors = run_tool("curl", "-sSN", "--max-time", str(SEEN_SECONDS), address, given=given)
                self.assertEqual(out, said, errors)
                self.check_untouched()


class FirstLine(Border):
    """A first line as HTTP has it, or TLS's first byte, however the bytes come: the connection is ended, and nothing after it is read."""

    def ended(self, *pieces: bytes, pause: float = 0.0) -> bytes:
        """What comes on a connection up to its end, which the server makes by itself."""
        with self.server.connect() as client:
            client.settimeout(SEEN_SECONDS)
            client.setsockopt(socket.IPPROTO_TCP, socket.TCP_NODELAY, 1)
            try:
                for piece in pieces:
                    client.sendall(piece)
                    time.sleep(pause)
                return heard(client)
            except (ConnectionResetError, BrokenPipeError):
                return b""

    def test_byte_by_byte(self) -> None:
        for text in (b"POST / HTTP/1.1\r\nHost: anna\r\n\r\n" + LINES, TLS + b"\x03\x01\n" + LINES):
            self.assertEqual(self.ended(*(text[place:place + 1] for place in range(len(text))), pause=0.005), b"")
        self.check_untouched()

    def test_cut_anywhere(self) -> None:
        """Also if the first line comes in two pieces, whatever of the rest comes with the second."""
        text = b"GET /a HTTP/1.1\n" + LINES
        for place in range(1, len(text)):
            with self.subTest(place=place):
                self.assertEqual(self.ended(text[:place], text[place:], pause=0.01), b"")
        self.check_untouched()

    def test_of_any_length(self) -> None:
        """A line that is longer than any line of the protocol, or than what is read at once, is no way around."""
        lengths = [4096 * pieces - back for pieces in (1, 2, 4, 16) for back in range(-2, 24)] + [100_000, 2_000_000]
        for length in lengths:
            with self.subTest(length=length):
                self.assertEqual(self.ended(b"POST /" + b"a" * length + b" HTTP/1.1\r\n\r\n" + LINES), b"")
        self.check_untouched()

    def test_without_an_end(self) -> None:
        """The first line never ends, and the connection does."""
        for text in (b"GET / HTTP/", b"GET / HTTP/1.1", b"GET /" + b"a" * 9000 + b" HTTP/1.1", TLS, b" HTTP/", b"hello anna HTTP/"):
            with self.subTest(text=text[:20]):
                began = time.monotonic()
                self.assertEqual(self.ended(text), b"")
                self.assertLess(time.monotonic() - began, SEEN_SECONDS)
        self.check_untouched()

    def test_what_is_heard(self) -> None:
        """Nothing else is taken for HTTP or TLS: such a line is answered, and so are those after it."""
        for text, said in ((b"GET /\nquit\n", b"ERR 10\nERR 11\n"), (b"OPTIONS / RTSP/1.0\nquit\n", b"ERR 10\nERR 11\n"),
                           (b"HTTP/1.1 200 OK\nquit\n", b"ERR 10\nERR 11\n"), (b"get / http/1.1\nquit\n", b"ERR 10\nERR 11\n"),
                           (b"a\x16\nquit\n", b"ERR 10\nERR 11\n"), (b"list /\nGET / HTTP/1.1\nquit\n", b"ERR 11\nERR 10\nERR 11\n"),
                           (b"list /\n\x16\x03\x01\nquit\n", b"ERR 11\nERR 10\nERR 11\n"), (b"GET / HTTP\n/\nquit\n", b"ERR 10\nERR 10\nERR 11\n")):
            with self.subTest(text=text), self.server.connect() as client:
                client.sendall(text)
                client.shutdown(socket.SHUT_WR)
                self.assertEqual(heard(client), said)
        self.check_untouched()


class FirstLineByTwoThreads(FirstLine):
    """The same with two threads."""

    words = ("--threads", "2")


class Probes(Border):
    """What scanners send: HTTP and TLS are ended without a reply, all others hear that they are no commands; a designer is served on."""

    def setUp(self) -> None:
        super().setUp()
        self.designer = self.server.connect()
        self.addCleanup(self.designer.close)
        self.designer.settimeout(SEEN_SECONDS)
        self.assertEqual(told(self.designer, b"hello anna\n", 1), b"OK session 2\n")
        self.sessions = 2

    def probe(self, text: bytes, ends: bool) -> bytes:
        """What a probe gets up to its end. If the server needn't end it, it says itself that no more comes."""
        with self.server.connect() as client:
            client.settimeout(SEEN_SECONDS)
            try:
                client.sendall(text)
                if not ends:
                    client.shutdown(socket.SHUT_WR)
                return heard(client)
            except (ConnectionResetError, BrokenPipeError):
                return b""

    def test_ended(self) -> None:
        for name, text in ENDED.items():
            with self.subTest(name):
                self.assertEqual(self.probe(text, True), b"")
                self.assertEqual(self.probe(text + b"\n" + LINES, True), b"")
                self.assertEqual(told(self.designer, b"state c1\n", 1), b"OK held c1\n")
        self.check_untouched()

    def test_others(self) -> None:
        for name, text in OTHERS.items():
            with self.subTest(name):
                self.assertEqual(self.probe(text, False), b"ERR 10\n" * text.count(b"\n"))
                self.assertEqual(told(self.designer, b"state c1\n", 1), b"OK held c1\n")
        self.check_untouched()

    def test_at_once(self) -> None:
        """More of them than the server has workers, none of which says that it is done."""
        strangers = [self.server.connect() for _ in range(64)]
        for stranger, text in zip(strangers, [*OTHERS.values(), *ENDED.values()] * 2):
            self.addCleanup(stranger.close)
            stranger.sendall(text)
        for _ in range(10):
            self.assertEqual(told(self.designer, b"state c1\n", 1), b"OK held c1\n")
        for stranger in strangers:
            stranger.close()
        self.check_untouched()


class ForGood(unittest.TestCase):
    """What anybody who can connect may fill for good, and that the page on operating says how to see it."""

    def setUp(self) -> None:
        self.server = Server(folder=MEMORY)
        self.addCleanup(self.server.close)
        self.server.start()

    def done(self, *lines: str) -> List[str]:
        """The replies to some lines on a connection of their own."""
        with self.server.connect() as client:
            said = told(client, "".join(line + "\n" for line in ("hello anybody", *lines)).encode(), 1 + len(lines))
        return said.decode().splitlines()[1:]

    def looked_at(self) -> str:
        """What the lines of the page on operating say, over a copy of the vault's files."""
        page = (TOP / "docs" / "OPERATING.md").read_text("utf-8").partition("## Limits that fill for good")[2]
        lines = page.partition("```sh\n")[2].partition("```")[0]
        for shown, path in (("/var/lib/vaultd/", self.server.folder.name + "/copy-"), ("7070", str(self.server.port)), ("vaultd ", VAULTD + " ")):
            self.assertIn(shown, lines)
            lines = lines.replace(shown, path)
        for name, path in zip("ab", self.server.files):
            Path(f"{self.server.folder.name}/copy-{name}").write_bytes(Path(path).read_bytes())
        return subprocess.run(["bash", "-c", lines], capture_output=True, text=True, timeout=20, check=True).stdout

    def test_places(self) -> None:
        projects = [f"/p{number:02}" for number in range(64)]
        self.assertEqual({reply[:8] for reply in self.done(*(f"make {project}" for project in projects))}, {"OK place"})
        self.assertEqual(self.done("make /more", "nest /more"), ["ERR 50", "ERR 22"])
        self.assertIn("OK list 64 p00 ", self.looked_at())
        replies = [reply for project in projects for reply in self.done(*(f"make {project}/a{number:02}" for number in range(64)))]
        self.assertEqual([reply[:8] for reply in replies], ["OK place"] * 4031 + ["ERR 50"] * 65)
        said = self.looked_at()
        self.assertIn("projects: 64 of 64, 100 per cent", said)
        self.assertIn("places: 4096 of 4096, 100 per cent", said)

    def test_contents(self) -> None:
        parts, content = [f"/p/a/p{number:02}" for number in range(64)], "5a" * 1024
        self.done("make /p", "make /p/a", *(f"make {part}" for part in parts))
        for number in range(1, 256):
            replies = self.done("checkout w:/p/a", *(f"save c{number} {part} {content}" for part in parts), f"checkin c{number}")
        self.assertEqual(replies[-2:], ["ERR 50", "OK checked in 0"])
        said = self.looked_at()
        self.assertIn("The vault has 67 places, 16256 versions, 0 claims and 0 drafts.", said)
        self.assertIn(f"weight: {16256 * (1024 + 8)} of 16777216, 99 per cent", said)


class NoPlace(unittest.TestCase):
    """A server whose one place is taken says so to those who have waited for a while, and the client tries again."""

    def setUp(self) -> None:
        self.server = Server("--workers", "1", "--full", "1", folder=MEMORY)
        self.addCleanup(self.server.close)
        self.server.start()
        self.folder = tempfile.TemporaryDirectory(prefix="vault-test-", dir=MEMORY)
        self.addCleanup(self.folder.cleanup)
        self.holder = self.server.connect()
        self.addCleanup(self.holder.close)
        self.assertEqual(told(self.holder, b"hello anna\nmake /engine\n", 2), b"OK session 1\nOK place 1\n")
        self.said: List[str] = []

    def hear(self, sentence: str) -> None:
        """Keeps what the client says meanwhile. At the second sentence whoever has the place leaves."""
        self.said.append(sentence)
        if len(self.said) == 2:
            self.holder.close()

    def ben(self, patience: float) -> Client:
        """A designer's client."""
        client = Client("ben", "127.0.0.1", self.server.port, Path(self.folder.name), patience, progress=self.hear)
        self.addCleanup(client.close)
        return client

    def test_told_and_ended(self) -> None:
        """Whoever waits gets 80 after the time, whatever they said, and nothing of it is done."""
        for lines in (b"", b"hello ben\nmake /wing\n", b"hello ben"):
            began = time.monotonic()
            with self.server.connect() as waiting:
                waiting.sendall(lines)
                self.assertEqual(heard(waiting), b"ERR 80\n")
                self.assertTrue(0.9 < time.monotonic() - began < SEEN_SECONDS)
        self.assertEqual(told(self.holder, b"list /\n", 1), b"OK list 1 engine\n")

    def test_client_comes_again(self) -> None:
        """With growing pauses, each of which it announces, until a place is free."""
        self.assertEqual(list(self.ben(40).tree()), ["/engine"])
        pauses = [float(told[1]) for told in (PAUSE.search(sentence) for sentence in self.said) if told]
        self.assertTrue(all("is full at this moment" in sentence for sentence in self.said), self.said)
        self.assertTrue(len(pauses) == len(self.said) > 1 and pauses == sorted(set(pauses)), self.said)

    def test_client_gives_up(self) -> None:
        """Its patience ends with a sentence that says what to do, and the status of a server that can't be reached."""
        with self.assertRaises(UnreachableError) as full:
            self.ben(0).make("/wing")
        self.assertIn("is full at this moment", str(full.exception))
        self.assertIn("Ask whoever runs it", str(full.exception))
        self.assertEqual(full.exception.status, 3)
        self.assertEqual(told(self.holder, b"list /\n", 1), b"OK list 1 engine\n")


if __name__ == "__main__":
    unittest.main()
