"""The network's border, by the program over TCP: strangers' bytes, silent clients, few places."""

import contextlib
import math
import os
import socket
import subprocess
import tempfile
import time
import unittest
from pathlib import Path
from typing import Dict, Iterator, List, Optional, Tuple

from page_server import until
from servers import MEMORY, VAULTD, Server, free_port, program, sockets_of
from tries import told

# Linux's number of this option, which typeshed doesn't have.
TCP_USER_TIMEOUT = 18
# What would change the vault, if it were served.
CHANGES = b"hello anna\nmake /engine\nquit\n"
FOREIGN = {
    "a page's request": b"POST / HTTP/1.1\r\nHost: 127.0.0.1:7070\r\nContent-Type: text/plain\r\n\r\n" + CHANGES,
    "a request without a header": b"GET / HTTP/1.0\n" + CHANGES,
    "a request for a long path": b"GET /" + b"x" * 20000 + b" HTTP/1.1\r\n\r\n" + CHANGES,
    "a first line that never ends": b"GET / HTTP/1.1" + b" " * 100000,
    "TLS": b"\x16\x03\x01\x02\x00\x01\x00\n" + CHANGES,
}
OWN = {
    "no space before it": b"GET/HTTP/1.1\n",
    "not all of it": b"GET / HTTP\n",
    "a lower case": b"GET / http/1.1\n",
    "in the second line": b"list /\nGET / HTTP/1.1\n",
    "TLS's byte behind the first": b"\n\x16\n",
}


def heard(link: socket.socket) -> bytes:
    """What comes until the connection ends, in whichever way."""
    told = b""
    with contextlib.suppress(ConnectionError):
        while True:
            more = link.recv(65536)
            if not more:
                break
            told += more
    return told


def own_address() -> Optional[str]:
    """An address of this host that isn't of the loopback, if it has one."""
    with socket.socket(socket.AF_INET, socket.SOCK_DGRAM) as probe:
        try:
            probe.connect(("192.0.2.1", 9))
        except OSError:
            return None
        name = str(probe.getsockname()[0])
    return None if name.startswith("127.") else name


def finds_out_within(link: socket.socket) -> Tuple[float, float]:
    """Within how many seconds the kernel finds out that the other end is gone: where something is on its way there, and where nothing is."""
    first, again, times = (link.getsockopt(socket.IPPROTO_TCP, option) for option in (socket.TCP_KEEPIDLE, socket.TCP_KEEPINTVL, socket.TCP_KEEPCNT))
    asks = link.getsockopt(socket.SOL_SOCKET, socket.SO_KEEPALIVE)
    return link.getsockopt(socket.IPPROTO_TCP, TCP_USER_TIMEOUT) / 1000, first + again * times if asks else math.inf


def has_other_loopback() -> bool:
    """Whether this host has ::1."""
    with contextlib.suppress(OSError), socket.socket(socket.AF_INET6) as probe:
        probe.bind(("::1", 0))
        return True
    return False


def is_ended(link: socket.socket) -> bool:
    """Whether a connection over which nothing is under way was ended."""
    link.setblocking(False)
    try:
        return link.recv(1) == b""
    except BlockingIOError:
        return False
    finally:
        link.settimeout(20)


# Servers of one thread and of two, each with two connections that are silent while the other tests run, and since when.
SILENT: Dict[int, Tuple[Server, List[socket.socket]]] = {}
SILENT_SINCE: List[float] = []


def setUpModule() -> None:
    """Starts these servers. Of two connections the first one speaks last."""
    for threads in (1, 2):
        server = Server("--workers", "2", "--threads", str(threads), "--full", "100", folder=MEMORY)
        unittest.addModuleCleanup(server.close)
        server.start()
        links = [server.connect() for _ in range(2)]
        for number, link in enumerate(links, 1):
            unittest.addModuleCleanup(link.close)
            assert told(link, b"hello anna\n", 1) == b"OK session %d\n" % number
        assert told(links[0], b"list /\n", 1) == b"OK list 0\n"
        SILENT[threads] = server, links
    SILENT_SINCE.append(time.monotonic())


class Border(unittest.TestCase):
    """A server with options of its own."""

    def setUp(self) -> None:
        folder = tempfile.TemporaryDirectory(prefix="vault-test-", dir=MEMORY)
        self.addCleanup(folder.cleanup)
        self.files = [Path(folder.name) / name for name in "ab"]
        subprocess.run([VAULTD, "create", *map(str, self.files)], check=True, stdout=subprocess.DEVNULL)

    def serve(self, *words: str, host: str = "127.0.0.1") -> None:
        """Starts the server, which is killed after the test."""
        self.port = free_port()
        server = subprocess.Popen([VAULTD, "serve", *map(str, self.files), f"{host}:{self.port}", *words],
                                  stdout=subprocess.PIPE, stderr=subprocess.STDOUT)
        self.server = server

        def end() -> None:
            server.kill()
            server.wait()
            assert server.stdout is not None
            server.stdout.close()

        self.addCleanup(end)
        assert server.stdout is not None
        self.assertEqual(server.stdout.readline(), b"listening\n")

    @contextlib.contextmanager
    def linked(self, host: str = "127.0.0.1") -> Iterator[socket.socket]:
        """A connection to the server."""
        with socket.create_connection((host, self.port), 20) as link:
            link.setsockopt(socket.IPPROTO_TCP, socket.TCP_NODELAY, 1)
            yield link

    def said(self, link: socket.socket, line: bytes) -> bytes:
        """The reply to a line."""
        link.sendall(line + b"\n")
        told = b""
        while not told.endswith(b"\n"):
            more = link.recv(4096)
            if not more:
                break
            told += more
        return told

    def lasts(self, link: socket.socket) -> float:
        """For how many seconds a connection lasts on which nothing is said any more."""
        begin = time.monotonic()
        heard(link)
        return time.monotonic() - begin


class Foreign(Border):
    """Bytes of other protocols do nothing."""

    def test_whole(self) -> None:
        self.serve()
        before = [path.read_bytes() for path in self.files]
        for name, said in FOREIGN.items():
            with self.subTest(name), self.linked() as link:
                with contextlib.suppress(ConnectionError):
                    link.sendall(said)
                self.assertEqual(heard(link), b"")
        self.assertEqual([path.read_bytes() for path in self.files], before)

    def test_a_byte_at_a_time(self) -> None:
        self.serve()
        before = [path.read_bytes() for path in self.files]
        for name in ("a page's request", "a request without a header", "TLS"):
            with self.subTest(name), self.linked() as link:
                with contextlib.suppress(ConnectionError):
                    for byte in FOREIGN[name]:
                        link.sendall(bytes([byte]))
                        time.sleep(0.0005)
                self.assertEqual(heard(link), b"")
        self.assertEqual([path.read_bytes() for path in self.files], before)

    def test_own(self) -> None:
        """What only looks like it is answered line by line."""
        self.serve()
        for name, said in OWN.items():
            with self.subTest(name), self.linked() as link:
                link.sendall(said + b"hello anna\nquit\n")
                told = heard(link).decode().splitlines()
                self.assertEqual(len(told), said.count(b"\n") + 2)
                self.assertEqual(told[-1], "OK left")


class Times(Border):
    """Whoever takes too long loses their place."""

    def test_no_session(self) -> None:
        self.serve("--hello", "1")
        with self.linked() as link:
            self.assertLess(self.lasts(link), 4)
        with self.linked() as link, self.linked() as greeted:
            self.assertEqual(self.said(greeted, b"hello anna"), b"OK session 1\n")
            until = time.monotonic() + 6
            while time.monotonic() < until and self.said(link, b"list /"):
                time.sleep(0.05)          # without it 4,096 lines would end the connection
            self.assertLess(time.monotonic(), until)
            self.assertEqual(self.said(greeted, b"list /"), b"OK list 0\n")

    def test_quit_later_than_hello(self) -> None:
        """Who quits is told so, also once the time for `hello` is over."""
        self.serve("--hello", "1")
        with self.linked() as link:
            self.assertEqual(self.said(link, b"hello anna"), b"OK session 1\n")
            time.sleep(1.2)
            self.assertEqual(self.said(link, b"quit"), b"OK left\n")

    def test_dead_client(self) -> None:
        """The kernel ends a connection whose client acknowledges nothing that was sent to it for two minutes, and asks a silent client early
        enough to find out within these."""
        self.serve()
        with self.linked() as link:
            self.said(link, b"hello anna")
            found = [finds_out_within(it) for it in sockets_of(self.server.pid) if not it.getsockopt(socket.SOL_SOCKET, socket.SO_ACCEPTCONN)]
        self.assertEqual(found, [(120, 120)])

    def test_trickled_line(self) -> None:
        self.serve("--line", "1")
        with self.linked() as link:
            self.said(link, b"hello anna")
            begin = time.monotonic()
            with contextlib.suppress(ConnectionError):
                while time.monotonic() < begin + 6:
                    link.sendall(b"x")
                    time.sleep(0.1)
            self.assertLess(time.monotonic(), begin + 4)

    def test_idle_by_lines(self) -> None:
        self.serve("--idle", "3")
        with self.linked() as link:
            self.said(link, b"hello anna")
            begin = time.monotonic()
            with contextlib.suppress(ConnectionError):
                while time.monotonic() < begin + 9:
                    link.sendall(b"x")
                    time.sleep(0.1)
            self.assertLess(time.monotonic(), begin + 7)
        with self.linked() as link:
            for _ in range(5):
                time.sleep(0.8)
                self.assertEqual(self.said(link, b"state c1"), b"ERR 11\n")

    def test_no_place(self) -> None:
        self.serve("--workers", "1", "--full", "1")
        with self.linked() as first:
            self.assertEqual(self.said(first, b"hello anna"), b"OK session 1\n")
            waiting = [self.enterContext(self.linked()) for _ in range(5)]
            begin = time.monotonic()
            for link in waiting:
                link.sendall(b"hello ben\n")
            self.assertEqual([heard(link) for link in waiting], [b"ERR 80\n"] * 5)
            self.assertLess(time.monotonic() - begin, 4)
            self.assertEqual(self.said(first, b"quit"), b"OK left\n")
        with self.linked() as link:
            self.assertEqual(self.said(link, b"hello ben"), b"OK session 2\n")


class FromWhom(Border):
    """The limit of connections from one address."""

    def test_loopback_is_not_counted(self) -> None:
        self.serve("--per-address", "1")
        with self.linked() as one, self.linked() as other:
            self.assertEqual(self.said(one, b"hello anna"), b"OK session 1\n")
            self.assertEqual(self.said(other, b"hello ben"), b"OK session 2\n")

    @unittest.skipUnless(has_other_loopback(), "this machine has no ::1")
    def test_the_other_loopback(self) -> None:
        """A server at ::1 doesn't count its connections, either, and the client finds it."""
        self.serve("--per-address", "1", host="[::1]")
        with self.linked("::1") as one, self.linked("::1") as other:
            self.assertEqual(self.said(one, b"hello anna"), b"OK session 1\n")
            self.assertEqual(self.said(other, b"hello ben"), b"OK session 2\n")
            made = subprocess.run([*program("vault"), "--as", f"cleo@[::1]:{self.port}", "make", "/engine"], capture_output=True, timeout=60,
                                  check=False, env={**os.environ, "XDG_STATE_HOME": str(self.files[0].parent)})
            self.assertEqual((made.stdout, made.stderr), (b"/engine is there.\n", b""))
            self.assertEqual(self.said(one, b"list /"), b"OK list 1 engine\n")

    def test_others_are(self) -> None:
        own = own_address()
        if own is None:
            self.skipTest("this host has no address but the loopback's")
        address: str = own
        self.serve("--per-address", "2", host="0.0.0.0")
        with self.linked(address) as one, self.linked(address) as other:
            self.assertEqual(self.said(one, b"hello anna"), b"OK session 1\n")
            self.assertEqual(self.said(other, b"hello ben"), b"OK session 2\n")
            with self.linked(address) as third:
                self.assertEqual(heard(third), b"ERR 80\n")
            self.assertEqual(self.said(other, b"quit"), b"OK left\n")
            other.close()
            until(lambda: self.is_let_in(address, b"cleo", 3), 20)

    def is_let_in(self, address: str, name: bytes, number: int) -> bool:
        """Whether somebody gets the session of this number."""
        with self.linked(address) as link, contextlib.suppress(ConnectionError):
            return self.said(link, b"hello " + name) == b"OK session %d\n" % number
        return False


class TwoThatAreSilent(unittest.TestCase):
    """For one that waits for a place one connection is ended that was silent for a minute."""

    def setUp(self) -> None:
        time.sleep(max(0.0, SILENT_SINCE[-1] + 61 - time.monotonic()))

    def test_one_for_one(self) -> None:
        """Also where two threads could each end one."""
        server, links = SILENT[2]
        with server.connect() as link:
            self.assertEqual(told(link, b"hello cleo\n", 1), b"OK session 3\n")
            time.sleep(0.5)
            stands = [each for each in links if not is_ended(each)]
            self.assertEqual(len(stands), 1)
            self.assertEqual(told(stands[0], b"list /\n", 1), b"OK list 0\n")

    def test_the_longest_silent(self) -> None:
        """It is the one that was silent the longest, and not the one that came first."""
        server, (spoke_last, silent_longest) = SILENT[1]
        with server.connect() as link:
            self.assertEqual(told(link, b"hello cleo\n", 1), b"OK session 3\n")
            self.assertEqual(silent_longest.recv(1), b"")
            self.assertEqual(told(spoke_last, b"list /\n", 1), b"OK list 0\n")


if __name__ == "__main__":
    unittest.main()
