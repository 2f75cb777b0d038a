"""`wait`, by the program over TCP: when it is answered, how many may wait, and that nobody polls."""

import socket
import statistics
import time
import unittest

from test_border import Border, heard

# How many waits are timed, and how long most of them may take after the release.
ROUNDS = 20
SOON = 0.1
# Within this a server has answered that answers at once. One that lets the client wait first does so for the usual 30 seconds.
AT_ONCE = 10


def answered_within(link: socket.socket, seconds: float) -> bytes:
    """The reply that comes within this time; nothing if none does."""
    link.settimeout(seconds)
    try:
        return link.recv(4096)
    except TimeoutError:
        return b""
    finally:
        link.settimeout(20)


class Waiting(Border):
    """One has what the other waits for."""

    def begin(self, *words: str) -> None:
        """Starts a server with two designers at it. The first holds the whole library."""
        self.serve("--workers", "4", *words)
        self.first = self.comes(b"anna")
        self.second = self.comes(b"ben")
        self.assertEqual(self.said(self.first, b"hold w:/"), b"OK held h1\n")

    def comes(self, name: bytes) -> socket.socket:
        """A connection with a session, which lasts to the test's end."""
        link = self.enterContext(self.linked())
        self.assertRegex(self.said(link, b"hello " + name), b"OK session [1-9]")
        return link

    def may_wait_in_the_end(self, link: socket.socket, line: bytes) -> None:
        """The line comes to wait within three seconds. It is answered at once until the server has seen that the others are gone."""
        until = time.monotonic() + 3
        link.sendall(line)
        while answered_within(link, 0.5):
            self.assertLess(time.monotonic(), until, "nobody's place is freed")
            link.sendall(line)

    def processor_ticks(self) -> int:
        """How many ticks of processor time, each a hundredth of a second, the server has taken."""
        fields = open(f"/proc/{self.server.pid}/stat", encoding="utf-8").read().rpartition(")")[2].split()
        return int(fields[11]) + int(fields[12])


class Released(Waiting):
    """Whoever waits is answered once the claim is held, or gone."""

    def test_behind_the_release(self) -> None:
        self.begin()
        has, waits = self.first, self.second
        took = []
        for number in range(1, ROUNDS + 1):
            mine, next_one = b"h%d" % number, b"h%d" % (number + 1)
            self.assertEqual(self.said(waits, b"hold w:/"), b"OK queued %s behind %s\n" % (next_one, mine))
            waits.sendall(b"wait " + next_one + b"\n")
            self.assertEqual(answered_within(waits, 0.05), b"")
            has.sendall(b"release " + mine + b"\n")
            begin = time.monotonic()
            self.assertEqual(answered_within(waits, 20), b"OK held %s\n" % next_one)
            took.append(time.monotonic() - begin)
            self.assertEqual(answered_within(has, 20), b"OK released\n")
            has, waits = waits, has
        self.assertLess(statistics.median(took), SOON, took)

    def test_behind_a_check_in_and_a_connection_that_ends(self) -> None:
        self.begin()
        third = self.comes(b"cleo")
        self.assertEqual(self.said(self.first, b"release h1"), b"OK released\n")
        self.assertEqual(self.said(self.first, b"checkout w:/"), b"OK held c1\n")
        self.assertEqual(self.said(self.second, b"hold w:/"), b"OK queued h2 behind c1\n")
        self.assertEqual(self.said(third, b"checkout w:/"), b"OK queued c2 behind c1\n")
        self.second.sendall(b"wait h2\n")
        third.sendall(b"wait c2\n")
        self.assertEqual(answered_within(third, 0.2), b"")
        self.assertEqual(self.said(self.first, b"checkin c1"), b"OK checked in 0\n")
        self.assertEqual(answered_within(self.second, AT_ONCE), b"OK held h2\n")
        self.assertEqual(answered_within(third, 0.2), b"")
        self.second.close()
        self.assertEqual(answered_within(third, AT_ONCE), b"OK held c2\n")

    def test_one_that_is_gone(self) -> None:
        self.begin()
        self.assertEqual(self.said(self.first, b"checkout w:/"), b"OK queued c1 behind h1\n")
        self.second.sendall(b"wait c1\n")
        self.assertEqual(answered_within(self.second, 0.2), b"")
        self.assertEqual(self.said(self.first, b"abandon c1"), b"OK abandoned\n")
        self.assertEqual(answered_within(self.second, AT_ONCE), b"ERR 30\n")

    def test_no_further_line_is_heard(self) -> None:
        self.begin()
        self.second.sendall(b"hold w:/\nwait h2\nlist /\nquit\n")
        self.assertEqual(answered_within(self.second, 5), b"OK queued h2 behind h1\n")
        self.assertEqual(answered_within(self.second, 0.3), b"")
        self.assertEqual(self.said(self.first, b"release h1"), b"OK released\n")
        self.assertEqual(heard(self.second), b"OK held h2\nOK list 0\nOK left\n")


class AtOnce(Waiting):
    """A `wait` that is answered as `state` is, while the claim still waits."""

    def test_where_its_time_is_over(self) -> None:
        self.begin("--wait", "1")
        self.assertEqual(self.said(self.second, b"hold w:/"), b"OK queued h2 behind h1\n")
        begin = time.monotonic()
        self.assertEqual(self.said(self.second, b"wait h2"), b"OK queued h2 behind h1\n")
        took = time.monotonic() - begin
        self.assertGreater(took, 0.9)
        self.assertLess(took, 3)

    def test_beyond_so_many(self) -> None:
        self.begin("--waits", "1")
        third = self.comes(b"cleo")
        self.assertEqual(self.said(self.second, b"hold w:/"), b"OK queued h2 behind h1\n")
        self.second.sendall(b"wait h2\n")
        self.assertEqual(answered_within(self.second, 0.2), b"")
        third.sendall(b"wait h2\n")
        self.assertEqual(answered_within(third, AT_ONCE), b"OK queued h2 behind h1\n")

    def test_three_quarters_of_the_places_may_wait(self) -> None:
        self.begin()
        self.assertEqual(self.said(self.first, b"hold w:/"), b"OK queued h2 behind h1\n")
        third, fourth = self.comes(b"cleo"), self.comes(b"dora")
        for link in (self.second, third, fourth):
            link.sendall(b"wait h2\n")
            self.assertEqual(answered_within(link, 0.2), b"")
        self.first.sendall(b"wait h2\n")
        self.assertEqual(answered_within(self.first, AT_ONCE), b"OK queued h2 behind h1\n")

    def test_one_that_disconnects_frees_its_place(self) -> None:
        for way in ("it says that no more comes", "it is gone"):
            with self.subTest(way):
                self.begin("--waits", "1")
                self.assertEqual(self.said(self.first, b"hold w:/"), b"OK queued h2 behind h1\n")
                self.second.sendall(b"wait h2\n")
                self.assertEqual(answered_within(self.second, 0.2), b"")
                third = self.comes(b"cleo")
                third.sendall(b"wait h2\n")
                self.assertEqual(answered_within(third, AT_ONCE), b"OK queued h2 behind h1\n")
                if way == "it is gone":
                    self.second.setsockopt(socket.SOL_SOCKET, socket.SO_LINGER, b"\x01\0\0\0\0\0\0\0")
                    self.second.close()
                else:
                    self.second.shutdown(socket.SHUT_WR)
                    self.assertEqual(heard(self.second), b"OK queued h2 behind h1\n")
                self.may_wait_in_the_end(third, b"wait h2\n")
                self.doCleanups()
                self.setUp()


class NobodyPolls(Waiting):
    """A client that waits costs nothing."""

    def test_processor_time(self) -> None:
        self.begin("--wait", "30")
        self.assertEqual(self.said(self.second, b"hold w:/"), b"OK queued h2 behind h1\n")
        self.second.sendall(b"wait h2\n")
        self.assertEqual(answered_within(self.second, 0.5), b"")
        before = self.processor_ticks()
        self.assertEqual(answered_within(self.second, 3), b"")
        self.assertLessEqual(self.processor_ticks() - before, 1)

    def test_nothing_is_staged(self) -> None:
        """Meanwhile another client's replies come at once, and the wait isn't answered by them."""
        self.begin()
        self.assertEqual(self.said(self.second, b"hold w:/"), b"OK queued h2 behind h1\n")
        self.second.sendall(b"wait h2\n")
        begin = time.monotonic()
        for _ in range(200):
            self.assertEqual(self.said(self.first, b"list /"), b"OK list 0\n")
        self.assertLess(time.monotonic() - begin, 10)
        self.assertEqual(answered_within(self.second, 0.2), b"")


if __name__ == "__main__":
    unittest.main()
