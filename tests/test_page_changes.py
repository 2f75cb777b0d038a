"""What open pages get of changes, how soon, and what that costs while nothing changes. tests/test_page_streams.py has what may take longer."""

import re
import signal
import statistics
import time
import unittest

from page_server import PageServer, Stream, processor_seconds, soon, until
from servers import MEMORY, Server
from tries import told
from with_page import PART, WithPage, fill

from vault.store.card import Card


class Telling(WithPage):
    """What open pages get, and when."""

    def test_claims_within_a_second(self) -> None:
        """A check-out, a wait, a note, a gift, an extension and a check-in each reach the page within three seconds, and most of
        them, and the note, within one."""
        self.anna.make("/engine/block/pin")
        stream, part = self.stream("/"), self.stream(PART)
        self.anna.checkout(["w:" + PART])
        took = [stream.change("line:c2", "anna")[0]]
        self.ben.checkout(["w:/engine"])
        took.append(stream.change("stopped:c2:c3", "waits to")[0])
        self.anna.give("c2", "cara")
        took.append(stream.change("blockers:c2", "cara", "was given c2 by anna")[0])
        self.client("cara").extend("c2", ["r:/"])
        took.append(stream.change("asked for more", ' href=\\"/\\"')[0])
        self.client("cara").put(PART, Card("cd" * 32, 5, "new.step", "cara", "2026-11-28T00:00:00Z", "lighter").spell(), "c2")
        self.client("cara").checkin("c2")
        took.append(stream.change('"order": ["ben"]', "holds c3 now", "has version 2")[0])
        self.assertLess(statistics.median(took), soon(), took)
        self.assertLess(max(took), 3 * soon(), took)      # a virtual machine may stand still meanwhile
        part.change("new.step", "lighter", '"order": ["2", "1"]')
        self.ben.set_note("c3", b"until noon")
        self.assertLess(stream.change("until noon", seconds=5)[0], soon())

    def test_a_page_that_is_old(self) -> None:
        """A page that was read before a change is told to read it again; one of this moment isn't."""
        body = self.page.page("/")
        data = dict(re.findall(r'data-(revision|run)="([^"]*)"', body))
        keeps = self.stream("/")
        keeps.next(lambda kind, data: kind == "beat", 5)
        self.anna.checkout(["w:" + PART])
        keeps.change("line:c2")
        old = Stream(self.page.port, "/", data["revision"], data["run"])
        self.addCleanup(old.close)
        old.next(lambda kind, data: kind == "again", 2)
        for revision, run in (("99999999999999999", data["run"]), ("x", data["run"]), ("", ""), ("5", "0" * 16)):
            stream = Stream(self.page.port, "/", revision, run)
            self.addCleanup(stream.close)
            stream.next(lambda kind, data: kind == "again", 2)
        now = self.stream("/")
        with self.assertRaises(AssertionError):
            now.next(lambda kind, data: kind == "again", 1)

    def test_the_server_is_silent(self) -> None:
        """One that is there and answers nothing is reported as such within six seconds, before it is given up."""
        stream = self.stream("/")
        assert self.server.process is not None
        self.server.suspend()
        try:
            self.assertLess(stream.change("No answer since", "led slow", seconds=10)[0], 6)
        finally:
            self.server.process.send_signal(signal.SIGCONT)
        stream.change("led live", seconds=10)


class Quick(unittest.TestCase):
    """A full vault, with fifty open pages."""

    def setUp(self) -> None:
        self.server = Server("--workers", "32", folder=MEMORY)
        self.addCleanup(self.server.close)
        self.server.start()
        fill(self.server.port, 4096, 256)
        self.page = PageServer(self.server.port)
        self.addCleanup(self.page.end)

    def taken_in(self, seconds: float) -> float:
        """How much of a core the page and the server take within so many seconds from now on."""
        assert self.server.process is not None
        processes, begun = (self.page.process.pid, self.server.process.pid), time.monotonic()
        before = sum(map(processor_seconds, processes))
        time.sleep(seconds)
        return (sum(map(processor_seconds, processes)) - before) / (time.monotonic() - begun)

    def test_fifty_pages(self) -> None:
        """While nothing changes they cost less than a twentieth of a core, page and server together; a change shows within a second."""
        streams = [self.page.stream("/") for _ in range(50)]
        for stream in streams:
            self.addCleanup(stream.close)
            stream.next(lambda kind, data: kind == "beat", 20)
        until(lambda: self.taken_in(1) < 0.05, 60)
        taken = self.taken_in(10)
        print(f"[{taken:.1%} of a core]", end=" ", flush=True)
        self.assertLess(taken, 0.05)
        with self.server.connect() as client:
            told(client, b"hello filler\ngive c2 ben\n", 2)
        begun = time.monotonic()
        for stream in streams:
            stream.change("line:c2", "ben", seconds=5)
        took = time.monotonic() - begun
        print(f"[{took:.2f} s]", end=" ", flush=True)
        self.assertLess(took, soon())


class Bars(unittest.TestCase):
    """The vault of an office: 40 projects with 2,003 parts, twelve designers, and 60 check-outs, of which 20 wait."""

    parts = 2003

    def setUp(self) -> None:
        self.server = Server("--workers", "32", folder=MEMORY)
        self.addCleanup(self.server.close)
        self.server.start()
        places = [f"/p{number % 40:02}/block/part_{number // 40:02}" for number in range(self.parts)]
        above = [f"/p{number:02}{end}" for number in range(40) for end in ("", "/block")]
        self.say("anna", *(f"make {place}" for place in above + places))
        for number in range(40):
            self.say(f"d{number % 12}", f"checkout w:{places[number]}", f"note c{number + 1} {b'until noon'.hex()}")
        for number in range(20):
            self.say(f"d{(number + 1) % 12}", f"checkout w:{places[number]}")
        self.page = PageServer(self.server.port)
        self.addCleanup(self.page.end)

    def say(self, name: str, *lines: str) -> None:
        """Has a designer say some lines, each of which is done."""
        with self.server.connect() as client:
            said = told(client, "".join(line + "\n" for line in (f"hello {name}", *lines)).encode(), 1 + len(lines))
        self.assertEqual(said.count(b"OK "), 1 + len(lines), said[-300:])

    def stream(self, path: str) -> Stream:
        """An open page's stream."""
        stream = self.page.stream(path)
        self.addCleanup(stream.close)
        return stream

    def test_how_soon(self) -> None:
        """What a designer does shows to others within half a second: check-outs, notes, gifts, and their ends."""
        stream, took = self.stream("/"), []
        stream.next(lambda kind, data: kind == "beat", 20)
        for number in range(61, 65):
            for name, line, shown in (("cara", f"checkout w:/p39/block/part_{number - 30}", f"took c{number} "),
                                      ("cara", f"note c{number} {b'soon'.hex()}", f"noted something on c{number} "),
                                      ("cara", f"give c{number} ben", f"was given c{number} "),
                                      ("ben", f"abandon c{number}", f"is done with c{number}")):
                begun = time.monotonic()
                self.say(name, line)
                stream.change(shown, seconds=5)
                took.append(time.monotonic() - begun)
        took.sort()
        print(f"[{took[len(took) // 2]:.2f} s, at most {took[-1]:.2f} s]", end=" ", flush=True)
        self.assertLess(took[-2], soon(0.5), took)      # a virtual machine may stand still once meanwhile

    def test_how_much(self) -> None:
        """The first screen has less than 100 kB as it is, and a third of that on its way, with all that it needs beside it."""
        until(lambda: "led live" in self.page.page("/"), 20)
        plain = self.page.page("/")
        shown = [self.page.get(path, Accept_Encoding="gzip")[1]["content-length"] for path in re.findall(r'(?:href|src)="(/\.static/[^"]+)"', plain)]
        way = int(self.page.get("/", Accept_Encoding="gzip")[1]["content-length"])
        print(f"[{len(plain.encode()):,} bytes, {way:,} on the way, {sum(map(int, shown)):,} beside it once]", end=" ", flush=True)
        self.assertEqual(len(shown), 3)
        self.assertLess(len(plain.encode()), 100_000)
        self.assertLess(way + sum(map(int, shown)), 33_000)

    def test_thirty_pages(self) -> None:
        """While two changes come a second, thirty open pages cost the page's program a fifth of a processor at most, and the server next to
        none."""
        assert self.server.process is not None
        for number in range(30):
            stream = self.stream(("/", "/designers", f"/p{number:02}")[number % 3])
            stream.next(lambda kind, data: kind == "beat", 20)
        with self.server.connect() as client:
            told(client, b"hello anna\ncheckout w:/p39/block/part_49\n", 2)
            processes, before, begun = (self.page.process.pid, self.server.process.pid), [0.0, 0.0], 0.0
            for number in range(22):
                if number == 2:
                    before, begun = [processor_seconds(process) for process in processes], time.monotonic()
                told(client, f"note c61 {number:02x}\n".encode(), 1)
                time.sleep(0.5)
        taken = [(processor_seconds(process) - earlier) / (time.monotonic() - begun) for process, earlier in zip(processes, before)]
        print(f"[{taken[0]:.1%} and {taken[1]:.1%} of a processor]", end=" ", flush=True)
        self.assertLess(taken[0], 0.2)
        self.assertLess(taken[1], 0.02)


if __name__ == "__main__":
    unittest.main()
