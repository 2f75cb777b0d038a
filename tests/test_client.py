"""The client against the real server, with connections that break where it hurts."""

import json
import os
import signal
import subprocess
import threading
import time
import unittest
from designers import PART, WithServer
from pathlib import Path
from servers import Cutter, Limits, free_port, program
from test_who import Between, Older
from typing import Any, Callable, Iterator, List, Tuple
from unittest import mock

from vault import Client, MisusedError, NotKnownError, RefusedError, UnreachableError
from vault.cli import claim_commands
from vault.cli.claim_commands import KEPT_OPEN_SECONDS
from vault.cli.command_line import command_line
from vault.cli.commands import COMMANDS
from vault.cli.output import Output
from vault.cli.words import WaitWords
from vault.client.memory import Command
from vault.protocol.connection import Patience


# Starts a program whose standard output refuses what its encoding can't say.
STRICT = ("env", "PYTHONIOENCODING=ascii:strict")


def both_of(*steps: Callable[[], object]) -> Callable[[], object]:
    """Several steps, one after the other."""
    return lambda: [step() for step in steps]


class Lost(WithServer):
    """Each command that changes something, once with its line lost, and once with its reply lost."""

    def test_make(self) -> None:
        for number, cut in enumerate(self.both()):
            cut.append(b"make")
            self.anna.make(f"/engine/e{number}")
            self.assertIn(f"/engine/e{number}", list(self.anna.tree("/engine")))

    def test_checkout(self) -> None:
        self.cutter.before.append(b"checkout")
        self.assertEqual(self.anna.checkout(["w:" + PART]).claim, "c1")
        self.cutter.after.append(b"checkout")
        self.assertEqual(self.anna.checkout(["r:/engine"]).behind, "c1")
        self.assertEqual(self.standing(), ["c1", "c2"])
        self.assertEqual(self.sent(b"checkout"), 2)

    def test_checkout_behind_others(self) -> None:
        ben = self.client("ben")
        self.anna.checkout(["r:/engine"])
        for _ in range(3):
            ben.abandon(ben.checkout(["r:/engine"]).claim)
        ben.checkout(["r:" + PART])
        self.cutter.after.append(b"checkout")
        self.assertEqual(self.anna.checkout(["r:/engine"]).claim, "c6")
        self.assertEqual(self.standing(), ["c1", "c5", "c6"])

    def test_checkout_beside_one_from_elsewhere(self) -> None:
        """One that was made elsewhere, but that drafts were put into from here, is not taken for the lost one."""
        elsewhere = Client("anna", "127.0.0.1", self.server.port, Path(self.folder.name) / "elsewhere")
        self.addCleanup(elsewhere.close)
        elsewhere.checkout(["w:" + PART])
        self.anna.put(PART, b"x", "c1")
        self.cutter.after.append(b"checkout")
        self.assertEqual(self.anna.checkout(["w:/engine"]).claim, "c2")

    def test_checkout_far_behind(self) -> None:
        """However many numbers others had meanwhile, it is found at once, and not said twice."""
        ben = self.client("ben")
        for _ in range(100):
            ben.abandon(ben.checkout(["r:/engine"]).claim)
        self.cutter.after.append(b"checkout")
        self.cutter.lines.clear()
        self.assertEqual(self.anna.checkout(["w:/engine"]).claim, "c101")
        self.assertEqual(([standing.claim for standing, _ in self.anna.mine()], self.sent(b"checkout")), (["c101"], 1))

    def test_checkout_after_a_restore(self) -> None:
        """The vault came back from a backup, and numbers began anew: the lost one is found, whether those that had its number here before
        were ended or not, and only it stands; also by the next run."""
        kept = [Path(path).read_bytes() for path in self.server.files]
        for ended in (True, False):
            for _ in range(50):
                claim = self.anna.checkout(["r:/engine"]).claim
                if ended:
                    self.anna.abandon(claim)
            self.anna.close()
            self.restore(kept)
            self.cutter.after.append(b"checkout")
            self.assertEqual(self.anna.checkout(["r:/engine"]).claim, "c1")
            self.assertEqual(self.standing(), ["c1"])
            self.anna.abandon("c1")

    def restore(self, kept: List[bytes]) -> None:
        """The vault comes back from a backup."""
        self.server.kill()
        for path, content in zip(self.server.files, kept):
            Path(path).write_bytes(content)
        self.server.start()

    def test_checkout_that_arrives_late(self) -> None:
        """A line that was under way when the client asked what became of it: both tries stand then, and the first is kept."""
        late = Late(self.server.port)
        self.addCleanup(late.close)
        anna = Client("anna", "127.0.0.1", late.port, Path(self.folder.name) / "late", 10.0, 0.05, self.notices.append)
        self.addCleanup(anna.close)
        self.assertEqual(anna.checkout(["w:" + PART]).claim, "c1")
        self.assertEqual((self.standing(), late.sent(b"checkout"), late.lost), (["c1"], 2, [b""]))

    def test_extend(self) -> None:
        claim = self.anna.checkout(["r:/engine"] * 5).claim
        for cut in self.both():
            cut.append(b"extend")
            self.assertTrue(self.anna.extend(claim, ["w:" + PART]).held)
        self.assertEqual(self.anna.put(PART, b"x"), claim)

    def test_extend_to_the_last_item(self) -> None:
        """The second try is refused 36, since the first was done."""
        claim = self.anna.checkout(["r:/engine"] * 7).claim
        self.cutter.after.append(b"extend")
        self.assertTrue(self.anna.extend(claim, ["w:" + PART]).held)
        with self.assertRaises(RefusedError) as refused:
            self.anna.extend(claim, ["w:/engine"])
        self.assertEqual(refused.exception.code, 36)

    def test_put_and_checkin(self) -> None:
        for number, cut in enumerate(self.both(), 1):
            claim = self.anna.checkout(["w:" + PART]).claim
            cut.append(b"save")
            self.anna.put(PART, b"content %d" % number)
            cut.append(b"checkin")
            self.assertEqual(self.anna.checkin(claim), 1)
            self.assertEqual(self.anna.get(PART), b"content %d" % number)
        self.assertEqual(len(list(self.anna.history(PART))), 2)
        self.assertEqual(self.sent(b"checkin"), 2)

    def test_abandon(self) -> None:
        for cut in self.both():
            claim = self.anna.checkout(["w:" + PART]).claim
            cut.append(b"abandon")
            self.anna.abandon(claim)
            self.assertTrue(self.anna.state(claim).gone)
        self.assertEqual(self.sent(b"abandon"), 2)

    def test_checkin_of_anothers(self) -> None:
        """It is refused and never sent, so it can't be taken for done once that check-out is gone."""
        other = self.client("ben").checkout(["w:/engine/block"]).claim
        for ended in (self.anna.checkin, self.anna.abandon):
            with self.assertRaises(RefusedError) as refused:
                ended(other)
            self.assertEqual(refused.exception.code, 31)
        self.assertEqual(self.sent(b"checkin") + self.sent(b"abandon"), 0)

    def test_checkin_that_another_gave_up(self) -> None:
        """A draft that is no version is never reported as checked in, and its copy is kept."""
        claim = self.anna.checkout(["w:" + PART]).claim
        self.anna.put(PART, b"dear")
        elsewhere = Client("anna", "127.0.0.1", self.server.port, Path(self.folder.name) / "elsewhere", settling=0)
        self.addCleanup(elsewhere.close)
        self.cutter.meanwhile = lambda: elsewhere.abandon(claim)
        self.cutter.before.append(b"checkin")
        for _ in range(2):
            with self.assertRaises(RefusedError) as refused:
                self.anna.checkin(claim)
            self.assertIn("vault drafts c1", str(refused.exception))
            self.assertEqual(self.anna.kept_drafts(claim), {PART: b"dear"})
        self.assertTrue(self.anna.mine()[0][0].gone)
        self.assertEqual(self.anna.kept_drafts(claim), {PART: b"dear"})
        self.assertEqual(self.notices, [])
        self.anna.forget(claim)
        self.assertEqual(self.anna.mine(), [])

    def test_a_hold_ends_with_its_connection(self) -> None:
        """After a restart its number is another claim's."""
        hold = self.anna.hold(["r:/engine"])
        self.assertTrue(self.anna.hold_stands(hold.claim).held)
        self.server.kill()
        self.server.start()
        ben = self.client("ben")
        self.assertEqual(ben.hold(["r:/engine"]).claim, hold.claim)
        self.assertTrue(self.anna.hold_stands(hold.claim).gone)
        self.assertTrue(self.anna.state(hold.claim).held)
        self.assertTrue(self.anna.hold_stands(hold.claim).gone)
        ben.close()
        self.assertTrue(self.anna.state(hold.claim).gone)


class Late(Between):
    """Hands the first check-out on only once it has answered which claims there are."""

    def __init__(self, server_port: int):
        self.lost: List[bytes] = []
        super().__init__(server_port)

    def answer(self, line: bytes, ask: Callable[[bytes], bytes]) -> bytes:
        if line.startswith(b"checkout") and not self.lost:
            self.lost.append(line)
            return b""
        reply = ask(line)
        if line == b"claims /\n" and self.lost[-1:] != [b""]:
            ask(self.lost.pop())
            self.lost.append(b"")
        return reply


class LostAtAnOlderServer(WithServer):
    """A check-out whose reply is lost at a server that doesn't tell whose claims are."""

    def setUp(self) -> None:
        super().setUp()
        older = Older(self.server.port)
        self.addCleanup(older.close)
        self.cutter = Cutter(older.port)
        self.addCleanup(self.cutter.close)
        self.anna = self.client("anna")
        ben = self.client("ben")
        for _ in range(100):
            ben.abandon(ben.checkout(["r:/engine"]).claim)

    def test_far_behind(self) -> None:
        """After more numbers than are asked about at first, the lost one is found by the second one's number, and only it stands."""
        self.cutter.after.append(b"checkout")
        self.assertEqual(self.anna.checkout(["w:/engine"]).claim, "c101")
        self.assertTrue(self.anna.state("c102").gone)
        self.assertEqual([standing.claim for standing, _ in self.anna.mine()], ["c101"])

    def test_two_settled_by_the_next_run(self) -> None:
        """The server is away between the second try of a check-out and the finding of the first. In the end only the first stands."""
        self.cutter.after.append(b"checkout")
        self.cutter.before.append(b"save c97 ")
        self.cutter.meanwhile = lambda: self.server.kill() if not self.cutter.before else None
        with self.assertRaises(NotKnownError):
            self.client("anna", patience=0.5).checkout(["w:/engine"])
        self.server.start()
        self.assertEqual([standing.claim for standing, _ in self.client("anna").mine()], ["c101"])
        self.assertTrue(self.anna.state("c102").gone)
        self.assertEqual(self.notices[0], "Your earlier `checkout w:/engine` was done.")


class NoServer(WithServer):
    """A server that stays away for longer than the client's patience, and a second run of the client."""

    def leave_under_way(self, *words: str) -> None:
        """A command whose reply is lost for good, with a server that is away from then on."""
        listener = self.server
        self.cutter.after.append(words[0].encode())
        short = self.client("anna", patience=0.0)
        original = short._start_afresh

        def away() -> None:
            listener.kill()
            original()

        setattr(short, "_start_afresh", away)
        with self.assertRaises(NotKnownError):
            if words[0] == "save":
                short.put(words[1], b"second")
            else:
                getattr(short, words[0])(*([list(words[1:])] if words[0] == "checkout" else words[1:]))
        listener.start()

    def test_settled_by_the_next_run(self) -> None:
        self.leave_under_way("checkout", "w:" + PART)
        self.assertEqual([standing.claim for standing, _ in self.client("anna").mine()], ["c1"])
        self.leave_under_way("save", PART)
        self.client("anna").mine()
        self.leave_under_way("checkin", "c1")
        self.assertEqual(self.client("anna").mine(), [])
        self.assertEqual(self.anna.get(PART), b"second")
        self.leave_under_way("make", "/wing")
        self.client("anna").mine()
        self.assertEqual([notice.endswith("was done.") for notice in self.notices], [True] * 4, self.notices)
        self.assertEqual(self.sent(b"checkin"), 1)

    def test_said_again(self) -> None:
        """Who says a command again, of which it wasn't known whether it was done, gets its answer: it isn't done a second time."""
        self.leave_under_way("checkout", "w:" + PART)
        self.assertEqual(self.client("anna").checkout(["w:" + PART]).claim, "c1")
        self.assertEqual(self.standing(), ["c1"])
        self.assertFalse(self.client("anna").checkout(["w:" + PART]).held)
        self.client("anna").abandon("c2")
        self.leave_under_way("make", "/wing")
        self.client("anna").make("/wing")
        self.client("anna").put(PART, b"first")
        self.leave_under_way("checkin", "c1")
        self.assertEqual((self.client("anna").checkin("c1"), self.sent(b"checkin")), (1, 1))
        self.assertEqual([notice.endswith("was done.") for notice in self.notices], [True] * 3, self.notices)

    def test_settled_after_a_restore(self) -> None:
        """The next run finds a check-out whose number was given before the vault came back from a backup."""
        kept = [Path(path).read_bytes() for path in self.server.files]
        for _ in range(5):
            self.anna.abandon(self.anna.checkout(["r:" + PART]).claim)
        self.server.kill()
        for path, content in zip(self.server.files, kept):
            Path(path).write_bytes(content)
        self.server.start()
        self.leave_under_way("checkout", "r:" + PART)
        self.assertEqual([standing.claim for standing, _ in self.client("anna").mine()], ["c1"])
        self.assertEqual(self.notices, [f"Your earlier `checkout r:{PART}` was done."])

    def test_two_settled_after_a_restore(self) -> None:
        """Both tries of a check-out stand, and the first has a number that one with copies of drafts had before: these are kept."""
        kept = [Path(path).read_bytes() for path in self.server.files]
        self.anna.checkout(["w:" + PART])
        self.anna.checkout(["r:/engine/block"])
        self.anna.put(PART, b"dear")
        self.server.kill()
        for path, content in zip(self.server.files, kept):
            Path(path).write_bytes(content)
        self.server.start()
        elsewhere = Client("anna", "127.0.0.1", self.server.port, Path(self.folder.name) / "elsewhere")
        self.addCleanup(elsewhere.close)
        for _ in range(2):
            elsewhere.checkout(["r:/engine"])
        with self.anna.memory.locked(lambda: None):
            self.anna.memory.begin(Command("checkout", "checkout r:/engine", items=["r:/engine"], second="c2"))
        self.assertEqual([standing.claim for standing, _ in self.anna.mine() if standing.held], ["c1"])
        aside = Path(self.notices[0].rpartition(" are in ")[2].rstrip("."))
        self.assertEqual(json.loads(aside.read_text("utf-8"))["drafts"][PART]["content"], b"dear".hex())
        self.assertEqual(self.notices[1:], ["Your earlier `checkout r:/engine` was done."])

    def test_not_done_is_told(self) -> None:
        self.anna.checkout(["w:" + PART])
        self.anna.put(PART, b"first")
        memory = self.anna.memory
        for kind, line in (("checkin", "checkin c1"), ("abandon", "abandon c1"), ("make", "make /wing"), ("checkout", "checkout r:/")):
            with memory.locked(lambda: None):
                memory.begin(type(self.command())(kind, line, "c1", "/wing", ["r:/"]))
            self.notices.clear()
            self.anna.mine()
            self.assertIn("not done", self.notices[0])
        self.assertEqual(self.standing(), ["c1"])

    @staticmethod
    def command() -> Any:
        """A command under way."""
        return Command("", "")

    def test_a_full_disk(self) -> None:
        """A command that was answered 82 is not known to be done, until the server was started again."""
        self.anna.checkout(["w:" + PART])
        self.server.kill()
        self.server.start(Limits(file_bytes=400))
        short = self.client("anna", patience=0.2)
        with self.assertRaises(NotKnownError) as unknown:
            short.put(PART, b"x" * 1000)
        self.assertIn("disk failed", str(unknown.exception))
        with self.assertRaises(NotKnownError):
            short.mine()
        self.server.kill()
        self.server.start()
        self.assertEqual(list(self.client("anna").mine()[0][1].drafts), [PART])
        self.client("anna").make("/engine/block/rod")
        self.assertEqual(self.notices[1:], [f"Your earlier `put {PART}` was done."])
        self.anna.checkin("c1")
        self.assertEqual(self.anna.get(PART), b"x" * 1000)

    def test_nothing_sent(self) -> None:
        self.server.kill()
        with self.assertRaises(UnreachableError):
            self.client("anna", patience=0.1).checkout(["r:/"])
        self.server.start()
        self.anna.mine()
        self.assertEqual(self.notices, [])

    def test_past_a_full_history(self) -> None:
        """6,000 commands are more than a server keeps: it trims the acknowledged ones, and takes more without a restart."""
        for name in ("ben", "carl"):
            designer = self.client(name)
            for _ in range(15):
                designer.link.read_all(["list /"] * 200)
        designer.make("/wing")
        self.assertEqual(list(self.anna.tree("/")), ["/engine", "/engine/block", PART, "/wing"])


class Long(WithServer):
    """A long history."""

    def test_history(self) -> None:
        """More versions than are read at once: each is there, in its order, and the progress is shown meanwhile."""
        for first in range(1, 151, 50):
            self.anna.link.read_all([line for number in range(first, first + 50) for line in (
                f"checkout w:{PART}", f"save c{number} {PART} {number:08x}", f"checkin c{number}")])
        told: List[str] = []
        self.anna.progress = told.append
        self.assertEqual(list(self.anna.history(PART)), [(number, number.to_bytes(4, "big")) for number in range(1, 151)])
        self.assertEqual(told, ["64 of 150 versions so far", "128 of 150 versions so far"])


class Words(WithServer):
    """What is refused before anything is sent, and the sentences."""

    def test_misused(self) -> None:
        misused: List[Callable[[], object]] = [
            lambda: self.anna.checkout(["/engine"]), lambda: self.anna.make("engine"), lambda: self.anna.abandon("h3"),
            lambda: self.anna.put(PART, b"x"), lambda: self.anna.put(PART, b"x" * 1025), lambda: self.anna.get(PART, 0),
            lambda: self.anna.abandon("c4294967296"), lambda: self.anna.checkout(["r:/"] * 9)]
        for wrong in misused:
            with self.assertRaises(MisusedError):
                wrong()

    def test_refusals_have_sentences(self) -> None:
        with self.assertRaises(RefusedError) as refused:
            self.anna.make("/engine")
        self.assertEqual((refused.exception.code, str(refused.exception)[:11]), (21, "That place "))
        self.anna.checkout(["w:/engine"])
        with self.assertRaises(RefusedError) as refused:
            self.client("ben").make("/engine/gear")
        self.assertIn("The place above it is in c1, which anna holds: w:/engine.", str(refused.exception))
        with self.assertRaises(RefusedError):
            self.anna.put("/engine/block/none", b"x")
        self.assertEqual(self.anna.kept_drafts("c1"), {})

    def test_a_damaged_file_is_left_alone(self) -> None:
        self.anna.memory.path.write_text("{", "utf-8")
        with self.assertRaises(Exception) as error:
            self.anna.mine()
        self.assertIn("move it away", str(error.exception))
        self.assertEqual(self.anna.memory.path.read_text("utf-8"), "{")


class Program(WithServer):
    """The program `vault`."""

    def test_a_round(self) -> None:
        self.assertIn(b"vault hello", self.vault("mine", status=2))
        self.vault("hello", f"anna@127.0.0.1:{self.server.port}")
        drawing = Path(self.folder.name) / "drawing"
        drawing.write_bytes(b"bore 80\n")
        self.assertEqual(self.as_json("checkout", "w:" + PART)["standing"], "held")
        self.vault("put", PART, str(drawing))
        self.assertEqual(self.as_json("mine")["claims"][0]["drafts"], [PART])
        self.assertEqual(self.vault("checkin", "c1"), b"c1 is checked in: 1 new version.\n")
        self.assertEqual(self.vault("get", PART), b"bore 80\n")
        self.assertEqual(self.as_json("get", PART, "1")["content"], b"bore 80\n".hex())
        self.assertIn(b"is left as it is", self.vault("get", PART, "--to", str(drawing), status=2))
        self.assertIn(b"version 1: 8 bytes", self.vault("history", PART))
        self.assertEqual(self.vault("tree"), b"/\n  engine\n    block\n      piston\n")
        self.assertEqual(self.vault("mine"), b"You have no check-outs.\n")

    def test_waiting(self) -> None:
        self.vault("hello", f"anna@127.0.0.1:{self.server.port}")
        self.anna.checkout(["w:/engine"])
        self.assertIn(b"queued behind c1", self.vault("checkout", "r:/engine"))
        self.assertIn(b"c2 is queued behind c1, which you hold: w:/engine.", self.vault("wait", "c2", "--at-most", "0", status=1))
        self.assertIn(b"no check-out", self.vault("checkin", "h1", status=2))
        self.anna.abandon("c1")
        self.assertEqual(self.vault("wait", "c2"), b"c2 is held.\n")
        self.assertIn(b"was held", self.vault("hold", "r:/engine"))

    def test_interrupted(self) -> None:
        """Ctrl-C ends a wait at once, and doesn't wait for the reply that is under way."""
        self.vault("hello", f"anna@127.0.0.1:{self.cutter.port}")
        for item in ("w:/engine", "r:/engine"):
            self.vault("checkout", item)
        self.cutter.lines.clear()
        with subprocess.Popen([*program("vault"), "wait", "c2"], env=self.environment(), stdout=subprocess.PIPE, stderr=subprocess.PIPE,
                              preexec_fn=Limits().take_effect) as waiting:
            until = time.monotonic() + 20
            while b"wait c2\n" not in self.cutter.lines and time.monotonic() < until:
                time.sleep(0.02)
            waits = b"wait c2\n" in self.cutter.lines
            begun = time.monotonic()
            waiting.send_signal(signal.SIGINT)
            errors = waiting.communicate(timeout=25)[1]
            self.assertLess(time.monotonic() - begun, 8)
        self.assertTrue(waits, "no wait was under way")
        self.assertEqual(waiting.returncode, 3)
        self.assertIn(b"Interrupted.", errors)

    def test_waiting_while_the_server_is_away(self) -> None:
        """A wait says once that the server is away, goes on after its restart, and has no connection in a long pause. This server doesn't
        let it wait for an answer."""
        self.anna.checkout(["w:/engine"])
        ben, output = self.client("ben", patience=0.1), Output("wait", True)
        claim = ben.checkout(["r:/engine"]).claim
        words = WaitWords.of(command_line().parse_args(["wait", claim]))
        moments: Iterator[Callable[[], None]] = iter([self.server.kill, lambda: None, self.server.start, lambda: self.anna.abandon("c1")])

        def pause(client: Client, _patience: object) -> None:
            next(moments)()

        with mock.patch("vault.cli.claim_commands.pause", pause), mock.patch.object(ben, "turn", lambda *_: None):
            self.assertEqual(claim_commands.wait(ben, words, output)[0], f"{claim} is held.")
        self.assertEqual(len(output.notices), 2, output.notices)
        self.assertIn("goes on", output.notices[1])
        long = Patience(60.0, KEPT_OPEN_SECONDS + 1)
        with mock.patch("time.sleep"):
            claim_commands.pause(ben, long)
        self.assertIsNone(ben.link.connection)

    def test_every_command_in_json(self) -> None:
        """Each prints one object on a line; a hold prints a second one, once it holds."""
        drawing, state = Path(self.folder.name) / "drawing", Path(self.folder.name) / "vault"
        drawing.write_bytes(b"bore 80")
        work = Path(self.folder.name) / "work"
        notes = [["note", "c1", "mine"], ["give", "c1", "ben", "--yes"], ["hello", f"ben@127.0.0.1:{self.server.port}"], ["mine", "c1"]]
        said = [["hello", f"anna@127.0.0.1:{self.server.port}"], ["tree"], ["make", "/engine/block/rod"],
                ["nest", "/engine/block/valve"], ["checkout", "w:" + PART], ["wait", "c1"], ["extend", "c1", "w:/engine/block/rod"],
                ["put", PART, str(drawing)], ["drafts", "c1"], ["drafts", "c1", str(state / "kept")], ["draft", "c1", PART], ["who"],
                *notes, ["checkin", "c1"], ["get", PART], ["history", PART], ["checkout", "r:/"],
                ["abandon", "c2"], ["forget", "c2"], ["mine"], ["hold", "r:/"], ["store"],
                ["get", "/engine", "--to", str(work)], ["status", str(work)], ["before", str(work)], ["add", str(work / "block" / "Bolzen 20")],
                ["vaults"], ["import", str(drawing.parent / "cad"), "/wing", "--yes"]]
        (drawing.parent / "cad" / "flap").mkdir(parents=True)
        (drawing.parent / "cad" / "flap" / "Rib").write_bytes(b"rib")
        for words in said:
            if words[0] == "add":
                Path(words[1]).write_bytes(b"pin")
            told = [json.loads(line) for line in self.vault("--json", *words).splitlines()]
            self.assertEqual([(one["command"], one["done"]) for one in told],
                             [(words[0], False)] * (words[0] == "hold") + [(words[0], True)])
        self.assertEqual({words[0] for words in said}, set(COMMANDS))

    def test_killed(self) -> None:
        """The program is killed while its check-in is under way, in turn before the server gets it and before the client gets the reply.
        The next run finds out: each content is a version once."""
        contents = [b"content %d" % number for number in range(6)]
        self.vault("hello", f"anna@127.0.0.1:{self.cutter.port}")
        for number, content in enumerate(contents):
            anna = Client("anna", "127.0.0.1", self.cutter.port, Path(self.folder.name) / "vault", settling=0.1)
            claim = anna.checkout(["w:" + PART]).claim
            anna.put(PART, content)
            under_way, killed = threading.Event(), threading.Event()
            self.cutter.meanwhile = both_of(under_way.set, lambda: killed.wait(60))
            self.both()[number % 2].append(b"checkin")
            program = self.started("checkin", claim)
            self.assertTrue(under_way.wait(60), "no check-in was sent")
            program.kill()
            self.assertEqual(program.wait(), -signal.SIGKILL)
            killed.set()
            self.assertEqual(bool(anna.mine()), number % 2 == 0)
            if number % 2 == 0:
                anna.checkin(claim)
            anna.close()
        self.assertEqual([content for _, content in self.anna.history(PART)], contents)

    def started(self, *words: str) -> "subprocess.Popen[bytes]":
        """The program, under way."""
        environment = {**os.environ, "XDG_STATE_HOME": self.folder.name}
        return subprocess.Popen([*program("vault"), *words], env=environment,
                                stdout=subprocess.DEVNULL, stderr=subprocess.DEVNULL)

    def said_to(self, stdout: int, *words: str) -> Tuple[int, str]:
        """The status of a run whose standard output is this, and what it says on standard error."""
        done = subprocess.run([*program("vault"), *words], env=self.environment(), stdout=stdout, stderr=subprocess.PIPE, timeout=60, check=False)
        return done.returncode, done.stderr.decode()

    def test_an_answer_that_can_not_be_written(self) -> None:
        """By its status, a command that changed something is never taken for refused, and a question isn't taken for done."""
        self.vault("hello", f"anna@127.0.0.1:{self.server.port}")
        full = os.open("/dev/full", os.O_WRONLY)
        self.addCleanup(os.close, full)
        reader, closed = os.pipe()
        os.close(reader)
        self.addCleanup(os.close, closed)
        for number, (stdout, why) in enumerate(((full, "No space left on device"), (closed, "Broken pipe"))):
            for words in (("make", f"/p{number}"), ("--json", "make", f"/q{number}")):
                said = f"vault: `make` was done, but its answer can't be written: {why}. `vault mine` shows how you stand.\n"
                self.assertEqual(self.said_to(stdout, *words), (3, said))
        self.assertEqual([f"/{name}{number}" in self.anna.tree() for name in "pq" for number in range(2)], [True] * 4)
        self.assertEqual(self.said_to(full, "tree"), (1, "vault: The answer can't be written: No space left on device.\n"))
        self.assertEqual(self.said_to(closed, "tree"), (1, ""))
        self.assertEqual(self.said_to(full, "--json", "make", "/p0")[0], 1)
        self.vault("tree", limits=Limits(closed=(1,)))

    def test_a_file_that_can_not_be_written(self) -> None:
        """The client's own file can't be written once the server has done the command: that isn't taken for refused, either, and the next run
        finds out."""
        self.vault("hello", f"anna@127.0.0.1:{self.cutter.port}")
        state = Path(self.folder.name) / "vault"
        self.cutter.meanwhile = lambda: state.rename(state.with_name("away"))
        self.cutter.after.append(b"make /wing")
        self.assertIn(b"At least a part of `make` was done", self.vault("make", "/wing", status=3))
        state.with_name("away").rename(state)
        self.assertEqual(self.as_json("mine")["notices"], ["Your earlier `make /wing` was done."])

    def test_words_in_no_encoding(self) -> None:
        """Words that are no text, and text that standard output can't say: each ends in a sentence, and what is done is told."""
        odd = "Geh\udce4use"
        self.vault("hello", f"anna@127.0.0.1:{self.server.port}")
        self.vault("checkout", "w:" + PART)
        drawing = Path(self.folder.name) / odd
        drawing.write_bytes(b"bore 80")
        self.vault("put", PART, str(drawing))
        self.assertIn(b"is no text in UTF-8", self.vault("note", "c1", odd, status=2))
        self.assertIn(b"Geh\\udce4use", self.vault("draft", "c1", PART, "--to", str(drawing) + ".back", before=STRICT))
        self.assertIn(b"Geh\\udce4use", self.vault("drafts", "c1", str(drawing) + ".all", before=STRICT))
        self.assertIn(b"Geh\\udce4use", self.vault("get", "/engine/block", "--to", str(drawing) + ".folder", before=STRICT))
        self.vault("note", "c1", "\u6d3b\u585e")
        self.assertEqual(self.vault("note", "c1", before=STRICT), b"\\u6d3b\\u585e\n")
        for words in ("hello X@127.0.0.1:1", "tree X", "checkout X", "extend c1 X", "put X", "put X X", "history X", "checkin c1 -m X", "give c1 X",
                      "draft c1 X", "store set file:///X/X", "store confirm X", "status X", "add X"):
            done = subprocess.run([*STRICT, *program("vault"), *words.replace("X", odd).split()], env=self.environment(), capture_output=True,
                                  check=False)
            self.assertEqual((done.returncode in (1, 2), b"Traceback" in done.stderr), (True, False), (words, done.stderr))

    def test_errors(self) -> None:
        self.assertIn(b"`vault --help` shows the words", self.vault("nonsense", status=2))
        self.assertIn("required: PLACE", self.as_json("get", status=2)["sentence"])
        self.assertIn(b"no version", self.vault("--as", f"anna@127.0.0.1:{self.server.port}", "get", PART, "-1", status=2))
        nobody = f"anna@127.0.0.1:{free_port()}"
        self.assertIn(b"No server answers", self.vault("--as", nobody, "--patience", "0", "tree", status=3))
        refused = self.as_json("--as", f"anna@127.0.0.1:{self.server.port}", "checkout", "r:/nowhere", status=1)
        self.assertEqual((refused["command"], refused["done"], refused["code"]), ("checkout", False, 20))
        self.assertIn(b"write NAME@HOST:PORT", self.vault("--as", "anna", "tree", status=2))


if __name__ == "__main__":
    unittest.main()
