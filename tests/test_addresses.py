"""A vault with two addresses: two real servers over one pair of files, of which one serves, and the client that knows both."""

import json
import os
import shutil
import signal
import socket
import subprocess
import tempfile
import threading
import unittest
from designers import PART
from pathlib import Path
from servers import MEMORY, Cutter, Limits, Server, free_port, program
from test_odd_server import Odd
from typing import Callable, Dict, List, Tuple
from unittest import mock

from vault import Client, MisusedError, NotKnownError, UnreachableError
from vault.cli import claim_commands
from vault.cli.command_line import command_line
from vault.cli.output import Output
from vault.cli.words import WaitWords
from vault.client.session import memory_name
from vault.store.parts import Parts
from vault.working import Working
from vault.working.opening import folder_for

ROD = "/engine/block/rod"


class TwoServers(unittest.TestCase):
    """Two servers over one pair of files, the first of which serves, each behind a cutter; and Anna, who knows both."""

    def setUp(self) -> None:
        self.one = Server("--workers", "16", folder=MEMORY)
        self.addCleanup(self.one.close)
        self.two = Server("--workers", "16", folder=MEMORY, files=self.one.files)
        self.addCleanup(self.two.close)
        self.one.start()
        self.cutters = [Cutter(self.one.port), Cutter(self.two.port)]
        for cutter in self.cutters:
            self.addCleanup(cutter.close)
        self.folder = Path(self.enterContext(tempfile.TemporaryDirectory(prefix="vault-test-", dir=MEMORY)))
        self.notices: List[str] = []
        self.anna = self.client("anna")
        for place in ("/engine", "/engine/block", PART, ROD):
            self.anna.make(place)

    def client(self, designer: str, patience: float = 10.0, ports: Tuple[int, ...] = ()) -> Client:
        """A designer who knows both. A second one of the same name stands for a second run of the program."""
        first, *others = [("127.0.0.1", port) for port in ports or [cutter.port for cutter in self.cutters]]
        client = Client(designer, *first, self.folder, patience, 0.05, self.notices.append, others=others)
        self.addCleanup(client.close)
        return client

    def take_over(self) -> None:
        """Kills the server that serves, and starts the other one."""
        serves, other = (self.one, self.two) if self.one.process else (self.two, self.one)
        serves.kill()
        other.start()

    def cut(self, word: bytes, behind: bool) -> None:
        """Makes the next such line get lost, or its reply, and then the other server take over."""
        for cutter in self.cutters:
            (cutter.after if behind else cutter.before)[:] = [word]
            cutter.meanwhile = self.take_over

    def sent(self, word: bytes) -> int:
        """How often such a line reached a server."""
        return sum(line.startswith(word) for cutter in self.cutters for line in cutter.lines)


class Lost(TwoServers):
    """Each command that changes something, whose line or reply is lost as the other server takes over."""

    def test_each(self) -> None:
        for number, behind in enumerate((False, True)):
            self.each(number, behind)
        self.assertEqual(self.notices, [])

    def each(self, number: int, behind: bool) -> None:
        """Each command, once."""
        anna, content = self.anna, b"content %d" % number
        self.cut(b"make", behind)
        anna.make(f"/engine/block/p{number}")
        self.cut(b"nest", behind)
        anna.nest(f"/engine/block/q{number}")
        self.cut(b"checkout", behind)
        claim = anna.checkout(["w:" + PART]).claim
        self.cut(b"extend", behind)
        self.assertTrue(anna.extend(claim, ["r:" + ROD]).held)
        self.cut(b"save " + claim.encode() + b" " + PART.encode(), behind)
        anna.put(PART, content)
        self.cut(b"note", behind)
        anna.set_note(claim, b"soon")
        self.assertEqual([(standing.claim, set(kept.items), standing.drafts) for standing, kept in anna.mine()],
                         [(claim, {"w:" + PART, "r:" + ROD}, (PART,))])
        before = self.sent(b"checkin")
        self.cut(b"checkin", behind)
        self.assertEqual(anna.checkin(claim), 1)
        self.assertEqual(self.sent(b"checkin"), before + 1)
        self.assertEqual([found for _, found in anna.history(PART)][-1:], [content])
        given, ended = anna.checkout(["r:" + PART]).claim, anna.checkout(["r:" + PART]).claim
        self.cut(b"give", behind)
        anna.give(given, "ben")
        self.cut(b"abandon", behind)
        anna.abandon(ended)
        self.assertEqual(anna.mine(), [])
        self.client("ben").abandon(given)
        self.assertEqual(len(list(anna.history(PART))), number + 1)

    def test_by_the_next_run(self) -> None:
        """Nobody serves for longer than the client is patient, and then the other server does."""
        for number, (behind, told) in enumerate(((True, "was done."), (False, "was not done. Say it again."))):
            claim = self.anna.checkout(["w:" + PART]).claim
            self.anna.put(PART, b"bore %d" % number)
            self.anna.close()
            serves = self.one if self.one.process else self.two
            self.cut(b"checkin", behind)
            for cutter in self.cutters:
                cutter.meanwhile = serves.kill
            with self.assertRaises(NotKnownError):
                self.client("anna", patience=0.2).checkin(claim)
            (self.two if serves is self.one else self.one).start()
            for cutter in self.cutters:
                cutter.before[:] = cutter.after[:] = []
            self.client("anna").mine()
            self.assertEqual(self.notices.pop(), f"Your earlier `checkin {claim}` {told}")
            if not behind:
                self.anna.checkin(claim)
        self.assertEqual(len(list(self.anna.history(PART))), 2)

    def test_a_hold_ends(self) -> None:
        hold = self.anna.hold(["r:" + PART])
        self.take_over()
        self.assertTrue(self.anna.hold_stands(hold.claim).gone)

    def test_waiting(self) -> None:
        """A wait goes on at the server that took over."""
        self.anna.checkout(["w:" + PART])
        ben, output = self.client("ben", patience=1.0), Output("wait", True)
        claim = ben.checkout(["w:/engine"]).claim

        def meanwhile() -> None:
            self.take_over()
            self.anna.abandon("c1")

        taking = threading.Timer(1.5, meanwhile)
        taking.start()
        said = claim_commands.wait(ben, WaitWords.of(command_line().parse_args(["wait", claim, "--at-most", "60"])), output)[0]
        taking.join()
        self.assertEqual(said, f"{claim} is held.")


class PassedOver(TwoServers):
    """An address whose server is broken, full, away, or no vault's."""

    def test_broken(self) -> None:
        """A server that answers questions from its old state, and breaks at the first command: the other one does that command, once.
        From then on the other one is asked, whichever stands first."""
        claim = self.anna.checkout(["w:" + PART]).claim
        self.anna.put(PART, b"bore 80")
        self.one.kill()
        stale = Server("--workers", "16", folder=MEMORY, files=self.copies())
        self.addCleanup(stale.close)
        stale.start(Limits(file_bytes=os.path.getsize(self.one.files[0])))
        self.two.start()
        anna = self.client("anna", ports=(stale.port, self.two.port))
        self.assertEqual([standing.claim for standing, _ in anna.mine()], [claim])
        self.assertEqual(anna.link.server[1], stale.port)
        self.assertEqual(anna.checkin(claim), 1)
        self.assertEqual((anna.link.server[1], anna.get(PART)), (self.two.port, b"bore 80"))
        again = self.client("anna", ports=(stale.port, self.two.port))
        self.assertEqual((again.get(PART), again.link.server[1]), (b"bore 80", self.two.port))
        self.assertEqual((len(list(again.history(PART))), self.notices), (1, []))

    def copies(self) -> Tuple[str, str]:
        """A copy of the files, as a machine that was cut off has them."""
        copies = [str(self.folder / f"copy{number}") for number in range(2)]
        for path, copy in zip(self.one.files, copies):
            shutil.copy(path, copy)
        return copies[0], copies[1]

    def test_each_question_broken(self) -> None:
        """One that answers 82 to all after the greeting, or doesn't even take the greeting."""
        for greeting in (b"OK session 1", b"ERR 82", b"ERR 80", b"HTTP/1.1 400 Bad Request", b""):
            odd = Odd()
            self.addCleanup(odd.listener.close)
            odd.replies = {word: b"ERR 82" for word in (b"count", b"list", b"claims", b"state", b"make", b"checkout", b"save", b"fetch", b"wait")}
            odd.replies[b"hello"] = greeting
            asked: List[Callable[[Client], object]] = [
                lambda anna: list(anna.tree()), lambda anna: anna.state("c9"), lambda anna: anna.mine(), lambda anna: anna.who("/")]
            for each in asked:
                anna = self.client("anna", ports=(odd.port, self.one.port))
                each(anna)
                self.assertEqual(anna.link.server[1], self.one.port, greeting)
                anna.close()
                anna.memory.path.unlink(missing_ok=True)
            changed = self.client("anna", ports=(odd.port, self.one.port))
            changed.make(f"/p{odd.port}")
            changed.close()
        self.assertEqual(self.notices, [])

    def test_refused(self) -> None:
        """Nobody listens at the first address; the second one is remembered, and asked first from then on."""
        nobody = free_port()
        self.assertEqual(len(list(self.client("anna", ports=(nobody, self.one.port)).tree())), 4)
        again = self.client("anna", ports=(nobody, self.one.port))
        with self.connections_to(nobody) as came:
            again.make("/wing")
            self.assertEqual(came, [])

    class connections_to:
        """Collects the connections to a port."""

        def __init__(self, port: int):
            self.listener, self.came = socket.create_server(("127.0.0.1", port)), list[object]()

        def __enter__(self) -> List[object]:
            threading.Thread(target=self._accept, daemon=True).start()
            return self.came

        def _accept(self) -> None:
            try:
                while True:
                    self.came.append(self.listener.accept())
            except OSError:
                return

        def __exit__(self, *_: object) -> None:
            self.listener.shutdown(socket.SHUT_RDWR)
            self.listener.close()

    def test_silent(self) -> None:
        """A server that stands still, as its machine may: what it doesn't answer in time is found out, and done, at the other one."""
        self.one.kill()
        still = Server("--workers", "16", folder=MEMORY, files=self.copies())
        self.addCleanup(still.close)
        still.start()
        self.two.start()
        anna = self.client("anna", ports=(still.port, self.two.port))
        self.assertEqual(len(list(anna.tree())), 4)
        assert still.process is not None
        still.process.send_signal(signal.SIGSTOP)
        with mock.patch("vault.protocol.connection.REPLY_SECONDS", 0.5), mock.patch("vault.protocol.connection.GREETING_SECONDS", 0.5):
            anna.link.drop()
            anna.make("/wing")
        self.assertEqual((anna.link.server[1], self.notices), (self.two.port, []))
        self.assertIn("/wing", list(self.client("ben", ports=(self.two.port,)).tree()))

    def test_all_away(self) -> None:
        """Both are named, and tried again after growing pauses."""
        ports = free_port(), free_port()
        said: List[str] = []
        anna = self.client("anna", patience=1.5, ports=ports)
        anna.link.progress = said.append
        with self.assertRaises(UnreachableError) as away:
            anna.make("/wing")
        for port in ports:
            self.assertIn(f"No server answers at 127.0.0.1:{port} (Connection refused).", str(away.exception))
            self.assertTrue(all(str(port) in each for each in said))
        pauses = [float(each.rpartition("again in ")[2].split()[0]) for each in said]
        self.assertTrue(len(pauses) >= 4 and pauses == sorted(pauses) and pauses[-1] > 3 * max(pauses[0], 0.05), pauses)
        self.assertIsNone(anna.memory.under_way)

    def test_one_comes_back(self) -> None:
        """Nobody serves for a while, and then the second one does."""
        self.one.kill()
        threading.Timer(1.0, self.two.start).start()
        self.anna.make("/wing")
        self.assertIsNotNone(self.two.process)
        self.assertIn("/wing", list(self.anna.tree()))


class Words(TwoServers):
    """The list on the command line, and what is kept under it."""

    def vault(self, *words: str, status: int = 0) -> str:
        """What the program says."""
        environment: Dict[str, str] = {**os.environ, "XDG_STATE_HOME": str(self.folder / "state")}
        environment.pop("VAULT_AS", None)
        done = subprocess.run([*program("vault"), *words], env=environment, capture_output=True, text=True, timeout=60, check=False)
        self.assertEqual(done.returncode, status, (words, done))
        return done.stdout or done.stderr

    def test_hello(self) -> None:
        one, two = f"127.0.0.1:{self.one.port}", f"127.0.0.1:{self.two.port}"
        self.assertEqual(self.vault("hello", f"anna@{one},{two}"), f"You are anna at {one} and {two}. {one} answers.\n")
        self.vault("checkout", "w:" + PART)
        self.take_over()
        self.assertEqual(self.vault("mine"), f"c1 is held. Asked for w:{PART}.\n")
        said = json.loads(self.vault("--json", "hello", f"anna@{one},{two}"))
        self.assertEqual((said["designer"], said["servers"], said["answers"]), ("anna", [one, two], two))
        self.assertEqual(self.vault("--as", f"anna@{two},{one}", "checkin", "c1"), "c1 is checked in: no new versions.\n")
        self.two.kill()
        told = self.vault("--patience", "0", "tree", status=3)
        self.assertEqual(told, f"vault: No server answers at {two} (Connection refused). Ask whoever runs it whether it runs. No server answers at"
                         f" {one} (Connection refused). Ask whoever runs it whether it runs.\n")
        self.assertIn("at most 8", self.vault("hello", f"anna@{one},{one}", status=2))

    def test_a_name_of_no_host(self) -> None:
        """A host's name that can't be looked up is told as a server that doesn't answer, and the next one is asked."""
        one = f"127.0.0.1:{self.one.port}"
        for host in ("vault..example", "h" * 64 + ".example"):
            told = self.vault("--patience", "0", "hello", f"anna@{host}:7070", status=3)
            self.assertIn(f"No server answers at {host}:7070 (no host can have this name)", told)
            self.assertIn(f"{one} answers.", self.vault("hello", f"anna@{host}:7070,{one}"))

    def test_memory(self) -> None:
        """It is the same in whatever order, another one than that of one address, and has a name that a file can have."""
        many = [("h" * 60 + str(number), 7070) for number in range(8)]
        self.assertEqual(memory_name("anna", many), memory_name("anna", many[::-1]))
        self.assertNotEqual(memory_name("anna", many), memory_name("anna", many[1:]))
        self.assertLess(len(memory_name("a" * 32, many)), 200)
        self.assertEqual(memory_name("anna", [("one", 7070)]), "anna@one:7070.json")
        self.assertEqual(memory_name("anna", [("two", 7070), ("one", 1)]), "anna@one:1,two:7070.json")

    def test_working_folder(self) -> None:
        """One that was got at one of the addresses is that of the list; one of another vault's is not."""
        parts = [Parts(self.client("anna", ports=ports)) for ports in ((self.one.port,), (self.two.port, self.one.port), (self.two.port,))]
        work = self.folder / "work"
        folder = folder_for(parts[0], "/engine/block", work)
        with folder.locked():
            Working(parts[0], folder).get()
        self.assertEqual(Working(parts[1], folder_for(parts[1], "/engine/block", work)).states(), [])
        with self.assertRaises(MisusedError):
            Working(parts[2], folder_for(parts[2], "/engine/block", work))


if __name__ == "__main__":
    unittest.main()
