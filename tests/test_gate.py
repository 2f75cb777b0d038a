"""The ssh gate: whatever is sent, a key speaks for its own name, does what it may, and has its lines in the log. Behind a real sshd."""

import base64
import os
import random
import re
import select
import shlex
import signal
import socket
import statistics
import subprocess
import tempfile
import time
import tomllib
import unittest
from pathlib import Path
from typing import Any, Dict, List, Tuple

from doors import Door, make_key
from forger import KEY, Forger, string
from servers import MEMORY, TOP, VAULTD, Cutter, Limits, Server, program
from tries import heard, told

from vault.protocol.grammar import LINE_BYTES
from vaultd_tools.gate.history import outcomes, records
from vaultd_tools.gate.keys import complaints_of
from vaultd_tools.gate.lines import Lines, command_of

ATTACKS: List[Dict[str, Any]] = tomllib.loads((TOP / "tests" / "data" / "gate-attacks.toml").read_text("utf-8"))["attack"]
TIMES = re.compile(r"<(\d+) ([^>]+)>", re.DOTALL)
PART = "/engine/block/piston"
VALID = (b"hello anna", b"make /a/b", b"make /a/b/c c1", b"nest /a/b/c", b"nest /a/b/c c12", b"checkout r:/a w:/b/c", b"extend c1 w:/a",
         b"extend h1 r:/", b"save c1 /a/b/c 00fF", b"save c1 / -", b"checkin c1", b"abandon c4294967295", b"hold r:/a/b/c/d/e/f/g",
         b"release h7", b"state c1", b"state h1", b"list /", b"fetch /a/b/c 0", b"fetch /a/b/c 4294967295", b"count /a/b/c", b"give c1 ben",
         b"note c1", b"note c1 -", b"note c1 0aB1", b"show c1", b"show h1", b"claims /a/b", b"drafts c1", b"draft c1 /a/b/c",
         b"wait c1", b"wait h1")
MARKS = (b" ", b"  ", b"\t", b"\r", b"\0", b"\x0b", b"\xa0", b"\xff", b"-", b"_", b"/", b"//", b"c", b"h", b"r:", b"w:", b":", b"0", b"1",
         b"9", b"+", b"A", b"Z", b"a", b"f", b"g", b"quit", b"note", b"4294967296", b"00", b".", b"@", b"x" * 32, b"/x" * 7)


def mutated(chance: random.Random) -> bytes:
    """A line of the protocol with up to three small changes. Few of them leave it a line of the protocol."""
    line = bytearray(chance.choice(VALID))
    for _ in range(chance.randrange(4)):
        at = chance.randrange(len(line) + 1)
        kind = chance.randrange(4)
        if kind == 0:
            line[at:at] = chance.choice(MARKS)
        elif kind == 1:
            del line[at:at + chance.randrange(1, 4)]
        elif kind == 2:
            line[at:at + 1] = chance.choice(MARKS)
        else:
            line += b" " + chance.choice(chance.choice(VALID).split(b" "))
    return bytes(line).replace(b"\n", b"")


def expanded(text: str) -> str:
    """A text of the attacks, in which <N x> stands for N times x."""
    return TIMES.sub(lambda found: int(found[1]) * found[2], text)


def wanted(replies: List[str]) -> List[str]:
    """The replies of an attack."""
    found: List[str] = []
    for reply in replies:
        many = TIMES.fullmatch(reply)
        found += int(many[1]) * [many[2]] if many else [reply]
    return found


def replies(text: bytes) -> List[str]:
    """The replies, without the numbers of sessions."""
    return [re.sub(r"^OK session \d+$", "OK session", line) for line in text.decode("ascii").splitlines()]


class ReadAlike(unittest.TestCase):
    """The gate takes a line for a command if, and only if, the server does."""

    def test_random_lines(self) -> None:
        server = Server(folder=MEMORY)
        self.addCleanup(server.close)
        server.start()
        chance, counted = random.Random(66), {True: 0, False: 0}
        for _ in range(4):
            lines = [line for line in (mutated(chance) for _ in range(4000)) if line != b"quit"]
            with server.connect() as connection:
                # Nobody says hello, so a command is answered 11, and a hello is left out of what is sent.
                lines = [line for line in lines if command_of(line) is None or not line.startswith(b"hello")]
                said = told(connection, b"".join(line + b"\n" for line in lines), len(lines)).split(b"\n")
            for line, reply in zip(lines, said):
                command = command_of(line)
                self.assertEqual(reply, b"ERR 10" if command is None else b"ERR 11", line)
                counted[command is not None] += 1
                if command is not None:
                    self.assertEqual(command.line.lower(), line.lower() + b"\n")
                    again = command_of(command.line[:-1])
                    self.assertEqual(again.line if again else b"", command.line)
        self.assertGreater(min(counted.values()), 3000, counted)

    def test_hellos(self) -> None:
        """The same for lines that begin with hello, each on a connection of its own."""
        server = Server("--workers", "8", folder=MEMORY)
        self.addCleanup(server.close)
        server.start()
        for name in (b"anna", b"a", b"a" * 32, b"a" * 33, b"-", b"_", b"0", b"", b" anna", b"anna ", b"Anna", b"an na", b"ann\xe9", b"anna\r",
                     b"anna\0", b"an.na", b"/anna", b"anna/", b"a\tb"):
            with server.connect() as connection:
                reply = told(connection, b"hello " + name + b"\n", 1)
            self.assertEqual(reply == b"ERR 10\n", command_of(b"hello " + name) is None, name)

    def test_longest_line(self) -> None:
        server = Server(folder=MEMORY)
        self.addCleanup(server.close)
        server.start()
        for size in (LINE_BYTES - 1, LINE_BYTES, LINE_BYTES + 1, LINE_BYTES + 2):
            line = b"checkout" + b" r:/" * ((size - 8) // 4) + b"x" * ((size - 8) % 4)
            self.assertEqual(len(line), size)
            with server.connect() as connection:
                reply = told(connection, line + b"\n", 1)
            self.assertEqual(reply, b"ERR 10\n" if size > LINE_BYTES else b"ERR 11\n", size)
            self.assertEqual(command_of(line) is None, size > LINE_BYTES, size)

    def test_pieces(self) -> None:
        """However the bytes come, the lines are the same, except for what a line has beyond the longest length."""
        chance = random.Random(67)
        for _ in range(300):
            text = b"\n".join(mutated(chance) * chance.choice((1, 1, 1, 400)) for _ in range(chance.randrange(1, 9)))
            whole = [line[:LINE_BYTES + 1] for line in text.split(b"\n")[:-1]]
            lines, found, at = Lines(), [], 0
            while at < len(text):
                size = chance.choice((1, 2, 7, 4096, 8192))
                found += [line[:LINE_BYTES + 1] for line in lines.ended_by(text[at:at + size])]
                at += size
                self.assertLessEqual(len(lines.begun), LINE_BYTES + 1)
            self.assertEqual(found, whole)


class WithDoor(unittest.TestCase):
    """A server with a part, a check-out of ben's with a draft, what records each line that reaches the server, and sshd before that."""

    def setUp(self) -> None:
        self.server = Server("--workers", "16", folder=MEMORY)
        self.addCleanup(self.server.close)
        self.server.start()
        with self.server.connect() as ben:
            said = told(ben, f"hello ben\nmake /engine\nmake /engine/block\nmake {PART}\ncheckout w:{PART}\nsave c1 {PART} 00\nquit\n".encode(), 7)
        self.assertEqual(said.count(b"OK"), 7, said)
        self.recorder = Cutter(self.server.port)
        self.addCleanup(self.recorder.close)
        self.door = Door(self.recorder.port)
        self.addCleanup(self.door.close)
        self.door.admit("anna")
        self.door.admit("guest", "--read")
        self.door.admit("eva", "--any-name")
        self.door.start()

    def files(self) -> Tuple[bytes, ...]:
        """The vault as it is on disk."""
        return tuple(Path(path).read_bytes() for path in self.server.files)

    def conversation(self, key: str, text: bytes, slowly: bool = False) -> List[str]:
        """All that is answered to what is sent, up to the end of the stream."""
        with self.door.ssh_again(key) as process:
            assert process.stdin is not None
            for piece in [text[at:at + 1] for at in range(len(text))] if slowly else [text]:
                process.stdin.write(piece)
                process.stdin.flush()
                time.sleep(0.005 if slowly else 0)
            said, _ = process.communicate(timeout=60)
        return replies(said)

    def kinds(self, command: str) -> List[str]:
        """The kinds of the lines that the log has of a command, with the replies."""
        found = [re.search(rf" (asks|told|lost|refused) {re.escape(command)}( -> (.*))?$", line) for line in self.door.logged()]
        return [match[1] + (" " + match[3] if match[3] else "") for match in found if match]


class Attacks(WithDoor):
    """Each line and byte string of tests/data/gate-attacks.toml."""

    def test_attacks(self) -> None:
        self.assertGreaterEqual(len(ATTACKS), 30)
        before = self.files()
        for attack in ATTACKS:
            with self.subTest(attack["name"]):
                self.recorder.lines.clear()
                key = attack.get("key", "anna")
                said = self.conversation(key, expanded(attack["sent"]).encode("latin-1"), attack.get("slowly", False))
                self.assertEqual(said, wanted(attack["told"]))
                for line in self.recorder.lines:
                    command = command_of(line[:-1])
                    self.assertEqual(command.line if command else b"", line)
                    self.assertIn(line if line.startswith(b"hello") else b"", (b"", b"hello " + key.encode() + b"\n"))
                    self.assertTrue(key == "anna" or command and command.asks, line)
        self.assertEqual(self.files(), before)
        self.assertEqual([line for line in self.door.logged() if " told " in line and " -> OK" in line], [])

    def test_broken_vault(self) -> None:
        """After a hello that a broken vault refuses, the gate refuses another's name."""
        broken = Server("--workers", "4", folder=MEMORY)
        self.addCleanup(broken.close)
        broken.start(Limits(file_bytes=120))
        with broken.connect() as first:
            said = told(first, b"hello ben\n" + b"".join(b"make /p%d\n" % number for number in range(20)), 21)
            self.assertIn(b"ERR 82", said)
        self.recorder.server_port = broken.port
        self.assertEqual(self.conversation("anna", b"hello anna\nhello ben\nhello anna\n"), ["ERR 82", "ERR 31", "ERR 82"])


class Roles(WithDoor):
    """What each kind of key may do, and in what order refusals come."""

    def test_own_name(self) -> None:
        said = self.conversation("anna", b"hello anna\nmake /a\nhello ben\ncheckout w:/a\nbad\nlist /\nnote c2\nquit\n")
        self.assertEqual(said, ["OK session", "OK place 4", "ERR 31", "OK held c2", "ERR 10", "OK list 2 engine a", "OK note -", "OK left"])

    def test_questions(self) -> None:
        text = f"hello guest\nstate c1\nlist /\ncount {PART}\nfetch {PART} 1\nnote c1\nquit\n".encode()
        self.assertEqual(self.conversation("guest", text),
                         ["OK session", "OK held c1", "OK list 1 engine", "OK versions 0", "ERR 40", "OK note -", "OK left"])

    def test_new_questions(self) -> None:
        """Anybody may ask who holds what; drafts are their owner's."""
        questions = [b"show c1\n", b"claims /engine\n", b"drafts c1\n", f"draft c1 {PART}\n".encode(), b"wait c1\n"]
        self.assertEqual(self.conversation("guest", b"hello guest\n" + b"".join(questions) + b"quit\n"),
                         ["OK session", f"OK claim c1 ben held w:{PART}", "OK claims 1 c1", "ERR 31", "ERR 31", "OK held c1", "OK left"])
        self.assertEqual(self.recorder.lines, [b"hello guest\n", *questions, b"quit\n"])

    def test_drafts_that_were_given(self) -> None:
        """A name that may only look can read the drafts of a check-out that was given to it, and still changes nothing of it."""
        self.assertEqual(self.conversation("eva", b"hello ben\ngive c1 guest\nquit\n"), ["OK session", "OK given", "OK left"])
        text = f"hello guest\ndrafts c1\ndraft c1 {PART}\nsave c1 {PART} 01\ncheckin c1\nabandon c1\ngive c1 anna\nnote c1 00\nquit\n".encode()
        self.assertEqual(self.conversation("guest", text), ["OK session", f"OK drafts 1 {PART}", "OK content 00", *5 * ["ERR 31"], "OK left"])

    def test_wait(self) -> None:
        """A wait through a gate is answered once the claim is held, and meanwhile other gates, and the log, go on."""
        self.conversation("eva", b"hello anna\ncheckout w:/engine\nquit\n")
        with self.door.ssh_again("guest") as waiting:
            assert waiting.stdin is not None and waiting.stdout is not None
            for line, reply in ((b"hello guest\n", b"OK s"), (b"wait c2\n", b"")):
                waiting.stdin.write(line)
                waiting.stdin.flush()
                self.assertEqual(waiting.stdout.readline()[:4] if reply else b"", reply)
            self.assertEqual(select.select([waiting.stdout], [], [], 2)[0], [], "it was answered while the claim was queued")
            self.assertEqual(self.conversation("eva", b"hello ben\nabandon c1\nquit\n"), ["OK session", "OK abandoned", "OK left"])
            self.assertEqual(waiting.stdout.readline(), b"OK held c2\n")
        self.assertEqual([line for line in self.door.logged() if " wait " in line], [])

    def test_any_name(self) -> None:
        self.assertEqual(self.conversation("eva", b"hello ben\nabandon c1\nquit\n"), ["OK session", "OK abandoned", "OK left"])
        self.assertEqual(self.kinds("hello ben"), ["asks", "told OK session 2"])
        done = [line for line in self.door.logged() if line.endswith("told abandon c1 -> OK abandoned")]
        self.assertIn(f" key={self.door.keys['eva']} by=eva as=ben ", done[0])

    def test_spelled_anew(self) -> None:
        """A content is sent on in lower case, so what reaches the server has one spelling."""
        self.conversation("eva", f"hello ben\nsave c1 {PART} 0aFF\nquit\n".encode())
        self.assertIn(f"save c1 {PART} 0aff\n".encode(), self.recorder.lines)


class Room(WithDoor):
    """One name leaves room for the others, however many connections it makes."""

    def enter(self, key: str) -> "subprocess.Popen[bytes]":
        """A conversation that has begun."""
        process = self.door.ssh(key)
        assert process.stdin is not None and process.stdout is not None
        process.stdin.write(f"hello {key}\n".encode())
        process.stdin.flush()
        self.assertEqual(process.stdout.readline()[:11], b"OK session ")
        return process

    def test_places_of_a_name(self) -> None:
        """The ninth conversation of a name is refused with a sentence, and another name's is not. One that ends makes room."""
        eight = [self.enter("guest") for _ in range(8)]
        said, why = self.door.ssh("guest").communicate(b"hello guest\n", timeout=60)
        self.assertEqual(said, b"")
        self.assertIn(b"vaultd-gate: guest has 8 conversations at once, and no more are let in: end one, then come again.", why)
        self.assertEqual(self.conversation("anna", b"hello anna\nquit\n"), ["OK session", "OK left"])
        eight.pop().communicate(b"quit\n", timeout=60)
        eight.append(self.enter("guest"))
        self.assertEqual(len(list(self.door.places.iterdir())), 9)
        for process in eight:
            process.communicate(timeout=60)


class WithoutConversation(WithDoor):
    """Connections in which nothing is said are ended by the lines of contrib/gate/sshd.conf."""

    MOST = 40

    def settings(self, seconds: int) -> List[str]:
        """Those lines; an hour of silence is shorter here."""
        lines = re.findall(r"^  ((?:UnusedConnection|Channel)Timeout .*)$", (TOP / "contrib" / "gate" / "sshd.conf").read_text("utf-8"), re.MULTILINE)
        self.assertEqual(lines, ["UnusedConnectionTimeout 15", "ChannelTimeout session:*=1h"])
        return [line.replace("1h", f"{seconds}s") for line in lines]

    def without_command(self, count: int) -> "List[subprocess.Popen[bytes]]":
        """So many connections by `ssh -N`."""
        environment = self.door.environment("guest")
        return [subprocess.Popen(["ssh", "-N", "-o", "BatchMode=yes", "-p", str(self.door.port), "127.0.0.1"], env=environment,
                                 stdin=subprocess.DEVNULL, stdout=subprocess.DEVNULL, stderr=subprocess.PIPE) for _ in range(count)]

    def start_door(self, seconds: int) -> Door:
        """An sshd with these lines."""
        self.door.close()
        self.door = Door(self.recorder.port, self.settings(seconds))
        self.addCleanup(self.door.close)
        self.door.admit("guest", "--read")
        self.door.start()
        return self.door

    def test_no_command(self) -> None:
        """Forty by `ssh -N` are ended after fifteen seconds, and a conversation beside them goes on."""
        self.start_door(600)
        with self.door.ssh("guest") as talks:
            assert talks.stdin is not None and talks.stdout is not None
            talks.stdin.write(b"hello guest\n")
            talks.stdin.flush()
            self.assertEqual(talks.stdout.readline()[:11], b"OK session ")
            idle = self.without_command(self.MOST)
            said = [process.communicate(timeout=60)[1].decode("utf-8") for process in idle]
            self.assertEqual([process.returncode for process in idle], self.MOST * [255], said)
            ended = (self.door.folder / "sshd.log").read_text("utf-8").count("terminating inactive connection from user")
            self.assertEqual(ended, self.MOST, said)
            self.assertEqual(talks.communicate(b"list /\nquit\n", timeout=60)[0], b"OK list 1 engine\nOK left\n")

    def test_silent_conversation(self) -> None:
        """A conversation that is silent for as long as the other line says is ended, its place is free, and a new one comes in."""
        self.start_door(3)
        process = self.door.ssh("guest")
        assert process.stdin is not None and process.stdout is not None
        process.stdin.write(b"hello guest\n")
        process.stdin.flush()
        self.assertEqual(process.stdout.readline()[:11], b"OK session ")
        self.assertEqual(process.stdout.read(), b"")
        process.communicate(timeout=60)
        self.assertEqual(self.conversation("guest", b"hello guest\nquit\n"), ["OK session", "OK left"])


class Logged(WithDoor):
    """Each change is in the log once, with who did it, and nothing is there as done that wasn't."""

    def test_each_change_once(self) -> None:
        said = self.conversation("anna", b"hello anna\nmake /a\nmake /a\ncheckout w:/a\nabandon c1\nsave c1 / -\nlist /\nnote c2 00\n"
                                         b"abandon c2\nquit\n")
        self.assertEqual(said, ["OK session", "OK place 4", "ERR 21", "OK held c2", "ERR 31", "ERR 31", "OK list 2 engine a", "OK noted",
                                "OK abandoned", "OK left"])
        self.assertEqual(self.kinds("make /a"), ["asks", "told OK place 4", "asks", "told ERR 21"])
        self.assertEqual(self.kinds("checkout w:/a"), ["asks", "told OK held c2"])
        self.assertEqual(self.kinds("abandon c1"), ["asks", "told ERR 31"])
        self.assertEqual(self.kinds("note c2 (1 bytes)"), ["asks", "told OK noted"])
        self.assertEqual(self.kinds("abandon c2"), ["asks", "told OK abandoned"])
        lines = self.door.logged()
        self.assertEqual(len(lines), 12)
        for line in lines:
            self.assertIn(f" vault=127.0.0.1:{self.recorder.port} from=127.0.0.1 key={self.door.keys['anna']} by=anna as=anna ", line)

    def test_many_refusals(self) -> None:
        """Of many refusals in a conversation the log has the first, each cut short, and one line for all others."""
        line = b"checkout" + 400 * b" r:/engine" + b"\n"
        said = self.conversation("guest", b"hello guest\nmake /x\n" + 40 * line + b"list /\nquit\n")
        self.assertEqual(said, ["OK session", *41 * ["ERR 31"], "OK list 1 engine", "OK left"])
        logged = self.door.logged()
        self.assertEqual(len(logged), 17)
        self.assertLess(max(map(len, logged)), 600)
        self.assertTrue(logged[0].endswith(" refused make /x -> ERR 31"), logged[0])
        self.assertRegex(logged[1], r" refused checkout( r:/engine){24} r:/engi\.\. -> ERR 31$")
        self.assertTrue(logged[16].endswith(" refused further lines -> ERR 31"), logged[16])
        self.assertEqual(self.asked("/"), [])

    def test_client_killed(self) -> None:
        """A client that is killed while its change is under way: the log says what became of it, and the session ends."""
        process = self.door.ssh("anna")
        assert process.stdin is not None and process.stdout is not None and self.server.process is not None
        process.stdin.write(b"hello anna\nhold r:/engine\n")
        process.stdin.flush()
        self.assertEqual([process.stdout.readline()[:4] for _ in range(2)], [b"OK s", b"OK q"])
        self.server.suspend()
        process.stdin.write(b"make /late\nmake /later\n")
        process.stdin.flush()
        self.until(lambda: self.kinds("make /late") == ["asks"])
        process.kill()
        process.communicate()
        self.server.process.send_signal(signal.SIGCONT)
        self.until(lambda: self.kinds("make /late") == ["asks", "told OK place 4"])
        with self.server.connect() as other:
            self.until(lambda: told(other, b"hello anna\nstate h1\n", 2).endswith(b"ERR 30\n"))
            later = told(other, b"list /\n", 1).endswith(b" later\n")
        # The second line had come, too: whether sshd or the reply was quicker, the log has what the vault has.
        self.assertEqual(self.kinds("make /later"), ["asks", "told OK place 5"] if later else [])

    def test_server_killed(self) -> None:
        """A server that is killed while a change is under way: the log says that its reply was lost, and the client sees the end."""
        process = self.door.ssh("anna")
        assert process.stdin is not None and process.stdout is not None and self.server.process is not None
        process.stdin.write(b"hello anna\n")
        process.stdin.flush()
        self.assertEqual(process.stdout.readline()[:4], b"OK s")
        self.server.suspend()
        process.stdin.write(b"make /late\n")
        process.stdin.flush()
        self.until(lambda: self.kinds("make /late") == ["asks"])
        self.server.kill()
        self.assertEqual(process.communicate(timeout=30)[0], b"")
        self.assertEqual(self.kinds("make /late"), ["asks", "lost"])

    def until(self, holds: Any) -> None:
        """Waits for something."""
        for _ in range(200):
            if holds():
                return
            time.sleep(0.05)
        self.fail(self.door.logged())

    def test_asked_of(self) -> None:
        """For each line of the log, `vaultd-log` says who took, gave away, abandoned or checked in a place."""
        self.conversation("anna", b"hello anna\nmake /a\ncheckout w:/a\nextend c2 r:/engine\ngive c2 ben\nabandon c2\ncheckout r:/a\nquit\n")
        self.conversation("eva", b"hello ben\nsave c1 /engine/block/piston 01\ncheckin c1\nabandon c2\nquit\n")
        self.assertEqual(self.asked("/a", unknown=1), [
            "anna made /a", "anna took c2 to change /a: held", "anna gave c2 to ben (change /a)",
            "anna asked for c3 to look at /a: queued behind c2", "eva as ben abandoned c2 (change /a)"])
        self.assertIn(f"eva as ben checked in c1 (change {PART}, perhaps more): 1 new version", self.asked("/"))
        self.assertIn(f"eva as ben saved {PART} (1 bytes) in c1", self.asked(PART, "--all"))

    def test_asked_of_what_the_log_lacks(self) -> None:
        """A check-out that the log doesn't have, as c1, is known by its drafts and the places made in its name; what isn't known is counted."""
        with self.server.connect() as ben:
            self.assertEqual(told(ben, b"hello ben\nmake /wing\ncheckout w:/wing\nquit\n", 4).count(b"OK"), 4)
        self.conversation("eva", f"hello ben\nnote c1 00\ngive c1 ben\nsave c1 {PART} 01\ngive c1 anna\nquit\n".encode())
        self.conversation("eva", b"hello ben\nmake /wing/rib c2\nabandon c2\nquit\n")
        self.conversation("anna", b"hello anna\ncheckin c1\nquit\n")
        self.assertEqual(self.asked(PART, unknown=2), [f"eva as ben gave c1 to anna (change {PART}, perhaps more)",
                                                       f"anna checked in c1 (change {PART}, perhaps more): 1 new version"])
        self.assertEqual(self.asked("/wing", unknown=3), ["eva as ben made /wing/rib in c2",
                                                          "eva as ben abandoned c2 (change /wing/rib, perhaps more)"])
        self.assertEqual(self.asked("/desk", "--all", unknown=5), [])
        self.assertEqual(len(self.asked("/")), 5)

    def asked(self, place: str, *words: str, unknown: int = 0) -> List[str]:
        """What `vaultd-log` prints, without times; how many commands are of check-outs whose places it doesn't know."""
        done = subprocess.run([str(self.door.programs / "vaultd-log"), place, "--log", str(self.door.log), *words], capture_output=True,
                              text=True, check=True)
        self.assertEqual(done.stderr, f"vaultd-log: {unknown} more may be of {place}, by check-outs whose places this log doesn't have: ask for /"
                         " to see them.\n" if unknown else "")
        return [line.split(" UTC  ")[1] for line in done.stdout.splitlines()]


class Alone(unittest.TestCase):
    """A gate without sshd, on one socket, as sshd gives it."""

    def setUp(self) -> None:
        self.server = Server("--workers", "4", folder=MEMORY)
        self.addCleanup(self.server.close)
        self.server.start()
        self.door = Door(self.server.port)
        self.addCleanup(self.door.close)

    def gate(self, *words: str) -> Tuple["subprocess.Popen[bytes]", socket.socket]:
        """A gate, and the client's end of its socket."""
        ours, theirs = socket.socketpair()
        process = subprocess.Popen([*self.door.gate("anna"), *words], stdin=theirs.fileno(), stdout=theirs.fileno(),
                                   stderr=subprocess.PIPE)
        theirs.close()
        self.addCleanup(self.end, process)
        self.addCleanup(ours.close)
        return process, ours

    def end(self, process: "subprocess.Popen[bytes]") -> None:
        """Ends a gate that goes on."""
        process.kill()
        process.wait()
        assert process.stderr is not None
        process.stderr.close()

    def test_memory(self) -> None:
        """15 MB at most, also after many lines and long ones."""
        process, client = self.gate()
        text = b"hello anna\n" + b"make /a\nlist /\n" * 100 + b"x" * 100000 + b"\n"
        self.assertTrue(told(client, text, 202).endswith(b"ERR 10\n"))
        found = re.search(r"^VmHWM:\s+(\d+) kB", Path(f"/proc/{process.pid}/status").read_text("ascii"), re.MULTILINE)
        self.assertIsNotNone(found)
        self.assertLess(int(found[1]) if found else 0, 15000)

    def test_time(self) -> None:
        """A gate that runs adds 1 ms at most to a command, by the medians of many, at the server and through the gate in turns."""
        for line in (b"list /\n", b"make /a\n"):
            added = min(self.median_of_gate(line) - self.median_of(self.server.connect(), line) for _ in range(5))
            self.assertLess(added, 0.001, line)

    def median_of_gate(self, line: bytes) -> float:
        """How long a reply takes through the gate."""
        _, client = self.gate()
        return self.median_of(client, line)

    def median_of(self, connection: socket.socket, line: bytes) -> float:
        """How long a reply takes on a connection, in seconds."""
        took = []
        with connection:
            told(connection, b"hello anna\nmake /a\n", 2)
            for _ in range(300):
                began = time.perf_counter()
                told(connection, line, 1)
                took.append(time.perf_counter() - began)
        return statistics.median(took)

    def test_client_ends_while_it_waits(self) -> None:
        """When a client ends while its question is under way, its gate ends, too, and frees the place at the server."""
        assert self.server.process is not None
        process, client = self.gate()
        told(client, b"hello anna\n", 1)
        self.server.suspend()
        client.sendall(b"wait c1\n")
        time.sleep(0.5)
        self.assertIsNone(process.poll())
        client.close()
        self.assertEqual(process.wait(20), 0)
        self.server.process.send_signal(signal.SIGCONT)

    def test_full_log(self) -> None:
        """A change isn't sent on if the log doesn't take its line; questions are."""
        self.door.log.symlink_to("/dev/full")
        process, client = self.gate()
        self.assertEqual(replies(told(client, b"hello anna\nmake /a\nlist /\nquit\n", 4)), ["OK session", "ERR 80", "OK list 0", "OK left"])
        self.assertIn(b"the log can't be written: No space left on device. Nothing was sent on", process.communicate(timeout=20)[1])

    def test_places(self) -> None:
        """A gate that is killed makes room. Each server has places of its own. A folder that can't be used is named; without one nobody counts."""
        words = ("--at-once", "1")
        first, client = self.gate(*words)
        told(client, b"hello anna\n", 1)
        self.assertIn(b"anna has 1 conversations at once", self.gate(*words)[0].communicate(timeout=20)[1])
        self.assertIn(b"no server answers", self.gate(*words, "--server", "127.0.0.1:9")[0].communicate(timeout=20)[1])
        told(self.gate(*words, "--places", str(self.door.folder / "nowhere"))[1], b"hello anna\nquit\n", 2)
        self.assertIn(b"log can't be used: Not a directory. Ask", self.gate(*words, "--places", str(self.door.log))[0].communicate(timeout=20)[1])
        first.kill()
        first.wait()
        told(self.gate(*words)[1], b"hello anna\nquit\n", 2)

    def test_rotated_log(self) -> None:
        """A gate that runs on follows a rotation, and then another, behind which the first file is gone. No line is lost."""
        _, client = self.gate()
        first, second = (self.door.folder / name for name in ("log.1", "log.2"))
        told(client, b"hello anna\nmake /a\n", 2)
        self.door.log.rename(first)
        told(client, b"make /b\n", 1)
        self.assertEqual((self.made(first), self.door.log.exists()), (["/a", "/a", "/b", "/b"], False))
        self.door.log.touch()
        told(client, b"make /c\n", 1)
        self.door.log.rename(second)
        second.unlink()
        first.unlink()
        self.door.log.touch()
        told(client, b"make /d\n", 1)
        self.assertEqual(self.made(self.door.log), ["/d", "/d"])

    def test_removed_log(self) -> None:
        """A log's file that is removed is made again; where that, or opening the new one, is refused, no change is sent on."""
        process, client = self.gate()
        told(client, b"hello anna\nmake /a\n", 2)
        self.door.log.unlink()
        told(client, b"make /b\n", 1)
        self.assertEqual(self.made(self.door.log), ["/b", "/b"])
        self.door.log.unlink()
        self.door.log.mkdir()
        self.assertEqual(told(client, b"make /c\nlist /\nquit\n", 3), b"ERR 80\nOK list 2 a b\nOK left\n")
        self.assertIn(b"the log can't be written: Is a directory. Nothing was sent on", process.communicate(timeout=20)[1])

    def made(self, log: Path) -> List[str]:
        """The places of the lines of a log, of which each has one before it was made and one after."""
        return re.findall(r" (?:asks|told) make (\S+)", log.read_text("ascii"))

    @unittest.skipUnless(os.getuid() == 0, "needs root, for a disk of its own")
    def test_nearly_full_log(self) -> None:
        """Refusals leave 120 MB of the log's disk, and changes 60 MB, for a vault that may be there, too."""
        for size, replies_wanted, kinds in ((200, ["ERR 31", "OK place 1"], ["refused", "asks", "told"]),
                                            (100, ["ERR 31", "OK place 2"], ["asks", "told"]), (50, ["ERR 31", "ERR 80"], [])):
            mounted = f'mount -t tmpfs -o size={size}m tmpfs "$0"; "$@"; cat "$0/log"'
            call = ["unshare", "--mount", "sh", "-c", mounted, str(self.door.folder), *self.elsewhere(), "--log", f"{self.door.folder}/log"]
            done = subprocess.run(call, input=b"hello anna\nhello ben\nmake /a%d\nquit\n" % size, capture_output=True, timeout=20, check=True)
            said = replies(done.stdout)
            self.assertEqual(said[:4], ["OK session", *replies_wanted, "OK left"])
            self.assertEqual([line.split()[7] for line in said[4:]], kinds)
            self.assertEqual([megabytes in done.stderr for megabytes in (b"than 120 MB left", b"than 60 MB left")], [size < 120, size < 60])

    def elsewhere(self) -> List[str]:
        """The command line of a gate whose program isn't in the folder of the log."""
        return [*program("vaultd-gate"), "--as", "anna", "--server", f"127.0.0.1:{self.server.port}"]

    def test_no_log(self) -> None:
        process, client = self.gate("--log", "/nowhere/log")
        self.assertEqual(heard(client), b"")
        said = process.communicate(timeout=20)[1]
        self.assertEqual((process.returncode, b"/nowhere/log can't be opened" in said), (1, True))

    def test_system_log(self) -> None:
        """Each line goes to the system's log, too; if there is none, that is said once."""
        path = str(self.door.folder / "syslog")
        with socket.socket(socket.AF_UNIX, socket.SOCK_DGRAM) as system:
            system.bind(path)
            process, client = self.gate("--syslog", path)
            told(client, b"hello anna\nmake /a\nquit\n", 3)
            self.assertEqual(process.communicate(timeout=20)[1], b"")
            lines = [system.recv(65536).decode("ascii") for _ in range(2)]
        for line, written in zip(lines, self.door.logged()):
            self.assertRegex(line, r"^<86>[A-Z][a-z]{2} [ \d]\d \d\d:\d\d:\d\d vaultd-gate\[\d+\]: ")
            self.assertTrue(line.endswith("]: " + written), (line, written))
        process, client = self.gate("--syslog", path + "-none")
        told(client, b"hello anna\nmake /b\nquit\n", 3)
        self.assertEqual(process.communicate(timeout=20)[1].count(b"no system log takes lines"), 1)

    def without_file(self, syslog: str) -> Tuple["subprocess.Popen[bytes]", socket.socket]:
        """A gate to whose log no file is named."""
        ours, theirs = socket.socketpair()
        process = subprocess.Popen([*self.elsewhere(), "--syslog", syslog], stdin=theirs.fileno(), stdout=theirs.fileno(), stderr=subprocess.PIPE)
        theirs.close()
        self.addCleanup(self.end, process)
        self.addCleanup(ours.close)
        return process, ours

    def test_without_any_log(self) -> None:
        """A change that no log would have isn't sent on: neither from the start, nor once the system's log is gone, until it is back."""
        path = str(self.door.folder / "syslog")
        process, client = self.without_file(path)
        self.assertEqual(replies(told(client, b"hello anna\nmake /a\nlist /\n", 3)), ["OK session", "ERR 80", "OK list 0"])
        with socket.socket(socket.AF_UNIX, socket.SOCK_DGRAM) as system:
            system.bind(path)
            self.assertEqual(told(client, b"make /b\n", 1), b"OK place 1\n")
            self.assertEqual([system.recv(65536).split()[-4:] for _ in range(2)][0][-3:], [b"asks", b"make", b"/b"])
        Path(path).unlink()
        self.assertEqual(told(client, b"make /c\nlist /\n", 2), b"ERR 80\nOK list 1 b\n")
        with socket.socket(socket.AF_UNIX, socket.SOCK_DGRAM) as system:
            system.bind(path)
            self.assertEqual(told(client, b"make /d\nquit\n", 2), b"OK place 2\nOK left\n")
        said = process.communicate(timeout=20)[1].decode("utf-8")
        refusal = (f"vaultd-gate: no log takes a line: no system log takes lines at {path}: No such file or directory, and no file is named with"
                   " --log. Nothing was sent on; ask whoever runs the server.\n")
        self.assertEqual((said.count(refusal), said.count("Nothing was sent on")), (2, 2), said)

    def test_system_log_that_is_started_anew(self) -> None:
        """A line that the earlier system log doesn't take goes to the one in its place."""
        path = str(self.door.folder / "syslog")
        with socket.socket(socket.AF_UNIX, socket.SOCK_DGRAM) as system:
            system.bind(path)
            process, client = self.without_file(path)
            told(client, b"hello anna\nmake /a\n", 2)
        Path(path).unlink()
        with socket.socket(socket.AF_UNIX, socket.SOCK_DGRAM) as system:
            system.bind(path)
            self.assertEqual(told(client, b"make /b\nquit\n", 2), b"OK place 2\nOK left\n")
            self.assertEqual([system.recv(65536).split(b" as=anna ")[1] for _ in range(2)], [b"asks make /b", b"told make /b -> OK place 2"])
        self.assertEqual(process.communicate(timeout=20)[1], b"")

    def test_ends_with_the_connection(self) -> None:
        """The gate ends with its client, with its server, after 4,096 lines, and after 16 MiB."""
        process, client = self.gate()
        told(client, b"hello anna\n", 1)
        client.close()
        self.assertEqual(process.wait(20), 0)
        process, client = self.gate()
        self.assertEqual(heard_all(client, b"\n" * 5000).count(b"ERR 10\n"), 4096)
        process, client = self.gate()
        client.settimeout(60)
        with self.assertRaises(OSError):
            for _ in range(400):
                client.sendall(b"x" * 65536)
        self.assertEqual(process.wait(20), 0)
        process, client = self.gate()
        told(client, b"hello anna\n", 1)
        self.server.kill()
        self.assertEqual((heard(client), process.wait(20)), (b"", 0))
        process, client = self.gate()
        self.assertEqual(heard(client), b"")
        self.assertIn(b"no server answers at 127.0.0.1", process.communicate(timeout=20)[1])

    def test_pipes(self) -> None:
        """A gate whose input ends still answers what was asked before that."""
        done = subprocess.run(self.door.gate("anna"), input=b"hello anna\nlist /\n", capture_output=True, timeout=20, check=True)
        self.assertEqual(replies(done.stdout), ["OK session", "OK list 0"])

    def test_command_line(self) -> None:
        wrong: List[List[str]] = [["--as", "Anna"], ["--as", ""], ["--as", "an na"], [], ["--as", "anna", "--server", "x"],
                                  ["--as", "anna", "ben"], ["--as", "anna", "--rea"], ["--as", "anna", "--at-once", "0"]]
        for words in wrong:
            done = subprocess.run([self.door.gate("anna")[0], *words], capture_output=True, timeout=20, check=False)
            self.assertEqual(done.returncode, 2, words)


def heard_all(connection: socket.socket, text: bytes) -> bytes:
    """Sends a text while it reads, and answers all that came."""
    connection.sendall(text)
    return b"".join(iter(lambda: taken(connection), b""))


def taken(connection: socket.socket) -> bytes:
    """What comes next; nothing at the end, however the connection ends."""
    try:
        return connection.recv(65536)
    except ConnectionResetError:
        return b""


class LogLines(unittest.TestCase):
    """What `vaultd-log` makes of lines that a log should not have."""

    def test_damaged(self) -> None:
        damaged: List[str] = []
        before = "2026-11-27T20:53:02.500685Z id=bd8cc6d4a12f03e7.3 vault=h:1 from=- key=- by=anna as=anna "
        found = list(records([before + "asks make /e\n", before[:44] + before + "told make /e -> OK place 1\n", before + "told make\n", "\n",
                              before + "says make /e\n", before.replace("anna", "An")], damaged))
        self.assertEqual([(record.kind, record.words, record.reply) for record in found],
                         [("asks", ("make", "/e"), ""), ("told", ("make", "/e"), "OK place 1"), ("told", ("make",), "")])
        self.assertEqual(len(damaged), 3)
        self.assertEqual([record.done for record in outcomes(found[:2])], [True])
        self.assertEqual([record.done for record in outcomes(found[:1])], [None])

    def test_nobody_reads_on(self) -> None:
        """If nobody reads on, as behind `head`, nothing is said of it; if what is found can't be written, that is."""
        line = "2026-11-27T20:53:02.500685Z id={:016x}.3 vault=h:1 from=- key=- by=anna as=anna {} make /e{}\n"
        with tempfile.NamedTemporaryFile("w", encoding="ascii") as log:
            log.writelines(line.format(number, kind, reply) for number in range(9000) for kind, reply in (("asks", ""), ("told", " -> OK place 1")))
            log.flush()
            call = " ".join(shlex.quote(word) for word in [*program("vaultd-log"), "/", "--log", log.name])
            for where, said in ((" | head -n 1", ""), (" > /dev/full", "vaultd-log: [Errno 28] No space left on device\n")):
                done = subprocess.run(["bash", "-c", call + where + "; exit ${PIPESTATUS[0]}"], capture_output=True, text=True, timeout=60,
                                      check=False)
                self.assertEqual((done.returncode, done.stderr), (1, said))


class Keys(unittest.TestCase):
    """What `vaultd-gate-keys` says of a file of keys: the example of contrib/gate, and lines that tie a key to no name."""

    GOOD = 'restrict,command="/usr/sbin/vaultd-gate --as anna --log /var/log/g" '
    EXAMPLE = TOP / "contrib" / "gate" / "authorized_keys"
    KEY: str
    folder: Path

    @classmethod
    def setUpClass(cls) -> None:
        cls.folder = Path(cls.enterClassContext(tempfile.TemporaryDirectory(prefix="vault-test-")))
        cls.KEY = cls.new_key("anna")

    @classmethod
    def new_key(cls, name: str) -> str:
        """The public half of a new key."""
        make_key(cls.folder / name)
        return " ".join((cls.folder / f"{name}.pub").read_text("ascii").split()[:2])

    def test_example(self) -> None:
        """The example lets nobody in. With keys in their places, its lines are as they must be; without them, they say so."""
        done = subprocess.run([*program("vaultd-gate-keys"), str(self.EXAMPLE)], capture_output=True, text=True, check=True)
        self.assertEqual((done.stdout, done.stderr), (f"{self.EXAMPLE} lets nobody in yet: put in a line for each designer's key.\n", ""))
        lines = [line.removeprefix("#") for line in self.EXAMPLE.read_text("utf-8").splitlines() if line.startswith("#restrict")]
        told, wrong = complaints_of(lines)
        self.assertEqual((len(told), [sentence.partition(": ")[2] for sentence in wrong]), (4, 4 * ["it can't be read"]))
        told, wrong = complaints_of([line.replace("ssh-ed25519 PUBLIC-KEY", self.new_key(f"key{number}")) for number, line in enumerate(lines)])
        self.assertEqual([sentence.partition(": ")[0] for sentence in told], ["anna", "anna", "guest, only asks", "eva or anybody"])
        self.assertEqual(wrong, [])

    def test_no_secret(self) -> None:
        """A signature by a key of small order needs no secret: who has such a line in force lets everybody in. The example has none."""
        forger, door = Forger(self.folder), Door(0)
        self.addCleanup(forger.close)
        self.addCleanup(door.close)
        door.start()
        keys = door.folder / "authorized_keys"
        keys.write_text(f"{self.GOOD}ssh-ed25519 {base64.b64encode(KEY).decode()}\n", "ascii")
        self.assertTrue(any("Authenticated to 127.0.0.1" in self.tried(forger, door) for _ in range(40)))
        keys.write_text(self.EXAMPLE.read_text("utf-8"), "utf-8")
        said = self.tried(forger, door)
        self.assertNotIn("Server accepts key", said)
        self.assertIn("Permission denied", said)

    def tried(self, forger: Forger, door: Door) -> str:
        """What ssh says when the forger tries to come in."""
        done = subprocess.run(["ssh", "-v", "-T", "-F", door.config("nobody"), "-o", "BatchMode=yes", "-o", f"IdentityAgent={forger.path}",
                               "-o", "IdentitiesOnly=no", "-p", str(door.port), "127.0.0.1"], stdin=subprocess.DEVNULL, capture_output=True,
                              text=True, timeout=60, check=False)
        return done.stderr

    def test_weak_keys(self) -> None:
        """Each key of small order is complained of, however it is spelled, and each key of the earlier example."""
        prime, eighth = 2 ** 255 - 19, "26e8958fc2b227b045c3f489f2ef98f0d5dfac05d3c63339b13802886d53fc05"
        small = [number.to_bytes(32, "little") for number in (0, 1, prime - 1, prime, prime + 1, 2 ** 255, 2 ** 255 + 1)]
        small += [bytes.fromhex(eighth), bytes.fromhex("c7176a703d4dd84fba3c0b760d10670f2a2053fa2c39ccc64ec7fd7792ac037a")]
        for kind in (b"ssh-ed25519", b"sk-ssh-ed25519@openssh.com"):
            for point, complaint in [(point, "everybody can sign by its key") for point in small] + [(bytes([*bytes(31), 2]), "an example's")]:
                key = base64.b64encode(string(kind) + string(point) + string(b"ssh:")).decode()
                _, wrong = complaints_of([f"{self.GOOD}{kind.decode()} {key}"])
                self.assertEqual((len(wrong), complaint in "".join(wrong)), (1, True), (point, wrong))
        for torn in ("AAAA", "AAAAC3NzaC1lZDI1NTE5AAAAI", base64.b64encode(string(b"ssh-rsa") + string(b"x")).decode()):
            self.assertEqual(complaints_of([f"{self.GOOD}ssh-ed25519 {torn}"])[1], ["line 1: its key can't be read"])

    def test_complaints(self) -> None:
        no_gate = "none that the gate takes"
        for options, complaint in (
                ("", "it has no command"), ("restrict ", "it has no command"), (self.GOOD.replace("restrict,", ""), "it has no `restrict`"),
                (self.GOOD.replace("restrict,", "restrict,pty,"), "it has `pty`"), (self.GOOD.replace(" --as anna", ""), no_gate),
                (self.GOOD.replace("restrict,", "restrict,port-forwarding,"), "it has `port-forwarding`"),
                (self.GOOD.replace("restrict,", 'restrict,environment="PYTHONPATH=/tmp",'), "it has `environment`"),
                (self.GOOD.replace("anna", "Anna"), no_gate), (self.GOOD.replace("vaultd-gate", "sh"), "its command is not the gate"),
                (self.GOOD.replace("/usr/sbin/", ""), "its command is not the gate"), (self.GOOD.replace('/g"', '/g;sh"'), "a shell reads"),
                (self.GOOD.replace("anna", "$SSH_ORIGINAL_COMMAND"), no_gate), ("cert-authority," + self.GOOD, "cert-authority"),
                (self.GOOD.replace(" --log", '",command="sh'), "it can't be read"), ("restrict,command=vaultd-gate ", "it can't be read"),
                (self.GOOD.replace(" --log /var/log/g", ""), "its command has no `--log FILE`"),
                (self.GOOD.replace(" --log /var/log/g", " --read"), "its command has no `--log FILE`")):
            with self.subTest(options):
                _, wrong = complaints_of([options + self.KEY])
                self.assertIn(complaint, "".join(wrong[:1]))
        self.assertEqual(complaints_of([self.GOOD + self.KEY])[1], [])
        self.assertIn("the key of line 1", complaints_of([self.GOOD + self.KEY, self.GOOD.replace("anna", "ben") + self.KEY])[1][0])


@unittest.skipUnless(os.getuid() == 0, "needs root, for namespaces of its own")
class SetUp(unittest.TestCase):
    """The gate as it is installed, in namespaces of its own: users, sshd's settings, the rule by user."""

    def test_try(self) -> None:
        done = subprocess.run([str(TOP / "contrib" / "gate" / "try"), VAULTD], stdin=subprocess.DEVNULL, stdout=subprocess.PIPE,
                              stderr=subprocess.STDOUT, text=True, timeout=240, check=False)
        self.assertEqual(done.returncode, 0, done.stdout)
        self.assertRegex(done.stdout, r"\n[3-9]\d passed, 0 failed\n$")


if __name__ == "__main__":
    unittest.main()
