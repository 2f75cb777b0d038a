"""The client through a gate behind a real sshd: what it says when it isn't let in, and that it loses nothing when ssh is lost."""

import os
import re
import subprocess
import sys
import time
import unittest
from pathlib import Path
from typing import Dict, Tuple
from unittest import mock

import test_tutorial
from doors import Door, make_key
from servers import MEMORY, TOP, Cutter, Server, free_port

from vault import Client, MisusedError, NotKnownError
from vault.protocol.address import read_address
from vault.protocol.address import Address
from vault.protocol.transport import GATE, SshStream, refusal, ssh_words

GOOD: Dict[str, Tuple[Address, ...]] = {
    "anna@ssh:vault.example.org": (("ssh:vault.example.org", 0),),
    "anna@ssh:vault@vault.example.org:2222": (("ssh:vault@vault.example.org", 2222),),
    "anna@ssh:hall:22": (("ssh:hall", 22),),
    "anna@ssh:vault@[::1]": (("ssh:vault@[::1]", 0),),
    "anna@ssh:[fe80::1%eth0]:22": (("ssh:[fe80::1%eth0]", 22),),
    "anna@127.0.0.1:7070": (("127.0.0.1", 7070),),
    "anna@[::1]:7070": (("::1", 7070),),
    "anna@one:7070,two:7070": (("one", 7070), ("two", 7070)),
    "anna@ssh:vault@one,ssh:vault@two:22,[::1]:7070": (("ssh:vault@one", 0), ("ssh:vault@two", 22), ("::1", 7070)),
}
BAD = ("anna@ssh:", "anna@ssh:-oProxyCommand=true", "anna@ssh:-oProxyCommand=true:22", "anna@ssh:-D9@hall", "anna@ssh:-l@hall", "anna@ssh:@hall",
       "anna@ssh:vault@-hall", "anna@ssh:vault@@hall", "anna@ssh:a@b@hall", "anna@ssh:hall;true", "anna@ssh:$(true)", "anna@ssh:`true`",
       "anna@ssh:hall true", "anna@ssh:hall\ntrue", "anna@ssh:hall:0", "anna@ssh:hall:65536", "anna@ssh:hall:", "anna@ssh:hall:ssh",
       "anna@ssh:hall:22:22", "anna@ssh:hall:\N{ARABIC-INDIC DIGIT TWO}2", "anna@ssh:ssh://hall", "anna@ssh:hall/../x", "anna@ssh:[::1",
       "anna@ssh:[-oProxyCommand=true]", "anna@ssh:%h", "anna@ssh:h\N{LATIN SMALL LETTER A WITH DIAERESIS}ll", "@ssh:hall", "anna@ssh:" + "h" * 300,
       "anna@one:7070,", "anna@,one:7070", "anna@one:7070,,two:7070", "anna@one:7070, two:7070", "anna@one:7070,two", "anna@one:7070,one:7070",
       "anna@one:7070,ssh:-oProxyCommand=true", "anna@one:7070,anna@two:7070", "anna@" + ",".join(f"one:{port}" for port in range(1, 10)))

# What the page has of check-ins and gifts, and what the log has of those that were done. A store is set by a check-in, too.
GIVEN = re.compile(r"vault (?:--patience 0 )?(checkin|give|store set|import) ")
DONE = re.compile(r" by=([a-z]+) .* told (checkin|give) .* -> OK ")


class Addresses(unittest.TestCase):
    """What is taken for an address, and what of it reaches ssh."""

    def test_good(self) -> None:
        for word, found in GOOD.items():
            self.assertEqual(read_address(word), ("anna", found))

    def test_bad(self) -> None:
        for word in BAD:
            with self.subTest(word), self.assertRaises(MisusedError):
                read_address(word)

    def test_who_refuses(self) -> None:
        """What a gate can't do is no refusal of a key by sshd."""
        self.assertIn("takes none of your ssh keys", refusal("anna@hall: Permission denied (publickey).", "ssh:hall", 0, "anna"))
        self.assertEqual(refusal("vaultd-gate: the log /l can't be opened: Permission denied. Ask whoever runs it.", "ssh:hall", 0, "anna"), "")

    def test_nothing_is_an_option(self) -> None:
        """The host and a command that is always the same stand after two dashes; before these a user has its own option."""
        words = ssh_words("ssh:vault@[::1]", 22, 10)
        self.assertEqual(words[-7:], ["-p", "22", "-l", "vault", "--", "::1", GATE])
        self.assertEqual(ssh_words("ssh:hall", 0, 10)[-3:], ["--", "hall", GATE])


class ThroughTheDoor(unittest.TestCase):
    """A server, a cutter before it, and sshd with gates to that."""

    def setUp(self) -> None:
        self.server = Server("--workers", "16", folder=MEMORY)
        self.addCleanup(self.server.close)
        self.server.start()
        self.cutter = Cutter(self.server.port)
        self.addCleanup(self.cutter.close)
        self.door = Door(self.cutter.port)
        self.addCleanup(self.door.close)
        self.door.admit("anna")
        self.door.admit("guest", "--read")
        self.door.start()
        self.server_word = f"ssh:127.0.0.1:{self.door.port}"

    def client(self, patience: float = 30.0) -> Client:
        """Anna, at the gate."""
        environment = mock.patch.dict(os.environ, self.door.environment("anna"))
        environment.start()
        self.addCleanup(environment.stop)
        client = Client("anna", "ssh:127.0.0.1", self.door.port, self.door.folder / "state", patience, 0.05)
        self.addCleanup(client.close)
        return client

    def vault(self, *words: str, key: str = "anna", known: str = "known_hosts", status: int = 0) -> str:
        """Runs the program, and answers what it says."""
        environment = {**self.door.environment(key, known), "XDG_STATE_HOME": str(self.door.folder / "state")}
        done = subprocess.run([str(self.door.programs / "vault"), *words], env=environment, capture_output=True, text=True, timeout=60,
                              check=False)
        self.assertEqual(done.returncode, status, (words, done.stdout, done.stderr))
        return done.stdout if status == 0 else done.stderr

    def came(self) -> int:
        """How often sshd let somebody in."""
        return (self.door.folder / "sshd.log").read_text("utf-8").count("Accepted publickey")

    def test_one_ssh_a_run(self) -> None:
        """The program works, and each run of it is one ssh."""
        self.assertEqual(self.vault("hello", "anna@" + self.server_word), f"You are anna at {self.server_word}.\n")
        self.vault("make", "/engine")
        self.vault("checkout", "w:/engine")
        before = self.came()
        self.assertEqual(self.vault("mine"), "c1 is held. Asked for w:/engine.\n")
        self.assertEqual(self.came(), before + 1)
        self.vault("checkin", "c1")
        self.assertEqual(self.came(), before + 2)

    def test_one_ssh_for_many_files(self) -> None:
        """A whole folder goes in, is changed, put, checked in and got, each by one ssh, however many files it has."""
        self.vault("hello", "anna@" + self.server_word)
        self.vault("store", "set", f"file://{self.door.folder}/store")
        work = self.door.folder / "work"
        work.mkdir()
        files = [work / f"Teil {number}.SLDPRT" for number in range(20)]
        runs = (("import", str(work), "/engine/block", "--yes"), ("checkout", "w:/engine/block"), ("put", str(work)), ("status", str(work)),
                ("checkin", str(work)), ("get", "/engine/block", "--to", str(self.door.folder / "other")))
        for number, words in enumerate(runs):
            if words[0] in ("import", "put"):
                for file in files:
                    file.write_text(f"{file.name}, bore {number}", "utf-8")
            before, began = self.came(), time.monotonic()
            self.vault(*words)
            print(f"{words[0]} through ssh took {time.monotonic() - began:.2f} s", file=sys.stderr)
            self.assertEqual(self.came(), before + 1, words)
        self.assertEqual({path.name: path.read_bytes() for path in (self.door.folder / "other").glob("*.SLDPRT")},
                         {path.name: path.read_bytes() for path in files})

    def test_sentences(self) -> None:
        """Whoever isn't let in hears so at once, in a sentence that says what to do."""
        make_key(self.door.folder / "stranger")
        (self.door.folder / "nobody_known").touch()
        self.door.know_host("another_known", self.door.folder / "stranger.pub")
        anna = ("--as", "anna@" + self.server_word)
        self.one_sentence(self.vault(*anna, "tree", key="stranger", status=1), "takes none of your ssh keys. Send the public one")
        self.one_sentence(self.vault(*anna, "tree", known="nobody_known", status=1), f"Say `ssh -p {self.door.port} 127.0.0.1` once")
        self.one_sentence(self.vault(*anna, "tree", known="another_known", status=1), "doesn't have the key by which ssh knows it")
        self.one_sentence(self.vault("hello", "ben@" + self.server_word, status=1), "doesn't speak for ben. Say hello with the name")
        self.one_sentence(self.vault("--as", "anna@ssh:no-host.invalid", "tree", status=1), "No host is known by the name in ssh:no-host.invalid")
        self.one_sentence(self.vault("--as", "guest@" + self.server_word, "make", "/x", key="guest", status=1), "your ssh key only lets you look")
        self.one_sentence(self.vault("hello", "anna@ssh:-oProxyCommand=true", status=2), "is no designer at a server")
        self.server.kill()
        self.one_sentence(self.vault(*anna, "--patience", "0", "tree", status=3), "No server answers at " + self.server_word)

    def test_no_place(self) -> None:
        """Whose name has all its conversations already hears so, and comes in once one has ended."""
        anna = ("--as", "anna@" + self.server_word, "--patience", "0")
        taken = [self.entered() for _ in range(8)]
        self.one_sentence(self.vault(*anna, "tree", status=3), "anna has 8 conversations at once, and no more are let in")
        taken[0].communicate(b"quit\n", timeout=60)
        self.vault(*anna, "tree")
        for process in taken[1:]:
            process.communicate(timeout=60)

    def entered(self) -> "subprocess.Popen[bytes]":
        """A conversation of anna's that has begun."""
        process = self.door.ssh("anna")
        assert process.stdin is not None and process.stdout is not None
        process.stdin.write(b"hello anna\n")
        process.stdin.flush()
        self.assertEqual(process.stdout.readline()[:11], b"OK session ")
        return process

    def one_sentence(self, said: str, part: str) -> None:
        """One line, which says this."""
        self.assertRegex(said, r"^vault: [^\n]+\n$")
        self.assertIn(part, said)

    def test_no_gate(self) -> None:
        """A key without a forced command doesn't come to a shell that would take lines for its own."""
        kept = self.door.folder / "authorized_keys"
        kept.write_text(re.sub(r'(?m)^command="[^"]*",', "", kept.read_text("ascii")), "ascii")
        self.one_sentence(self.vault("--as", "anna@" + self.server_word, "tree", status=1), "has no gate to the vault")

    def test_ssh_is_killed(self) -> None:
        """If ssh is killed, the client connects again."""
        client = self.client()
        client.make("/engine")
        assert client.link.connection is not None and isinstance(client.link.connection.stream, SshStream)
        client.link.connection.stream.process.kill()
        client.make("/engine/block")
        self.assertEqual(list(client.tree()), ["/engine", "/engine/block"])
        client.close()

    def test_two_addresses(self) -> None:
        """Through the second gate, if nobody listens at the first. If neither lets a key speak for the name, the client says so."""
        nobody = f"ssh:127.0.0.1:{free_port()}"
        self.assertEqual(self.vault("hello", f"anna@{nobody},{self.server_word}"),
                         f"You are anna at {nobody} and {self.server_word}. {self.server_word} answers.\n")
        self.vault("make", "/engine")
        other = f"ssh:localhost:{self.door.port}"
        self.one_sentence(self.vault("hello", f"ben@{self.server_word},{other}", status=1), "doesn't speak for ben")

    def test_reply_is_lost(self) -> None:
        """A check-in whose reply is lost behind the gate is found out. The log has it as lost, and not twice."""
        client = self.client()
        for place in ("/e", "/e/b", "/e/b/p"):
            client.make(place)
        client.checkout(["w:/e/b/p"])
        client.put("/e/b/p", b"bore 80")
        self.cutter.after.append(b"checkin")
        self.assertEqual(client.checkin("c1"), 1)
        self.assertEqual([line.split(" as=anna ")[1] for line in self.door.logged() if "checkin" in line], ["asks checkin c1", "lost checkin c1"])
        client.close()

    def test_key_is_taken_away(self) -> None:
        """If the key is removed while a command is under way, the command's fate isn't known, and the command isn't forgotten."""
        client = self.client(patience=3)
        client.make("/engine")
        kept = self.door.folder / "authorized_keys"
        text = kept.read_text("ascii")
        self.cutter.meanwhile = lambda: forget_all(kept)
        self.cutter.after.append(b"make")
        with self.assertRaises(NotKnownError):
            client.make("/wing")
        kept.write_text(text, "ascii")
        client.make("/tail")
        self.assertEqual(list(client.tree()), ["/engine", "/wing", "/tail"])
        client.close()


class Day(test_tutorial.Pages):
    """The day of the tutorial, in which the designers come through the gate."""

    deadline = 900

    def setUp(self) -> None:
        super().setUp()
        self.door = Door(int(self.meant["7070"]))
        self.addCleanup(self.door.close)
        for who in ("anna", "ben"):
            self.door.admit(who)
            self.shells[who].run("export SSH_CONFIG=" + self.door.config(who), 0)
            self.shells[who].run(f"PATH={self.door.programs}:$PATH", 0)
        self.door.start()

    def adapted(self, who: str, text: str) -> str:
        """A text of the page, for designers with the address of the gate."""
        text, port = super().adapted(who, text), self.meant["7070"]
        if who:
            text = text.replace(f"127.0.0.1:{port}", f"ssh:127.0.0.1:{self.door.port}")
        return text.replace("(Connection refused)", f"(vaultd-gate: no server answers at 127.0.0.1:{port}: Connection refused)")

    def test_tutorial(self) -> None:
        super().test_tutorial()
        page = test_tutorial.steps((TOP / "docs" / "TUTORIAL.md").read_text("utf-8"))
        said = [(who, GIVEN.match(line), shown) for who, line, shown in page]
        done = [DONE.search(line) for line in self.door.logged()]
        wanted = [(who, match[1] if match[1] == "give" else "checkin") for who, match, shown in said
                  if match and not shown[0].startswith("vault: In the way") and not shown[0].startswith("vault: No server")]
        self.assertEqual([(found[1], found[2]) for found in done if found], wanted)

    test_scale = None  # type: ignore[assignment]    # no designer comes through a gate there


def forget_all(path: Path) -> None:
    """Empties a file."""
    path.write_text("", "ascii")


if __name__ == "__main__":
    unittest.main()
