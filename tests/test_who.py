"""Who holds what, and who waits for whom, as the client shows it: at the real server, at one that lets a client wait for an answer, and at
one that doesn't know the questions."""

import contextlib
import json
import os
import random
import shutil
import socket
import subprocess
import tempfile
import threading
import time
import unittest
from concurrent.futures import ThreadPoolExecutor
from designers import PART, WithServer
from page_server import until
from pathlib import Path
from servers import MEMORY, VAULTD, Cutter, program
from stores import WithStore
from typing import Callable, List, Optional, Set, Tuple, Type
from unittest import mock

from vault import Client, MisusedError, RefusedError, VaultError
from vault.cli import claim_commands
from vault.cli.claim_commands import mine_line
from vault.cli.command_line import command_line
from vault.cli.output import Output
from vault.cli.words import WaitWords
from vault.client.memory import KNOWN, Known
from vault.errors import NotUnderstoodError
from vault.protocol.grammar import CLAIM
from vault.protocol.queue import chain, meeting, ring
from vault.protocol.replies import Reply, holder_in, listed_in
from vault.protocol.standing import Holder, Standing
from vault.store.setting import STORE_PLACE

ROD = "/engine/block/rod"


class Between(Cutter):
    """Hands lines on, except some, which it answers in another way."""

    def _hand_on(self, client: socket.socket) -> None:
        with client, contextlib.suppress(OSError), socket.create_connection(("127.0.0.1", self.server_port)) as server:
            asked, told = client.makefile("rb"), server.makefile("rb")
            with asked, told:
                for line in asked:
                    self.lines.append(line)

                    def ask(each: bytes) -> bytes:
                        server.sendall(each)
                        return told.readline()

                    reply = self.answer(line, ask)
                    if not reply:
                        break
                    client.sendall(reply)

    def answer(self, line: bytes, ask: Callable[[bytes], bytes]) -> bytes:
        """The reply to a line; nothing if the connection ends."""
        return ask(line)

    def sent(self, word: bytes) -> int:
        """How often a line with such a first word came."""
        return sum(line.split()[0] == word for line in self.lines)


class Older(Between):
    """A server that doesn't know who holds what."""

    unknown = {b"show", b"claims", b"drafts", b"draft", b"wait"}

    def answer(self, line: bytes, ask: Callable[[bytes], bytes]) -> bytes:
        return b"ERR 10\n" if line.split()[0] in self.unknown else ask(line)


class Holding(Between):
    """A server that answers a `wait` only once the claim is held or gone, or after some seconds."""

    seconds = 30.0

    def __init__(self, server_port: int):
        super().__init__(server_port)
        self.began: List[float] = []

    def answer(self, line: bytes, ask: Callable[[bytes], bytes]) -> bytes:
        if not line.startswith(b"wait "):
            return ask(line)
        self.began.append(time.monotonic())
        end = self.began[-1] + self.seconds
        reply = ask(b"state" + line[4:])
        while reply.startswith(b"OK queued") and time.monotonic() < end:
            time.sleep(0.02)
            reply = ask(b"state" + line[4:])
        return reply


class AtOnce(Between):
    """A server that answers a `wait` at once, as it does if enough wait already."""

    def answer(self, line: bytes, ask: Callable[[bytes], bytes]) -> bytes:
        return ask(b"state" + line[4:] if line.startswith(b"wait ") else line)


class WithDesigners(WithServer):
    """Anna, and others, each by a client and by the program."""

    def setUp(self) -> None:
        super().setUp()
        self.anna.make(ROD)

    def elsewhere(self, designer: str = "anna", port: int = 0, patience: float = 10.0) -> Client:
        """A designer on another machine, with a memory of its own; at another server if a port is given."""
        folder = tempfile.TemporaryDirectory(prefix="vault-test-", dir=MEMORY)
        self.addCleanup(folder.cleanup)
        client = Client(designer, "127.0.0.1", port or self.cutter.port, Path(folder.name), patience, 0.05, self.notices.append)
        self.addCleanup(client.close)
        return client

    def said(self, designer: str, *words: str, status: int = 0, port: int = 0) -> str:
        """What the program says to a designer, without its first word."""
        address = f"{designer}@127.0.0.1:{port or self.server.port}"
        return self.vault("--as", address, *words, status=status).decode().removeprefix("vault: ").rstrip("\n")

    def between(self, kind: Type[Between]) -> Between:
        """Something else than the server itself to speak to."""
        stands = kind(self.server.port)
        self.addCleanup(stands.close)
        return stands


class Who(WithDesigners):
    """`vault who`."""

    def test_who(self) -> None:
        """Each claim at a place, above it and beneath it, in the order of the queue, with all that the server says."""
        ben = self.client("ben")
        self.anna.checkout(["w:" + PART, "r:/engine"])
        ben.hold(["r:" + ROD])
        ben.checkout(["w:/engine/block"])
        began = time.time()
        told = self.said("anna", "who", PART).split("\n")
        since = r"known here since 20\d\d-\d\d-\d\d \d\d:\d\d:\d\d UTC\."
        for line, begins in zip(told, (f"c1: you hold w:{PART} r:/engine, ", "c2: ben waits behind c1 for w:/engine/block, ")):
            self.assertRegex(line, "^" + begins + since + "$")
        self.assertEqual(len(told), 2)
        self.assertIn(f"h1: ben holds r:{ROD}, known", self.said("carl", "who", "/engine"))
        self.assertEqual(self.said("anna", "who", STORE_PLACE.rpartition("/")[0], status=1)[:28], "There is no such place. Look")
        self.anna.make("/wing")
        self.assertEqual(self.said("anna", "who", "/wing"), "Nobody has anything at /wing, above it or beneath it, and nobody waits for it.")
        fields = json.loads(self.vault("--as", f"carl@127.0.0.1:{self.server.port}", "--json", "who"))
        self.assertEqual([{key: each[key] for key in each if key != "since"} for each in fields["claims"]], [
            {"claim": "c1", "owner": "anna", "standing": "held", "behind": None, "items": ["w:" + PART, "r:/engine"]},
            {"claim": "h1", "owner": "ben", "standing": "held", "behind": None, "items": ["r:" + ROD]},
            {"claim": "c2", "owner": "ben", "standing": "queued", "behind": "c1", "items": ["w:/engine/block"]}])
        self.assertTrue(all(time.strptime(each["since"], "%Y-%m-%dT%H:%M:%SZ") for each in fields["claims"]))
        self.assertLess(time.time() - began, 30)

    def test_known_since(self) -> None:
        """A claim is known from the first time that the client saw it, over runs; one's own from when it was made."""
        began = time.time()
        self.anna.checkout(["w:" + PART])
        made = time.time()
        self.client("ben").hold(["r:" + ROD])
        with mock.patch("time.time", lambda: made + 1000):
            first = {holder.claim: since for holder, since in self.client("anna").who("/")}
            other = dict(self.client("carl").who("/engine"))
        self.assertTrue(began <= first["c1"] <= made)
        self.assertEqual((first["h1"], set(other.values())), (made + 1000, {made + 1000}))
        self.assertEqual({holder.claim: since for holder, since in self.client("anna").who("/engine/block")}, first)

    def test_known_anew(self) -> None:
        """After a restart of the server a hold's number is another hold's; a check-out that was given is the same one."""
        ben = self.client("ben")
        ben.hold(["r:" + ROD])
        claim = ben.checkout(["w:" + PART]).claim
        first = {holder.claim: since for holder, since in self.anna.who("/")}
        self.server.kill()
        self.server.start()
        self.client("carl").hold(["r:" + PART.rpartition("/")[0]])
        ben.give(claim, "dora")
        again = {holder.claim: (holder.owner, since) for holder, since in self.anna.who("/")}
        self.assertEqual(again[claim], ("dora", first[claim]))
        self.assertGreater(again["h1"][1], first["h1"])

    def test_what_ends_is_forgotten(self) -> None:
        """What isn't in the whole queue any more isn't remembered."""
        for _ in range(3):
            self.anna.abandon(self.anna.checkout(["r:" + PART]).claim)
        self.anna.checkout(["r:" + PART])
        ben = self.client("ben")
        ben.checkout(["r:" + PART])
        self.anna.who("/engine")
        ben.abandon("c5")
        self.anna.who("/engine")
        self.assertEqual(sorted(self.anna.memory.known), ["c4", "c5"])
        self.anna.who("/")
        self.assertEqual(list(self.anna.memory.known), ["c4"])

    def test_more_than_are_remembered(self) -> None:
        """One that stands is shown although it has been known for longer than all that are remembered."""
        self.client("ben").checkout(["w:" + PART])
        with mock.patch("time.time", lambda: 1.0):
            self.anna.who(PART)
        with self.anna.memory.locked(lambda: None):
            self.anna.memory.known.update({f"c{number}": Known("carl", ["r:" + ROD], 2.0) for number in range(2, KNOWN + 2)})
            self.anna.memory.save()
        self.assertEqual([(holder.claim, since) for holder, since in self.anna.who(PART)], [("c1", 1.0)])
        self.assertEqual(len(self.anna.memory.known), KNOWN)


class InTheWay(WithDesigners):
    """Sentences that name a claim in the way say whose it is and what it has."""

    def test_queued(self) -> None:
        self.said("ben", "checkout", f"w:{PART}", f"r:{ROD}")
        self.assertEqual(self.said("anna", "checkout", "w:/engine"),
                         f"c2 is queued behind c1, which ben holds: w:{PART} r:{ROD}. `vault wait c2` waits.")
        self.assertEqual(self.said("carl", "checkout", "r:" + ROD),
                         "c3 is queued behind c2, for which anna waits: w:/engine. `vault wait c3` waits.")
        self.assertEqual(self.said("ben", "checkout", "w:" + PART),
                         f"c4 is queued behind c1, which you hold: w:{PART} r:{ROD}. You hold {PART}, for which anna waits; anna waits earlier"
                         " for /engine, for which you wait. `vault wait c4` waits.")
        self.assertEqual(self.said("carl", "wait", "c3", "--at-most", "0", status=1),
                         "c3 is queued behind c2, for which anna waits: w:/engine. c2 is queued behind c1, which ben holds:"
                         f" w:{PART} r:{ROD}. Nothing was changed; `vault wait c3` waits on.")
        told = self.as_json("--as", f"carl@127.0.0.1:{self.server.port}", "wait", "c3", "--at-most", "0", status=1)
        self.assertEqual([(each["claim"], each["owner"], each["standing"], each["behind"]) for each in told["before"]],
                         [("c2", "anna", "queued", "c1"), ("c1", "ben", "held", None)])
        self.assertEqual((told["claim"], told["standing"], told["behind"], told["ring"]), ("c3", "queued", "c2", []))
        self.assertIn(f"c3 is queued behind c2, for which anna waits: w:/engine. Asked for r:{ROD}.", self.said("carl", "mine"))

    def test_refused(self) -> None:
        """An extension, a place beneath what another has, and one beneath what oneself has."""
        self.said("ben", "checkout", "r:" + ROD)
        self.said("anna", "checkout", "w:" + PART)
        self.assertEqual(self.said("anna", "extend", "c2", "w:" + ROD, status=1),
                         f"In the way is c1, which ben holds: r:{ROD}. Wait until it is gone, or ask ben; nothing was changed.")
        told = self.as_json("--as", f"anna@127.0.0.1:{self.server.port}", "extend", "c2", "w:" + ROD, status=1)
        self.assertEqual((told["code"], told["in_the_way"]),
                         (33, {"claim": "c1", "owner": "ben", "standing": "held", "behind": None, "items": ["r:" + ROD]}))
        self.said("carl", "checkout", "w:/engine/block")
        for claim in ("c1", "c2"):
            self.client("ben" if claim == "c1" else "anna").abandon(claim)
        self.assertEqual(self.said("anna", "make", "/engine/block/pin", status=1),
                         "The place above it is in c3, which carl holds: w:/engine/block. Wait until it is gone, or ask carl; nothing was"
                         " changed.")
        self.assertEqual(self.said("carl", "make", "/engine/block/pin", status=1),
                         "The place above it is in c3, which you hold: w:/engine/block. Add `--claim c3`; nothing was changed.")
        self.said("carl", "make", "/engine/block/pin", "--claim", "c3")
        self.client("carl").abandon("c3")
        self.said("carl", "checkout", "r:/engine/block")
        self.assertEqual(self.said("carl", "make", "/engine/block/nut", status=1),
                         "The place above it is in c4, which you hold: r:/engine/block. It only looks: `vault extend c4 w:/engine/block` has it"
                         " change that, too, or `vault abandon c4` gives it up; nothing was changed.")
        self.said("carl", "extend", "c4", "w:/engine/block")
        self.said("carl", "make", "/engine/block/nut", "--claim", "c4")

    def test_own_hold(self) -> None:
        """No place can be made in a hold's name."""
        self.anna.hold(["w:/engine/block"])
        with self.assertRaises(RefusedError) as refused:
            self.client("anna").make("/engine/block/pin")
        self.assertEqual(str(refused.exception), "The place above it is in h1, which you hold: w:/engine/block. Wait until it is gone; nothing"
                         " was changed.")

    def test_hold(self) -> None:
        self.anna.checkout(["w:/engine"])
        standing = self.client("ben").hold(["r:" + PART])
        self.assertEqual(standing.sentence("ben"), "h1 is queued behind c1, which anna holds: w:/engine.")

    def test_gone_meanwhile(self) -> None:
        """The claim in the way is gone before the client asks whose it is: then it says how its own claim stands."""
        ben = self.client("ben")
        ben.checkout(["w:" + PART])
        self.cutter.before.append(b"claims")
        self.cutter.meanwhile = lambda: ben.abandon("c1")
        standing = self.anna.checkout(["w:/engine"])
        self.assertEqual((standing.held, standing.sentence("anna")), (True, "c2 is held."))

    def test_gone_between_list_and_show(self) -> None:
        ben = self.client("ben")
        ben.checkout(["w:" + PART])
        self.cutter.before.append(b"show")
        self.cutter.meanwhile = lambda: ben.abandon("c1")
        self.assertTrue(self.anna.checkout(["w:/engine"]).held)

    def test_server_away_behind_the_answer(self) -> None:
        """A check-out that was acknowledged is reported, although nobody can be asked any more who is in the way."""
        self.client("ben").checkout(["w:" + PART])
        self.cutter.before.append(b"claims")
        self.cutter.meanwhile = self.server.kill
        standing = self.client("anna", patience=0.1).checkout(["w:/engine"])
        self.assertEqual(standing.sentence("anna"), "c2 is queued behind c1.")
        self.server.start()
        self.assertEqual([each.claim for each, _ in self.anna.mine()], ["c2"])


class StoreInTheWay(WithStore):
    """The part that names the store is checked out by another."""

    def test_told(self) -> None:
        self.client("ben").checkout(["w:" + STORE_PLACE])
        other = self.root / "other"
        with self.assertRaises(RefusedError) as refused:
            self.parts.setting.set(f"file://{other}")
        self.assertIn(f"In the way is c2, which ben holds: w:{STORE_PLACE}.", str(refused.exception))


class Ring(WithDesigners):
    """Designers who wait for each other."""

    def setUp(self) -> None:
        super().setUp()
        for place in ("/x", "/y", "/z"):
            self.anna.make(place)

    def test_two(self) -> None:
        self.said("anna", "checkout", "w:/x")
        self.said("ben", "checkout", "w:/y")
        self.said("ben", "checkout", "w:/x")
        said = "You hold /x, for which ben waits; ben holds /y, for which you wait."
        self.assertEqual(self.said("anna", "checkout", "r:/y"),
                         f"c4 is queued behind c2, which ben holds: w:/y. {said} `vault wait c4` waits.")
        self.assertEqual(self.said("ben", "wait", "c3", "--at-most", "0", status=1),
                         "c3 is queued behind c1, which anna holds: w:/x. You hold /y, for which anna waits; anna holds /x, for which you wait."
                         " Nothing was changed; `vault wait c3` waits on.")
        told = self.as_json("--as", f"anna@127.0.0.1:{self.server.port}", "wait", "c4", "--at-most", "0", status=1)
        self.assertEqual(told["ring"], [{"claim": "c1", "owner": "anna", "place": "/x", "waiting": "c3", "waits": "ben"},
                                        {"claim": "c2", "owner": "ben", "place": "/y", "waiting": "c4", "waits": "anna"}])
        self.assertEqual(self.said("carl", "wait", "c4", "--at-most", "0", status=1).partition(". ")[2].partition(". ")[0],
                         "Anna holds /x, for which ben waits; ben holds /y, for which anna waits")

    def test_told_once_it_is_there(self) -> None:
        """A ring that comes to be while one waits is reported then."""
        anna, ben = self.client("anna"), self.client("ben")
        anna.checkout(["w:/x"])
        ben.checkout(["w:/y"])
        claim, output = anna.checkout(["w:/y"]).claim, Output("wait", True)
        moments: List[Callable[[], object]] = [lambda: ben.checkout(["w:/x"]), lambda: ben.abandon("c2")]
        words = WaitWords.of(command_line().parse_args(["wait", claim]))
        with mock.patch("vault.cli.claim_commands.wait_a_turn", lambda *_: moments.pop(0)()):
            claim_commands.wait(anna, words, output)
        self.assertEqual([notice.count("You hold /x, for which ben waits") for notice in output.notices], [0, 1])

    def test_lines(self) -> None:
        """Rings of three, through claims that wait themselves, at places above and beneath; and queues that have none."""
        self.assertEqual(in_words("anna w:/x; ben w:/y; carl w:/z; anna w:/y; ben w:/z; carl w:/x/a", "c6", "carl"),
                         "You hold /z, for which ben waits; ben holds /y, for which anna waits; anna holds /x, for which you wait.")
        self.assertEqual(in_words("anna w:/x; ben w:/x w:/y; anna r:/y", "c3", "anna"),
                         "You hold /x, for which ben waits; ben waits earlier for /y, for which you wait.")
        self.assertEqual(in_words("anna r:/x/a; ben w:/y; ben w:/x; anna w:/", "c4", "anna"),
                         "You hold /x/a, for which ben waits; ben holds /y, for which you wait.")
        for line, claim in (("anna w:/x; ben w:/x", "c2"), ("anna w:/x; anna w:/x", "c2"), ("anna r:/x; ben r:/y; ben r:/x; anna w:/y", "c4"),
                            ("ben w:/y; anna w:/y; carl w:/x; ben w:/x", "c2"), ("anna w:/x", "c1"), ("anna w:/x", "c9"), ("", "c1"),
                            ("anna w:/x; ben w:/xy; anna w:/xy", "c3")):
            self.assertEqual(in_words(line, claim, "anna"), "", (line, claim))

    def test_random_lines(self) -> None:
        """There is a ring exactly if a walk from designer to designer comes back, and what is said of it is true."""
        moments, rings = random.Random(64), 0
        for _ in range(1500):
            line = lined(random_line(moments))
            claim = moments.choice(line)
            found = ring(line, claim.claim)
            self.assertEqual(bool(found), comes_back(line, claim), line)
            rings += bool(found)
            for wait, behind in zip(found, found[1:] + found[:1]):
                self.assertEqual(wait.waiting.owner, behind.before.owner)
                self.assertFalse(wait.waiting.held)
                self.assertLess(line.index(wait.before), line.index(wait.waiting))
                self.assertIn(wait.place, [item[2:] for item in wait.before.items])
            if found:
                self.assertEqual((found[-1].waiting, found[0].before.owner), (claim, claim.owner))
        self.assertGreater(rings, 100)

    def test_more_than_there_may_be(self) -> None:
        """A server that lists more claims than any server may have isn't asked for each."""
        class Endless(Between):
            """Lists thousands."""

            def answer(self, line: bytes, ask: Callable[[bytes], bytes]) -> bytes:
                claims = " ".join(f"c{number}" for number in range(1, 2001))
                return f"OK claims 2000 {claims}\n".encode() if line.startswith(b"claims") else ask(line)

        stands = self.between(Endless)
        with self.assertRaises(NotUnderstoodError) as refused:
            self.elsewhere("anna", stands.port).who("/")
        self.assertLess(len(str(refused.exception)), 300)
        self.assertEqual(stands.sent(b"show"), 0)

    def test_many(self) -> None:
        """256 claims that all wait for one another are gone through in little time."""
        line = lined([(f"d{number % 64}", [f"w:/p/a/{number % 7}"] * 8) for number in range(256)])
        began = time.process_time()
        self.assertEqual(len(chain(line, "c256")), 1)
        ring(line, "c256")
        self.assertLess(time.process_time() - began, 5)


def lined(claims: List[Tuple[str, List[str]]]) -> List[Holder]:
    """A queue of claims, each granted if none before it meets it, and else waiting behind the first that does."""
    line: List[Holder] = []
    for number, (owner, items) in enumerate(claims, 1):
        claim = Holder(f"c{number}", owner, True, tuple(items))
        behind = next((before.claim for before in line if meeting(before, claim)), "")
        line.append(Holder(claim.claim, owner, not behind, claim.items, behind))
    return line


def in_words(text: str, claim: str, designer: str) -> str:
    """The ring in a queue that is given as text, in words."""
    line = lined([(words.split()[0], words.split()[1:]) for words in text.split("; ") if words])
    return Standing(claim, False, ring=tuple(ring(line, claim))).ring_in_words(designer)


def random_line(moments: random.Random) -> List[Tuple[str, List[str]]]:
    """Some claims of four designers at few places."""
    places = ("/", "/x", "/x/a", "/x/b", "/y", "/y/a", "/z")
    return [(moments.choice(("anna", "ben", "carl", "dora")), [moments.choice("rw") + ":" + moments.choice(places[moments.randrange(2):])
             for _ in range(moments.randint(1, 3))]) for _ in range(moments.randint(1, 7))]


def comes_back(line: List[Holder], claim: Holder) -> bool:
    """Whether waits lead back: from a claim to the designers in its way, on to those in their way, and so on, to its own designer."""
    def blockers(owner: str, which: Optional[Holder] = None) -> Set[str]:
        return {before.owner for number, waiting in enumerate(line) for before in line[:number]
                if waiting.owner == owner and (which is None or waiting is which) and not waiting.held and meeting(before, waiting)}

    seen = blockers(claim.owner, claim) - {claim.owner}
    while True:
        more = {each for owner in seen for each in blockers(owner)}
        if claim.owner in more:
            return True
        if more <= seen:
            return False
        seen |= more


class Mine(WithDesigners):
    """`vault mine` asks the server."""

    def lines(self, client: Client) -> List[str]:
        """What `vault mine` says."""
        return [mine_line(standing, claim, client.designer) for standing, claim in client.mine()]

    def test_from_elsewhere(self) -> None:
        """What was checked out on another machine, what was put into it there, and what was given."""
        laptop, ben = self.elsewhere(), self.client("ben")
        laptop.checkout(["w:" + PART])
        laptop.put(PART, b"bore 80")
        ben.checkout(["w:" + ROD])
        ben.put(ROD, b"length 144")
        ben.give("c2", "anna")
        ben.checkout(["r:/engine"])
        self.assertEqual(self.lines(self.anna), [f"c1 is held. Asked for w:{PART}, draft of {PART}.",
                                                 f"c2 is held. Asked for w:{ROD}, draft of {ROD}."])
        self.assertEqual([standing.claim for standing, _ in ben.mine() if not standing.anothers], ["c3"])
        self.assertEqual(self.anna.put(ROD, b"length 145"), "c2")
        self.assertEqual((self.anna.checkin("c1"), self.anna.checkin("c2")), (1, 1))
        self.assertEqual(self.lines(self.anna), [])
        self.assertEqual(self.lines(laptop), ["c1 is gone. Asked for w:" + PART + "."])
        self.assertEqual(self.lines(laptop), [])
        self.assertEqual(self.notices, [])

    def test_gone(self) -> None:
        """Check-outs that are gone are listed one by one, and once. One whose copy is no version is listed until it is forgotten."""
        laptop = self.elsewhere()
        for _ in range(3):
            self.anna.checkout(["r:" + PART])
        self.anna.checkout(["w:" + ROD])
        self.anna.put(ROD, b"dear")
        for claim in ("c1", "c3", "c4"):
            laptop.abandon(claim)
        gone = [f"c1 is gone. Asked for r:{PART}.", f"c3 is gone. Asked for r:{PART}."]
        dear = f"c4 is gone. Asked for w:{ROD}, draft of {ROD}. `vault drafts c4 FOLDER` writes the copies that are kept."
        held = f"c2 is held. Asked for r:{PART}."
        self.assertEqual(self.lines(self.anna), [gone[0], held, gone[1], dear])
        self.assertEqual(self.lines(self.anna), [held, dear])
        self.anna.forget("c4")
        self.assertEqual(self.lines(self.anna), [held])

    def test_in_json(self) -> None:
        self.client("ben").checkout(["r:" + PART])
        self.anna.checkout(["w:" + ROD])
        self.anna.put(ROD, b"x")
        self.elsewhere().checkout(["w:" + PART])
        told = self.as_json("--as", f"anna@127.0.0.1:{self.server.port}", "mine")["claims"]
        before = {"claim": "c1", "owner": "ben", "standing": "held", "behind": None, "items": ["r:" + PART]}
        common = {"anothers": False, "ring": [], "kept": [], "given": None}
        self.assertEqual(told, [
            {**common, "claim": "c2", "standing": "held", "behind": None, "before": [], "items": ["w:" + ROD], "drafts": [ROD]},
            {**common, "claim": "c3", "standing": "queued", "behind": "c1", "before": [before], "items": ["w:" + PART], "drafts": []}])

    def test_back_from_a_backup(self) -> None:
        """What was checked in since the backup stands again, what was checked out since is gone, and its number is another's then: the copies of
        its drafts aren't lost."""
        self.anna.checkout(["w:" + PART])
        kept = [path + ".kept" for path in self.server.files]
        self.server.kill()
        for path, copy in zip(self.server.files, kept):
            shutil.copy(path, copy)
        self.server.start()
        self.anna.checkin("c1")
        for _ in range(2):
            self.anna.checkout(["r:" + PART])
        self.anna.checkout(["w:" + ROD])
        self.anna.put(ROD, b"dear")
        self.server.kill()
        for path, copy in zip(self.server.files, kept):
            shutil.copy(copy, path)
        self.server.start()
        self.assertEqual(self.lines(self.anna), [
            f"c1 is held. Asked for w:{PART}.", f"c2 is gone. Asked for r:{PART}.", f"c3 is gone. Asked for r:{PART}.",
            f"c4 is gone. Asked for w:{ROD}, draft of {ROD}. `vault drafts c4 FOLDER` writes the copies that are kept."])
        for place in (PART, ROD, ROD):
            self.elsewhere().checkout(["r:" + place])
        self.assertEqual(self.lines(self.anna)[-1], f"c4 is held. Asked for r:{ROD}.")
        aside = Path(self.notices.pop().rpartition(" are in ")[2].rstrip("."))
        self.assertEqual(bytes.fromhex(json.loads(aside.read_text("utf-8"))["drafts"][ROD]["content"]), b"dear")
        self.assertEqual((self.notices, self.anna.kept_drafts("c4")), ([], {}))

    def test_a_number_again(self) -> None:
        """A check-out that gets the number of one with copies, before anybody asked what stands."""
        self.anna.checkout(["w:" + ROD])
        self.anna.put(ROD, b"dear")
        self.server.kill()
        for path in self.server.files:
            os.unlink(path)
        subprocess.run([VAULTD, "create", *self.server.files], check=True, stdout=subprocess.DEVNULL)
        self.server.start()
        self.anna.make("/wing")
        self.assertEqual(self.anna.checkout(["r:/wing"]).claim, "c1")
        aside = Path(self.notices.pop().rpartition(" are in ")[2].rstrip("."))
        self.assertIn(b"dear".hex(), aside.read_text("utf-8"))
        self.assertEqual(self.anna.kept_drafts("c1"), {})

    def test_as_many_as_there_may_be(self) -> None:
        """256 claims, again and again on one connection and beyond its 4,096 lines; one more is refused, and it is asked how many there are."""
        ben = self.client("ben")
        for first in range(0, 250, 50):
            ben.link.read_all([f"checkout r:{PART}"] * 50)
        self.anna.checkout(["w:/engine"])
        for _ in range(5):
            self.anna.checkout(["r:" + PART])
        for _ in range(10):
            self.assertEqual(len(self.anna.mine()), 6)
            self.assertEqual(len(ben.mine()), 250)
            self.assertEqual(len(self.anna.who("/")), 256)
        self.assertEqual(self.anna.standing("c256").before[0].claim, "c251")
        with self.assertRaises(RefusedError) as refused:
            self.anna.checkout(["r:/"])
        self.assertEqual(refused.exception.code, 50)
        self.assertEqual((self.notices, self.sent(b"claims")), ([], 38))

    def test_names_that_look_like_claims(self) -> None:
        """A designer or a place called as a claim isn't taken for one: what becomes of a lost check-out is found out all the same."""
        self.anna.make("/c4000000000")
        self.cutter.after.append(b"make")
        self.anna.make("/wing")
        designer = self.elsewhere("c3999999999")
        designer.checkout(["r:/c4000000000"])
        self.anna.who("/")
        self.cutter.after.append(b"checkout")
        self.assertEqual(self.anna.checkout(["r:" + PART]).claim, "c2")
        self.assertEqual(self.sent(b"checkout"), 2)
        self.assertEqual(self.anna.memory.last_number, 2)


class Drafts(WithStore):
    """`vault drafts` and `vault draft`: what the server has, wherever it was put."""

    def test_a_file(self) -> None:
        """One that was put on another machine, into a store."""
        content = self.fill(b"bore 80", 200_000)
        self.put()
        self.as_program()
        self.assertEqual(self.vault("drafts", "c2"), PART.encode() + b"\n")
        self.assertEqual(self.as_json("drafts", "c2")["drafts"], [PART])
        back = self.root / "back"
        said = self.as_json("draft", "c2", PART, "--to", str(back))
        self.assertEqual((said["claim"], said["place"], said["bytes"], said["name"], said["by"], said["card"]),
                         ("c2", PART, len(content), "Kolben 80.SLDPRT", "anna", True))
        self.assertNotIn("version", said)
        self.assertEqual(back.read_bytes(), content)
        self.assertEqual(self.vault("draft", "c2", PART), content)
        self.assertIn(b"is left as it is", self.vault("draft", "c2", PART, "--to", str(back), status=2))
        self.assertEqual(self.as_json("draft", "c2", PART)["content"], content.hex())
        said_so = self.away("drafts", "c2", str(self.root / "kept"), status=1)
        self.assertIn(b"No copy of a draft is kept here for c2. `vault drafts c2` shows", said_so)
        self.assertEqual(self.away("drafts", "c2"), PART.encode() + b"\n")

    def away(self, *words: str, status: int = 0) -> bytes:
        """What the program says on another machine of the same designer."""
        done = subprocess.run([*program("vault"), "--as", f"anna@127.0.0.1:{self.server.port}", *words], capture_output=True, timeout=60,
                              env={**self.environment(), "XDG_STATE_HOME": str(self.root / "away")}, check=False)
        self.assertEqual(done.returncode, status, done)
        return done.stdout or done.stderr

    def test_damaged(self) -> None:
        """Bytes that aren't those that were put are refused, and nothing is written."""
        self.put()
        card = self.parts.kept_drafts("c2")[0].card
        assert card is not None
        path = self.path_of(card)
        path.chmod(0o600)
        path.write_bytes(b"x")
        self.as_program()
        self.assertIn(b"The bytes of the draft of " + PART.encode(), self.vault("draft", "c2", PART, "--to", str(self.root / "back"), status=1))
        self.assertFalse((self.root / "back").exists())

    def test_refused(self) -> None:
        ben = self.client("ben")
        self.anna.checkout(["w:" + PART])
        ben.checkout(["w:" + PART])
        self.assertEqual((self.anna.drafts("c2"), ben.drafts("c3")), ([], []))
        self.as_program()
        self.assertEqual(self.vault("drafts", "c2"), b"c2 has no drafts.\n")
        self.assertIn(b"c2 has no draft of " + PART.encode() + b". `vault drafts c2` shows", self.vault("draft", "c2", PART, status=1))
        cases: List[Tuple[int, Callable[[], object]]] = [
            (31, lambda: ben.drafts("c2")), (31, lambda: ben.draft("c2", PART)), (30, lambda: ben.drafts("c9")),
            (20, lambda: self.anna.draft("c2", "/none")), (22, lambda: self.anna.draft("c2", "/engine"))]
        for code, asked in cases:
            with self.assertRaises(RefusedError) as refused:
                asked()
            self.assertEqual(refused.exception.code, code)
        misused: List[Callable[[], object]] = [
            lambda: self.anna.drafts("h1"), lambda: self.anna.draft("c2", "engine"), lambda: self.anna.draft("c2 x", PART)]
        for odd in misused:
            with self.assertRaises(MisusedError):
                odd()

    def test_longest(self) -> None:
        """64 drafts seven names deep, which are some 15 kB in one reply."""
        name = "/" + "x" * 32
        for depth in range(1, 7):
            (self.anna.make if depth < 3 else self.anna.nest)(name * depth)
        above = name * 6
        claim = self.anna.checkout(["w:" + above]).claim
        names = [f"{above}/{'p' * 29}{number:03}" for number in range(64)]
        for place in names:
            self.anna.make(place, claim)
            self.anna.put(place, b"x", claim)
        self.assertEqual(names[0].count("/"), 7)
        self.assertGreater(len(" ".join(self.anna.drafts(claim))), 14_500)
        self.assertEqual(self.anna.drafts(claim), names)
        self.assertEqual(list(self.anna.mine()[-1][0].drafts or []), names)


class Put(WithDesigners):
    """`put` finds the check-out that a draft belongs to."""

    def test_gone_ones_are_passed_over(self) -> None:
        """One that is gone, and one that was given away and is gone."""
        laptop = self.elsewhere()
        self.anna.checkout(["w:" + PART])
        laptop.abandon("c1")
        self.anna.checkout(["w:/engine/block"])
        laptop.give("c2", "ben")
        self.client("ben").abandon("c2")
        self.anna.checkout(["w:/engine"])
        self.assertEqual(self.anna.put(PART, b"x"), "c3")

    def test_made_elsewhere(self) -> None:
        laptop = self.elsewhere()
        laptop.checkout(["w:/engine"])
        laptop.checkout(["w:/engine/block"])
        self.assertEqual(self.anna.put(PART, b"x"), "c1")
        laptop.checkin("c1")
        self.assertEqual(self.anna.get(PART), b"x")

    def test_queued(self) -> None:
        """If one waits, the refusal is the server's; the client doesn't say that there is none."""
        self.client("ben").checkout(["w:/engine"])
        self.anna.checkout(["w:" + PART])
        with self.assertRaises(RefusedError) as refused:
            self.anna.put(PART, b"x")
        self.assertEqual(refused.exception.code, 32)

    def test_none(self) -> None:
        self.anna.checkout(["r:" + PART])
        with self.assertRaises(MisusedError) as refused:
            self.anna.put(PART, b"x")
        self.assertEqual(str(refused.exception), f"No check-out of yours takes in {PART} for change. `vault checkout w:{PART}` asks for one.")


class WaitTests(WithDesigners):
    """`vault wait`, with pauses that begin short."""

    def setUp(self) -> None:
        super().setUp()
        self.enterContext(mock.patch.object(claim_commands, "FIRST_PAUSE_SECONDS", 0.3))
        self.anna.checkout(["w:" + PART])
        self.client("ben").checkout(["w:/engine"])
        self.output = Output("wait", True)

    def waited(self, stands: Between, meanwhile: Optional[Callable[[], None]], *more: str) -> str:
        """What a wait of ben's for c2 says, during which something may be done."""
        ben = self.elsewhere("ben", stands.port, 0.3)

        def do() -> None:
            if meanwhile is not None:
                self.until_asked(stands)
                meanwhile()

        with ThreadPoolExecutor(1) as pool:
            done = pool.submit(do)
            try:
                return claim_commands.wait(ben, WaitWords.of(command_line().parse_args(["wait", "c2", *more])), self.output)[0]
            finally:
                done.result()

    @staticmethod
    def until_asked(stands: Between) -> None:
        """Waits until somebody waits for an answer."""
        until(lambda: stands.sent(b"wait") > 0, 20)
        time.sleep(0.2)

    def test_the_server_lets_one_wait(self) -> None:
        """It is asked once, and answers as soon as the claim is held."""
        stands = self.between(Holding)
        began = time.monotonic()
        said = self.waited(stands, lambda: self.anna.abandon("c1"))
        self.assertEqual((said, stands.sent(b"wait")), ("c2 is held.", 1))
        self.assertLess(time.monotonic() - began, 5)
        self.assertEqual(self.output.notices, [f"c2 is queued behind c1, which anna holds: w:{PART}."])

    def test_again_and_again(self) -> None:
        """A server that lets one wait for half a second is asked once in that time, without a pause, and nothing is said twice."""
        stands = Holding(self.server.port)
        self.addCleanup(stands.close)
        stands.seconds = 0.5

        def abandon() -> None:
            until(lambda: len(stands.began) > 3, 20)
            self.anna.abandon("c1")

        with mock.patch.object(claim_commands, "SOON_SECONDS", 0.3), mock.patch.object(claim_commands, "FIRST_PAUSE_SECONDS", 2.0):
            self.assertEqual(self.waited(stands, abandon), "c2 is held.")
        between = [after - before for before, after in zip(stands.began, stands.began[1:])]
        self.assertTrue(0.5 <= min(between) < 2.5, between)
        self.assertEqual(len(self.output.notices), 1)

    def test_answered_at_once(self) -> None:
        """It isn't asked again at once."""
        for kind in (AtOnce, Older):
            if self.anna.state("c1").gone:
                self.anna.checkout(["w:" + PART])
            stands = self.between(kind)
            with self.assertRaises(RefusedError):
                self.waited(stands, None, "--at-most", "2")
            self.assertTrue(2 <= stands.sent(b"wait") <= 4, (kind, stands.sent(b"wait")))

    def test_at_most(self) -> None:
        """The time is over before the server answers."""
        stands = self.between(Holding)
        began = time.monotonic()
        with self.assertRaises(RefusedError) as refused:
            self.waited(stands, None, "--at-most", "1")
        self.assertLess(time.monotonic() - began, 8)
        self.assertEqual(str(refused.exception),
                         f"c2 is queued behind c1, which anna holds: w:{PART}. Nothing was changed; `vault wait c2` waits on.")
        self.assertEqual(refused.exception.fields["before"][0]["owner"], "anna")

    def test_other_commands_meanwhile(self) -> None:
        """A designer who waits at one window goes on at another: what one waits for may be one's own to check in."""
        stands = self.between(Holding)
        anna = self.elsewhere("anna", stands.port)
        claim = anna.checkout(["w:" + PART]).claim
        output, said = Output("wait", True), []

        def wait() -> None:
            one = Client("anna", "127.0.0.1", stands.port, anna.memory.path.parent, 5.0, 0.05)
            said.append(claim_commands.wait(one, WaitWords.of(command_line().parse_args(["wait", claim])), output)[0])
            one.close()

        waits = threading.Thread(target=wait)
        waits.start()
        self.until_asked(stands)
        anna.patience = 5.0
        began = time.monotonic()
        anna.abandon("c1")
        self.assertLess(time.monotonic() - began, 3)
        self.client("ben").abandon("c2")
        waits.join(20)
        self.assertEqual(said, [f"{claim} is held."])

    def test_gone(self) -> None:
        stands = self.between(Holding)
        with self.assertRaises(RefusedError) as refused:
            self.waited(stands, lambda: self.client("ben").abandon("c2"))
        self.assertEqual((refused.exception.code, stands.sent(b"wait")), (30, 1))

    def test_server_killed(self) -> None:
        """It is killed while one waits, and started again: the wait goes on, and says once that the server was away."""
        stands = self.between(Holding)

        def restart() -> None:
            self.server.kill()
            until(lambda: any("goes on" in notice for notice in self.output.notices), 20)
            time.sleep(1.0)                 # for some further tries
            self.server.start()
            self.anna.abandon("c1")

        self.assertEqual(self.waited(stands, restart), "c2 is held.")
        self.assertEqual(["goes on" in notice for notice in self.output.notices], [False, True], self.output.notices)

    def test_the_real_server(self) -> None:
        """It answers once the claim is held, is asked once, and the client soon says `held`."""
        stands = self.between(Between)
        moments: List[float] = []

        def abandon() -> None:
            moments.append(time.monotonic())
            self.anna.abandon("c1")

        self.assertEqual(self.waited(stands, abandon), "c2 is held.")
        self.assertLess(time.monotonic() - moments[0], 5)
        self.assertEqual(stands.sent(b"wait"), 1)

    def test_more_than_may_wait(self) -> None:
        """At a server that lets nobody wait for an answer."""
        self.server.kill()
        self.server.words = ("--workers", "16", "--waits", "0")
        self.server.start()
        stands = self.between(Between)
        with self.assertRaises(RefusedError):
            self.waited(stands, None, "--at-most", "2")
        self.assertTrue(2 <= stands.sent(b"wait") <= 4, stands.sent(b"wait"))

    def test_odd_answer(self) -> None:
        """An answer that is none of the protocol ends it with a sentence."""
        class Strange(Between):
            """Says something else."""

            def answer(self, line: bytes, ask: Callable[[bytes], bytes]) -> bytes:
                return b"OK what\n" if line.startswith(b"wait") else ask(line)

        with self.assertRaises(VaultError):
            self.waited(self.between(Strange), None)


class AtAnOlderServer(WithDesigners):
    """A server that doesn't know the questions: the client says so once, and goes on as before."""

    def setUp(self) -> None:
        super().setUp()
        self.older = self.between(Older)
        self.folder_of_anna = tempfile.TemporaryDirectory(prefix="vault-test-", dir=MEMORY)
        self.addCleanup(self.folder_of_anna.cleanup)

    def told(self, *words: str, status: int = 0, as_json: bool = False) -> Tuple[str, str]:
        """What the program says to anna, and on standard error."""
        done = subprocess.run([*program("vault"), "--as", f"anna@127.0.0.1:{self.older.port}", *words], capture_output=True, text=True,
                              timeout=60, env={**self.environment(), "XDG_STATE_HOME": self.folder_of_anna.name}, check=False)
        self.assertEqual(done.returncode, status, (words, done))
        return done.stdout, done.stderr

    def test_a_day(self) -> None:
        older = "vault: The server is older than this client, and doesn't tell who holds what, so that is left out here. Ask whoever runs it for a" \
                " newer one.\n"
        unknown = "vault: The server does not know this command"
        drawing = Path(self.folder_of_anna.name) / "drawing"
        drawing.write_bytes(b"bore 80")
        self.client("dora").hold(["r:" + ROD])
        self.assertEqual(self.told("checkout", "w:" + PART), ("c1 is held.\n", ""))
        self.client("ben").checkout(["w:/engine"])
        self.assertEqual(self.told("checkout", "r:" + ROD), ("c3 is queued behind c2. `vault wait c3` waits.\n", older))
        self.assertEqual(self.told("wait", "c3", "--at-most", "0", status=1),
                         ("", older + "vault: c3 is queued behind c2, c2 is queued behind h1, h1 is held. Nothing was changed; `vault wait c3` waits"
                          " on.\n"))
        self.assertEqual(self.told("extend", "c1", "w:" + ROD, status=1),
                         ("", older + "vault: h1 is in the way. Wait until it is gone, or ask its designer; nothing was changed.\n"))
        self.assertEqual(self.told("put", PART, str(drawing))[1], older)
        self.assertEqual(self.told("mine"), (f"c1 is held. Asked for w:{PART}, draft of {PART}.\nc3 is queued behind c2. Asked for r:{ROD}.\n",
                                             older))
        for words in (("who",), ("drafts", "c1"), ("draft", "c1", PART)):
            self.assertTrue(self.told(*words, status=1)[1].startswith(unknown), words)
        self.assertEqual(self.told("checkin", "c1"), ("c1 is checked in: 1 new version.\n", ""))
        self.assertEqual(self.told("mine"), (f"c3 is queued behind c2. Asked for r:{ROD}.\n", older))
        self.client("ben").abandon("c2")
        self.assertEqual(self.told("wait", "c3"), ("c3 is held.\n", ""))
        self.assertEqual(self.told("abandon", "c3")[0], "c3 is given up, with its drafts.\n")
        self.assertEqual(self.told("mine"), ("You have no check-outs from here.\n", older))

    def test_a_working_folder(self) -> None:
        """Which file is a draft is known by the copies that are kept here."""
        work = Path(self.folder_of_anna.name) / "work"
        self.told("get", "/engine/block", "--to", str(work))
        (work / "pin").write_bytes(b"diameter 20")
        self.told("add", str(work / "pin"))
        self.told("checkout", "w:/engine/block")
        for ends in (".", " already."):
            self.assertEqual(self.told("put", str(work))[0], f"pin is a draft of /engine/block/pin in c1{ends}\n")
        self.assertEqual(self.told("status", str(work))[0], "pin: put, checked out by you in c1.\n")
        self.assertEqual(self.told("checkin", str(work))[0], "c1 is checked in: 1 new version.\n")
        self.assertEqual(self.told("get", "/engine/block", "--to", str(work))[0], f"{work} has /engine/block: nothing was fetched.\n")

    def test_put(self) -> None:
        """By memory alone, it passes over check-outs that are gone or another's."""
        anna, laptop = self.elsewhere("anna", self.older.port), self.elsewhere()
        anna.checkout(["w:" + PART])
        laptop.abandon("c1")
        anna.checkout(["w:" + PART])
        laptop.give("c2", "ben")
        self.client("ben").abandon("c2")
        anna.checkout(["w:/engine"])
        self.assertEqual((anna.put(PART, b"x"), anna.held()), ("c3", {"c3": ["w:/engine"]}))
        self.assertEqual(self.notices.count(self.notices[0]), len(self.notices))


class Forms(unittest.TestCase):
    """What a reply may look like."""

    def test_shown(self) -> None:
        for text, held, behind in (("claim c2 ben held w:/e/b r:/e", True, ""), ("claim h1 c3 queued behind c1 r:/", False, "c1")):
            found = holder_in(Reply(True, tuple(text.split())), text.split()[1])
            self.assertEqual((found.claim, found.owner, found.held, found.behind, list(found.items)),
                             (text.split()[1], text.split()[2], held, behind, text.split()[4 if held else 6:]))
        for text in ("claim c2 ben held", "claim c2 ben queued behind w:/e", "claim c2 ben queued behind c1 c3 w:/e", "claim c02 ben held w:/e",
                     "claim c2 Ben held w:/e", "claim c2 ben held x:/e", "claim c2 ben held w:/../e", "claim c2 ben held " + "w:/e " * 9,
                     "claim c3 ben held w:/e", "claims c2 ben held w:/e"):
            with self.assertRaises(NotUnderstoodError, msg=text):
                holder_in(Reply(True, tuple(text.split())), "c2")

    def test_listed(self) -> None:
        self.assertEqual(listed_in(Reply(True, ("claims", "2", "c1", "h3")), CLAIM), ("c1", "h3"))
        for words in (("claims", "1"), ("claims", "1", "x"), ("claims", "2", "c1"), ("claims", "x", "c1"), ("claims",)):
            with self.assertRaises(NotUnderstoodError, msg=words):
                listed_in(Reply(True, words), CLAIM)

    def test_named(self) -> None:
        """A line names claims only where claims stand."""
        for text, named in (("OK held c2", ["c2"]), ("OK queued c2 behind h1", ["c2", "h1"]), ("OK claims 2 c1 c2", ["c1", "c2"]),
                            ("OK claim c2 c7 held w:/c8", ["c2"]), ("OK claim c2 c7 queued behind c1 w:/c8", ["c2", "c1"]),
                            ("OK list 2 c1 c2", []), ("OK drafts 1 /c1", []), ("ERR 33 c4", ["c4"]), ("OK content 00", [])):
            words = text.split()
            self.assertEqual(Reply(words[0] == "OK", tuple(words[1:])).claims(), named, text)


if __name__ == "__main__":
    unittest.main()
