"""Giving a check-out away, and notes; tests/test_odd_server.py has a server that knows neither."""

import unittest
from pathlib import Path
from unittest import mock

from designers import PART, WithServer

from vault import Client, MisusedError, NotKnownError, RefusedError, UnreachableError
from vault.store.card import Card


class Knowing(WithServer):
    """A server that knows `give` and `note`."""

    def setUp(self) -> None:
        super().setUp()
        self.ben = self.client("ben")
        self.claim = self.anna.checkout(["w:" + PART]).claim

    def refused(self, *words: str, code: int) -> None:
        """A method of anna's client that is refused."""
        with self.assertRaises(RefusedError) as refused:
            getattr(self.anna, words[0])(*words[1:])
        self.assertEqual(refused.exception.code, code)


class Give(Knowing):
    """A check-out with its drafts goes from anna to ben, whatever breaks."""

    def test_given(self) -> None:
        for number, cut in enumerate(self.both(), 1):
            self.anna.put(PART, b"content %d" % number)
            cut.append(b"give")
            self.anna.give(self.claim, "ben")
            self.assertEqual(self.sent(b"give"), number)
            self.refused("give", self.claim, "carl", code=31)
            self.refused("checkin", self.claim, code=31)
            self.assertEqual(self.ben.mine([self.claim])[0][0].claim, self.claim)
            self.assertEqual(self.anna.kept_drafts(self.claim), {PART: b"content %d" % number})
            self.assertTrue(self.anna.mine()[0][0].anothers)
            self.assertEqual(self.ben.checkin(self.claim), 1)
            self.assertEqual(self.anna.get(PART), b"content %d" % number)
            self.anna.mine()
            self.assertEqual(self.anna.mine(), [])
            self.claim = self.anna.checkout(["w:" + PART]).claim
        self.assertEqual(self.notices, [])

    def test_changed_by_the_receiver(self) -> None:
        """One that the receiver put something else into and checked in is forgotten, once that is told; one that ended otherwise isn't."""
        for ends in ("checkin", "abandon"):
            self.anna.put(PART, b"x")
            self.anna.give(self.claim, "ben")
            self.ben.put(PART, b"y", self.claim)
            self.assertEqual([claim.given for _, claim in self.anna.mine()], ["ben"])
            getattr(self.ben, ends)(self.claim)
            self.assertEqual([standing.gone for standing, _ in self.anna.mine()], [True])
            self.assertEqual(len(self.anna.mine()), 0 if ends == "checkin" else 1)
            self.assertEqual(self.anna.kept_drafts(self.claim), {} if ends == "checkin" else {PART: b"x"})
            self.claim = self.anna.checkout(["w:" + PART]).claim

    def test_given_back(self) -> None:
        """Once it is given back, she can put and check in again, and her client still knows what it was asked for."""
        self.anna.put(PART, b"x")
        self.anna.give(self.claim, "ben")
        with self.assertRaises(MisusedError):
            self.anna.put(PART, b"y")
        self.ben.give(self.claim, "anna")
        standing, kept = self.anna.mine()[0]
        self.assertEqual((standing.held, standing.anothers, kept.given), (True, False, ""))
        self.assertEqual(self.anna.put(PART, b"y"), self.claim)
        self.assertEqual(self.anna.checkin(self.claim), 1)

    def test_a_lost_check_in_of_the_receiver(self) -> None:
        """He put nothing himself, and hears how many versions it made."""
        self.anna.put(PART, b"x")
        self.anna.give(self.claim, "ben")
        self.cutter.after.append(b"checkin")
        self.assertEqual(self.ben.checkin(self.claim), 1)

    def test_a_lost_check_in_of_anothers_draft(self) -> None:
        """It was given back with another draft than the one that was put from here: the check-in is known to be done, also by the next run."""
        for settled_later in (False, True):
            self.anna.put(PART, b"x")
            self.anna.give(self.claim, "ben")
            self.ben.put(PART, b"y", self.claim)
            self.ben.give(self.claim, "anna")
            self.cutter.after.append(b"checkin")
            if settled_later:
                short = self.client("anna", patience=0.0)
                away = UnreachableError("No server answers.")
                with self.assertRaises(NotKnownError), mock.patch.object(short.recovery, "find_out", side_effect=away):
                    short.checkin(self.claim)
                self.assertEqual(self.anna.mine(), [])
                self.assertEqual(self.notices, [f"Your earlier `checkin {self.claim}` was done."])
            else:
                self.assertEqual(self.anna.checkin(self.claim), 1)
            self.assertEqual(self.anna.get(PART), b"y")
            self.claim = self.anna.checkout(["w:" + PART]).claim

    def test_ended_by_the_receiver(self) -> None:
        """The reply is lost, and the receiver gives the check-out up at once: the copy of the draft is kept, and the client says so."""
        self.anna.put(PART, b"dear")

        def abandon() -> None:
            self.ben.mine([self.claim])
            self.ben.abandon(self.claim)

        self.cutter.meanwhile = abandon
        self.cutter.after.append(b"give")
        with self.assertRaises(RefusedError) as refused:
            self.anna.give(self.claim, "ben")
        self.assertIn("vault drafts", str(refused.exception))
        self.assertEqual(self.anna.kept_drafts(self.claim), {PART: b"dear"})

    def test_refusals(self) -> None:
        self.refused("give", "c9", "ben", code=30)
        with self.assertRaises(MisusedError):
            self.anna.give(self.claim, "anna")
        with self.assertRaises(MisusedError):
            self.anna.give(self.claim, "Ben")
        with self.assertRaises(RefusedError):
            self.ben.mine([self.claim])
        self.assertEqual(self.ben.mine(), [])


class Note(Knowing):
    """A note is written, read by anyone and removed, whatever breaks."""

    def test_noted(self) -> None:
        self.assertEqual(self.anna.note(self.claim), b"")
        for cut in self.both():
            cut.append(b"note")
            self.anna.set_note(self.claim, b"back on Monday")
            self.assertEqual(self.ben.note(self.claim), b"back on Monday")
            cut.append(b"note")
            self.anna.set_note(self.claim, b"")
            self.assertEqual(self.ben.note(self.claim), b"")
        self.anna.set_note(self.claim, b"x" * 64)
        with self.assertRaises(MisusedError):
            self.anna.set_note(self.claim, b"x" * 65)
        self.refused("note", "c9", code=30)

    def test_settled_by_the_next_run(self) -> None:
        for cut, done in zip(self.both(), ("was not done. Say it again.", "was done.")):
            cut.append(b"note c1 6162")
            short = Client("anna", "127.0.0.1", self.cutter.port, Path(self.folder.name), 0.0, 0.0)
            with self.assertRaises(NotKnownError):
                short.set_note(self.claim, b"ab")
            short.close()
            self.anna.mine()
            self.assertEqual(self.notices.pop(), f"Your earlier `note {self.claim}` {done}")

    def test_program(self) -> None:
        self.vault("hello", f"anna@127.0.0.1:{self.server.port}")
        self.assertEqual(self.vault("note", "c1"), b"c1 has no note.\n")
        self.assertEqual(self.vault("note", "c1", "zur\u00fcck am Montag"), b"c1 has the note now.\n")
        self.assertEqual(self.vault("note", "c1"), "zur\u00fcck am Montag\n".encode())
        self.anna.set_note("c1", b"\x1b[2J")
        self.assertEqual(self.as_json("note", "c1")["note"], "0x1b5b324a")
        self.assertIn(b"c1 is ben's now", self.vault("give", "c1", "ben", "--yes"))
        self.vault("hello", f"ben@127.0.0.1:{self.server.port}")
        self.assertIn(b"c1 is held.", self.vault("mine", "c1"))
        self.assertEqual(self.as_json("mine")["claims"][0]["claim"], "c1")

    def test_to_nobody(self) -> None:
        """A name that nobody has used is asked about first: known is who has a check-out, had one that this client heard of, or put a version."""
        self.vault("hello", f"anna@127.0.0.1:{self.server.port}")
        refused = self.as_json("give", "c1", "bne", status=1)
        self.assertEqual(refused["sentence"], "Nothing was changed. Say the same with `--yes`, if that is what you want.")
        self.assertIn("Nobody called bne has a check-out or a version in this vault so far: look whether the name is right.", refused["notices"][0])
        self.assertIn("is no designer's name", self.as_json("give", "c1", "B n", status=2)["sentence"])
        self.assertTrue(self.anna.standing("c1").held)
        other = self.ben.checkout(["r:/engine"]).claim
        self.assertEqual(self.as_json("give", "c1", "ben")["receiver"], "ben")
        self.ben.give("c1", "anna")
        self.vault("who")
        self.ben.abandon(other)
        self.assertEqual(self.as_json("give", "c1", "ben")["receiver"], "ben")
        carl = self.client("carl")
        card = Card("0" * 64, 1, "x", "dora", "2026-01-01T00:00:00Z")
        self.ben.put(PART, card.spell(), "c1")
        self.ben.checkin("c1")
        claim = carl.checkout(["w:" + PART]).claim
        self.vault("hello", f"carl@127.0.0.1:{self.server.port}")
        self.assertEqual(self.as_json("give", claim, "dora")["receiver"], "dora")


if __name__ == "__main__":
    unittest.main()
