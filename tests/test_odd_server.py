"""What the client makes of a server that says what no vault server says: a sentence, and nothing done by half."""

import tempfile
import unittest
from pathlib import Path
from typing import Callable, Dict, List

from servers import Answering

from vault import Client, NotKnownError, RefusedError, VaultError
from vault.store.card import Card, now
from vault.store.parts import Parts
from vault.working.opening import folder_for
from vault.working import Working


class Odd(Answering):
    """A server that answers each line by its first word, with the replies that it is given."""

    def __init__(self) -> None:
        self.replies: Dict[bytes, bytes] = {}
        super().__init__()

    def reply(self, line: bytes) -> bytes:
        word = line.split()[0]
        return self.replies.get(word, b"OK session 1" if word == b"hello" else b"OK left") + b"\n"


class OddReplies(unittest.TestCase):
    """Replies of other forms."""

    def setUp(self) -> None:
        self.server = Odd()
        self.addCleanup(self.server.close)
        self.folder = Path(self.enterContext(tempfile.TemporaryDirectory(prefix="vault-test-")))
        self.client = Client("anna", "127.0.0.1", self.server.port, self.folder / "state", 0.1, 0.0)
        self.addCleanup(self.client.close)

    def refused(self, asked: Callable[[], object], **replies: bytes) -> None:
        """Whatever is asked ends with a sentence that can be shown."""
        self.server.replies = {word.encode(): reply for word, reply in replies.items()}
        with self.assertRaises(VaultError, msg=str(replies)) as refused:
            asked()
        self.assertTrue(str(refused.exception).isprintable(), replies)

    def test_forms(self) -> None:
        anna, part = self.client, "/e/b/p"
        odd: List[bytes] = [b"OK", b"", b"OK content", b"OK versions", b"\x1b[2J", b"OK versions \x1b[2J", b"OK versions -1", b"OK versions 1e3",
                            b"OK versions 99999999999", b"ERR x", b"OK " + b"x" * (2 << 20), b"\xff"]
        for reply in odd:
            self.refused(lambda: anna.version(part), count=reply)
            self.refused(lambda: anna.survey("/e"), count=b"ERR 22", list=reply)
            self.refused(lambda: list(anna.tree("/e")), list=reply)
            self.refused(lambda: anna.state("c1"), state=reply)
        for reply in (b"OK content 0", b"OK content zz", b"OK content " + b"00" * 1025, b"OK content AB", b"OK x \xc3\xa4"):
            self.refused(lambda: anna.version(part, 1), fetch=reply)
        for reply in (b"OK list 1 ..", b"OK list 1 A", b"OK list 2 a", b"OK list 1 a/b", b"OK list 1 " + b"a" * 33):
            self.refused(lambda: list(anna.tree("/e")), list=reply)
            self.refused(lambda: anna.survey("/e"), count=b"ERR 22", list=reply)

    def test_holders(self) -> None:
        """An older server doesn't know the question; an odd one is reported as such."""
        self.server.replies = {b"claims": b"ERR 10"}
        self.assertEqual(self.client.holders("/e"), [])
        for reply in (b"OK claim c1 Anna held w:/e", b"OK claim c1 anna held", b"OK claim c1 anna queued w:/e", b"OK claim c1 anna held x:/e",
                      b"OK claim c1 anna held w:/../x"):
            self.refused(lambda: self.client.holders("/e"), claims=b"OK claims 1 c1", show=reply)

    def test_every_checkout_is_anothers(self) -> None:
        """So the ssh gate answers a key for questions alone: the search for a check-out whose reply was lost ends."""
        self.server.replies = {b"checkout": b"ERR 82", b"save": b"ERR 31", b"claims": b"ERR 10"}
        with self.assertRaises(NotKnownError):
            self.client.checkout(["w:/e"])
        told: List[str] = []
        self.client.notice = told.append
        self.client.recovery.notice = told.append
        self.assertEqual(self.client.mine(), [])
        self.assertIn("was not done", told[0])

    def test_older_server(self) -> None:
        """A server that knows neither `give` and `note` nor who holds what: the client says so, and nothing is left under way."""
        self.server.replies = {b"give": b"ERR 10", b"note": b"ERR 10", b"claims": b"ERR 10", b"state": b"OK held c1", b"save": b"ERR 22"}
        asked: List[Callable[[], object]] = [lambda: self.client.give("c1", "ben"), lambda: self.client.note("c1"),
                                             lambda: self.client.set_note("c1", b"x")]
        for number, one in enumerate(asked):
            with self.assertRaises(RefusedError, msg=str(number)) as refused:
                one()
            self.assertIn("does not know this command", str(refused.exception))
        self.assertEqual([standing.claim for standing, _ in self.client.mine(["c1"])], ["c1"])

    def test_a_note_at_an_older_server(self) -> None:
        """It doesn't tell the drafts, so the note is written on the copies that are kept here."""
        self.server.replies = {b"drafts": b"ERR 10", b"draft": b"ERR 10", b"count": b"OK versions 0", b"save": b"OK saved"}
        card = Card("0" * 64, 1, "Kolben", "anna", now())
        self.client.put("/e/b/p", card.spell(), "c1")
        self.assertEqual(Parts(self.client).set_note("c1", "done"), 1)
        self.assertEqual(self.client.kept_drafts("c1"), {"/e/b/p": card._replace(note="done").spell()})

    def test_unknown_refusal(self) -> None:
        """It is shown as it is, whatever it says; one with no number of a refusal is no reply."""
        for said in ("99 what", "99 {x}", "99 {claim.__class__}", "99 {"):
            with self.assertRaises(RefusedError) as refused:
                self.server.replies = {b"count": b"ERR " + said.encode()}
                self.client.version("/e/b/p")
            self.assertEqual(str(refused.exception), f"The server refused with {said}.")
        self.refused(lambda: self.client.version("/e/b/p"), count=b"ERR " + b"9" * 5000)

    def test_a_checkout_of_nothing(self) -> None:
        """A check-out that is answered with no claim, at once or when its fate is asked for, is neither taken for done nor forgotten."""
        self.refused(lambda: self.client.checkout(["w:/e"]), checkout=b"OK x")
        self.refused(self.client.mine, save=b"ERR 22", state=b"OK x")
        self.server.replies = {b"save": b"ERR 22", b"state": b"OK held c1", b"claims": b"ERR 10"}
        self.assertEqual([standing.claim for standing, _ in self.client.mine()], ["c1"])

    def test_a_tree_without_end(self) -> None:
        """A server that lists places beneath every place: the client stops at the greatest depth of a path."""
        self.refused(lambda: self.client.survey("/e"), count=b"ERR 22", list=b"OK list 1 a")

    def test_nothing_is_written(self) -> None:
        """Names and contents of such a server lead to no file."""
        parts = Parts(self.client)
        for reply in (b"OK list 1 ..", b"OK list 1 ../x"):
            self.refused(lambda: Working(parts, folder_for(parts, "/e", self.folder / "work")).get(), count=b"ERR 22", list=reply)
        self.assertEqual(list((self.folder / "work").iterdir()), [])


if __name__ == "__main__":
    unittest.main()
