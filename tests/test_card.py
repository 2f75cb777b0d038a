"""Cards and addresses: their forms are exact, whoever wrote them."""

import random
import unittest

import servers  # noqa: F401
from vault.store.address import FolderAddress, RcloneAddress, read_store_address
from vault.files.text import shown
from vault.store.card import Card, name_word, note_word, now, read_card
from vault.errors import MisusedError

CARD = Card("ab" * 32, 3145728, "Kolben 80.SLDPRT", "anna", "2026-11-27T18:03:11Z", "larger bore")
TEXT = (b"vault card 1\nsha256 " + b"ab" * 32 + b"\nsize 3145728\nname Kolben 80.SLDPRT\nby anna\nat 2026-11-27T18:03:11Z\n"
        b"note larger bore\n")


class Cards(unittest.TestCase):
    """What is a card, and what is none."""

    def test_spelled(self) -> None:
        self.assertEqual(CARD.spell(), TEXT)
        self.assertEqual(read_card(TEXT), CARD)
        without = TEXT[:-len(b"note larger bore\n")]
        self.assertEqual(read_card(without), Card(CARD.sha256, CARD.size, CARD.name, CARD.by, CARD.at))

    def test_longest(self) -> None:
        card = Card("0" * 64, 10 ** 18 - 1, "\u00fc" * 127 + "x", "x" * 32, now(), "\u00fc" * 200)
        self.assertEqual(read_card(card.spell()), card)
        self.assertLessEqual(len(card.spell()), 1024)

    def test_no_cards(self) -> None:
        """Contents as they were before there were cards, and what is nearly a card."""
        for content in (b"", b"bore 80\n", TEXT[:-1], TEXT + b"\n", TEXT + b"x", b"\n" + TEXT, TEXT.replace(b"\n", b"\r\n"),
                        TEXT.replace(b"card 1", b"card 2"), TEXT.replace(b"abab", b"ABAB"), TEXT.replace(b"3145728", b"03145728"),
                        TEXT.replace(b"3145728", b"-1"), TEXT.replace(b"3145728", b"9" * 19), TEXT.replace(b"anna", b"Anna"),
                        TEXT.replace(b"-11-27", b"-02-30"), TEXT.replace(b"T18", b" 18"), TEXT.replace(b"larger bore", b""),
                        TEXT.replace(b"larger bore", b"x" * 401), TEXT.replace(b"Kolben", b"K" * 250), TEXT.replace(b"Kolben", b"\xff"),
                        TEXT.replace(b"Kolben", b"a\x1b[2J"), TEXT.replace(b"Kolben", b"a\x7f"), TEXT.replace(b"Kolben", b"a\xc2\x85"),
                        TEXT.replace(b"Kolben", b"a\xe2\x80\xa8"), TEXT.replace(b"larger", b"a\tb"), TEXT.replace(b"size ", b"size  "),
                        TEXT.replace(b"3145728", "\u0663".encode()), TEXT.replace(b"2026", "\u0662026".encode())):
            self.assertIsNone(read_card(content), content)

    def test_one_spelling(self) -> None:
        """Whatever is read as a card is written again with the same bytes."""
        moments, taken = random.Random(65), 0
        for _ in range(20000):
            content = bytearray(TEXT)
            for _ in range(moments.randint(1, 3)):
                at = moments.randrange(len(content))
                content[at:at + moments.randint(0, 2)] = moments.choice((b"", b"a", b"0", b"\n", b" ", bytes([moments.randrange(256)])))
            card = read_card(bytes(content))
            if card is not None:
                taken += 1
                self.assertEqual(card.spell(), bytes(content))
        self.assertGreater(taken, 1000)

    def test_words(self) -> None:
        self.assertEqual((name_word("\u00fc" * 127), note_word("x" * 400)), ("\u00fc" * 127, "x" * 400))
        for word in ("", "\u00fc" * 128, "a\nb", "\udcff", "a\x00"):
            with self.assertRaises(MisusedError):
                name_word(word)
        for word in ("", "x" * 401, "a\nb", "a\rb"):
            with self.assertRaises(MisusedError):
                note_word(word)

    def test_shown(self) -> None:
        """What turns the direction of writing is shown escaped."""
        self.assertEqual(shown("Kolben \u202egpj.exe \u00e4"), "Kolben \\u202egpj.exe \u00e4")


class Addresses(unittest.TestCase):
    """What may name a store, since anybody can write it."""

    def test_read(self) -> None:
        folder = read_store_address("file:///srv/vault%20store/a")
        assert isinstance(folder, FolderAddress)
        self.assertEqual(str(folder.folder), "/srv/vault store/a")
        remote = read_store_address("rclone:office_2-b:bucket/vault store")
        assert isinstance(remote, RcloneAddress)
        self.assertEqual((remote.remote, remote.path), ("office_2-b", "bucket/vault store"))

    def test_refused(self) -> None:
        """Connection strings, options, hosts, and what leaves its folder."""
        for text in ("", "/srv/store", "file://srv/store", "file:///", "file:///srv/../etc", "file:///srv/%2e%2e/etc", "file:///srv/a%00b",
                     "file:///srv/store?x", "file:///srv/store#x", "file:///srv/a\nb", "https://x/y", "rclone:office", "rclone:office:",
                     "rclone:office:/", "rclone::local:/etc", "rclone:-v:x", "rclone:a,config_dir=x:y", "rclone:a b:x", "rclone:\u00e4:x",
                     "rclone:sftp,ssh=touch /tmp/x:y", "rclone:office:a/../b", "rclone:office:..", "rclone:office:a\\..\\b",
                     "file:///" + "x" * 1024, "file:///\u202ex"):
            with self.assertRaises(MisusedError, msg=text):
                read_store_address(text)


if __name__ == "__main__":
    unittest.main()
