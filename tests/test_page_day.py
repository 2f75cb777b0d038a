"""A day in a design office with nothing but browsers: two designers who sign in at nginx with passwords. Pictures lie in tests/out."""

import signal
import subprocess
import unittest
import zipfile
from typing import Dict, List

from page_server import until
from persons import Person, WithDesigners
from servers import program


class Day(WithDesigners):
    """Anna and Ben design an engine."""

    def test_a_day(self) -> None:
        """The day of the tutorial without a terminal."""
        anna, ben = self.anna, self.person("ben")
        self.morning(anna, ben)
        self.a_queue(anna, ben)
        self.noon(anna)
        self.afternoon(anna, ben)
        for person in (anna, ben):
            self.assertEqual([words for words in person.browser.complaints() if "/.events" not in words and "favicon" not in words], [])
        done = (self.folder / "changes.log").read_text("ascii")
        for words in ("by=anna as=anna told make /engine -> OK place", "by=ben as=ben told give c5 anna -> OK given",
                      "told save c2 /engine/block/rod"):
            self.assertIn(words, done)
        asked: List[str] = [*program("vaultd-log"), "/engine/block/rod", "--log", str(self.folder / "changes.log")]
        said = subprocess.run(asked, check=True, capture_output=True, text=True).stdout
        self.assertIn("anna checked in c2", said)

    def morning(self, anna: Person, ben: Person) -> None:
        """Places are made, two files are put and checked in, and somebody else takes them away."""
        anna.open("/")
        self.pictures(anna, "empty")
        anna.fill("make", name="engine")
        anna.shows(".told", "/engine is there.")
        anna.open("/engine")
        anna.fill("make", name="block")
        anna.open("/engine/block")
        anna.fill("checkout", note="first drawings")
        anna.shows(".told", "c2 is held.")
        anna.shows("#heading", "anna has it, or something beneath it, for change.")
        self.pistons = (b"bore 80, stroke 90\n" * 20000, b"bore 80, stroke 92\n" * 20000)
        anna.fill("upload", file=self.file("Piston 80", self.pistons[0]) + "\n" + self.file("rod", b"length 144\n" * 50000))
        anna.shows(".told", "/engine/block/piston_80, /engine/block/rod are drafts in c2.")
        anna.open("/.mine")
        anna.shows("#mine", "Drafts: /engine/block/piston_80, /engine/block/rod")
        anna.open("/.claim/c2")
        self.pictures(anna, "claim")
        anna.fill("checkin", why="first drawings")
        anna.shows(".told", "c2 is checked in: 2 new versions.")
        ben.open("/engine/block")
        ben.shows("#tree-words", "2 parts")
        content = ben.take_away("a[href='/.zip/engine/block']", "block.zip")
        (ben.folder / "block.zip").write_bytes(content)
        with zipfile.ZipFile(ben.folder / "block.zip") as archive:
            self.assertEqual({name: len(archive.read(name)) for name in archive.namelist()}, {"Piston 80": 380000, "rod": 550000})

    def a_queue(self, anna: Person, ben: Person) -> None:
        """Each takes something, and one comes into the other's way."""
        anna.open("/engine/block/piston_80")
        anna.fill("checkout")
        anna.shows(".told", "c3 is held.")
        ben.open("/engine/block/rod")
        ben.fill("checkout", mode="look")
        ben.shows(".told", "c4 is held.")
        anna.open("/engine/block/piston_80")
        anna.fill("upload", file=self.file("Piston 80", self.pistons[1]))
        anna.shows(".told", "/engine/block/piston_80 is a draft in c3.")
        anna.open("/.claim/c3")
        anna.fill("extend", place="/engine/block/rod")
        anna.shows(".told.refused", "In the way is c4, which ben holds: r:/engine/block/rod.")
        self.pictures(anna, "refused")
        anna.open("/.mine")
        ben.open("/engine/block")
        ben.fill("checkout")
        ben.shows(".told", "c5 is queued behind c3, which anna holds: w:/engine/block/piston_80. The page tells when it is held.")
        anna.shows("#asked", "You are in ben’s way at /engine/block/piston_80 (contested) with c3", 3)
        self.pictures(anna, "mine")
        self.pictures(ben, "place")
        ben.open("/")
        ben.shows("#blockers", "ben c5 waits to change /engine/block for c3 of anna at /engine/block/piston_80")
        self.pictures(ben, "library")

    def noon(self, anna: Person) -> None:
        """The server is killed, and comes back. A change meanwhile is refused by a sentence."""
        anna.open("/.claim/c3")
        self.server.kill()
        anna.fill("checkin", why="longer stroke")
        anna.shows(".told.refused", "No server answers at 127.0.0.1", 30)
        self.server.start()
        anna.open("/.claim/c3")
        anna.fill("checkin", why="longer stroke")
        anna.shows(".told", "c3 is checked in: 1 new version.")

    def afternoon(self, anna: Person, ben: Person) -> None:
        """Who waited is told in the title; a note, a gift, and a version from before."""
        ben.open("/.mine")
        ben.shows("#mine", "c5 waits for c4 (ben)")
        title = ben.browser.driver.title
        self.assertEqual(self.page.act("ben", "abandon", claim="c4"), (303, "c4 is given up, with its drafts."))
        until(lambda: ben.browser.driver.title == f"(c5 is held) {title}", 5)
        ben.open("/engine/block")
        ben.fill("upload", file=self.file("pin", b"diameter 20\n"))
        ben.shows(".told", "/engine/block/pin is a draft in c5.")
        ben.open("/.claim/c5")
        ben.fill("note", note="pin is done, rod isn't begun")
        ben.fill("give", to="anna")
        ben.shows(".told", "c5 is anna's now, with its drafts.")
        anna.open("/.mine")
        anna.shows("#mine", "pin is done, rod isn't begun")
        anna.press("Check in")
        anna.shows(".told", "c5 is checked in: 1 new version.")
        anna.open("/engine/block/piston_80")
        anna.shows("#versions", "longer stroke")
        self.pictures(anna, "part")
        self.assertEqual(anna.take_away("a[href='/.file/engine/block/piston_80?version=1']", "Piston 80"), self.pistons[0])

    def test_by_keyboard_and_without_scripts(self) -> None:
        """A check-out, a note and its end need neither a mouse nor a script."""
        anna = self.anna
        anna.browser.run_scripts(False)
        driver = anna.browser.driver
        driver.get(self.nginx.address("anna") + "/")
        driver.find_element("css selector", "#made-name").send_keys("engine\ue007")
        until(lambda: "/engine is there." in driver.page_source, 20)
        driver.get(self.nginx.address("anna") + "/engine")
        driver.find_element("css selector", "#out-note").send_keys("mine\ue007")
        until(lambda: "c2 is held." in driver.page_source, 20)
        driver.get(self.nginx.address("anna") + "/.mine")
        button = next(each for each in driver.find_elements("css selector", "button") if each.text == "Give up")
        button.send_keys("\ue007")
        until(lambda: "c2 is given up, with its drafts." in driver.page_source, 20)

    def test_strangers_words(self) -> None:
        """Markup in every field is text on every page, and a path in a file's name leads nowhere."""
        anna = self.anna
        evil: Dict[str, str] = {"note": "<img src=x onerror=alert(1)>", "why": "<script>alert(2)</script>"}
        anna.open("/")
        anna.fill("make", name="engine")
        anna.open("/engine")
        anna.fill("make", name="block")
        anna.open("/engine/block")
        anna.fill("checkout", note=evil["note"])
        anna.fill("upload", file=self.file("<b>bold<\N{DIVISION SLASH}b> & 'x'.step".replace("<", "{").replace(">", "}"), b"x"))
        anna.open("/.claim/c2")
        anna.fill("checkin", why=evil["why"])
        for path in ("/", "/engine/block", "/.mine", "/designers/anna", "/.search?q=alert"):
            anna.open(path)
            self.assertEqual(anna.browser.value("document.querySelectorAll('main img, main script, bdi *:not(mark)').length"), 0)
        self.assertEqual([words for words in anna.browser.complaints() if "/.events" not in words], [])


class Large(WithDesigners):
    """Long files, by the page's socket."""

    def test_two_hundred_megabytes(self) -> None:
        """Two hundred megabytes go through nginx and the page into the store with little memory; killed in the middle nothing is left of them."""
        anna = self.anna
        self.at_a_part(anna)
        path = self.folder / "large"
        with open(path, "wb") as file:
            for number in range(200):
                file.write(bytes([number]) * 1_000_000)
        self.addCleanup(path.unlink)
        before = self.page.memory()
        anna.open("/engine/block/part")
        anna.fill("upload", file=str(path))
        anna.shows(".told", "/engine/block/part is a draft in c2.", 60)
        self.assertLess(self.page.memory() - before, 60_000_000)
        incoming = self.folder / "store" / "incoming"
        self.assertEqual(list(incoming.iterdir()), [])
        kept = sum(1 for each in (self.folder / "store" / "sha256").rglob("*") if each.is_file())
        with open(path, "r+b") as file:
            file.write(b"other")
        sender = subprocess.Popen(["curl", "-s", "-u", "anna:secret-of-anna", "--limit-rate", "20M", "-H", "Sec-Fetch-Site: same-origin",
                                   "-F", "token=" + self.page.token("anna"), "-F", "claim=c2", "-F", "place=/engine/block/part", "-F",
                                   f"file=@{path}", self.nginx.address() + "/.act/upload"])
        until(lambda: any(each.stat().st_size > 30_000_000 for each in incoming.iterdir()), 30)
        self.assertEqual(self.page.put("anna", "c2", "/engine/block/part", {"x": b"x"})[0], 429)
        sender.send_signal(signal.SIGKILL)
        sender.wait()
        until(lambda: list(incoming.iterdir()) == [], 20)
        self.assertEqual(sum(1 for each in (self.folder / "store" / "sha256").rglob("*") if each.is_file()), kept)
        until(lambda: self.page.put("anna", "c2", "/engine/block/part", {"x": b"x"})[0] == 303, 20)


if __name__ == "__main__":
    unittest.main()
