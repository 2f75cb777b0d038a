"""Each kind of the live page in a real browser, in two widths and two colours, on paper, and without scripts.

Pictures of all lie in tests/out, or in the folder that VAULT_PICTURES names.
"""

import base64
import json
import tempfile
import unittest
from pathlib import Path
from typing import Tuple

from busy_vault import DESIGNERS
from page_server import PageServer, until
from with_page import CHECK, PICTURES, PISTON, WithOffice

WINDOWS: Tuple[Tuple[str, int, int, bool], ...] = (("1280", 1280, 800, False), ("390", 390, 844, False), ("1280-dark", 1280, 800, True),
                                                   ("390-dark", 390, 844, True))
KINDS = {"library": "/", "project": "/engine", "assembly": "/engine/head", "part": PISTON, "designers": "/designers", "designer": "/designers/anna",
         "blockers": "/.blockers", "old": "/.old?days=0", "timeline": "/.timeline?all=1",
         "nobody": "/designers/nobody", "search": "/.search?q=crank", "nothing": "/.search?q=%3Cb%3E", "missing": "/engine/none"}


LINE = ("2026-11-{0:02}T01:02:03.000004Z id=00000000000000a0.{0} vault=127.0.0.1:7070 from=192.0.2.7 key=SHA256:{1} by={2} as={3}"
        " told {4} -> OK {5}\n")
DONE = (("anna", "anna", f"checkout w:{PISTON} r:/engine", "held c7"), ("anna", "anna", f"save c7 {PISTON} (300 bytes)", "saved"),
        ("ben", "anna", "give c7 cara", "given"), ("w" * 32, "w" * 32, "make /" + "/".join(["w" * 32] * 7), "place"),
        ("cara", "cara", "checkin c7", "checked in 1"))


class Kinds(WithOffice):
    """Each kind of page, as a busy office sees it."""

    def setUp(self) -> None:
        super().setUp()
        folder = self.enterContext(tempfile.TemporaryDirectory(prefix="vault-test-"))
        log = Path(folder, "gate.log")
        log.write_text("".join(LINE.format(day % 28 + 1, "A" * 43, *DONE[day % len(DONE)]) for day in range(130)), "ascii")
        self.page.end()
        self.page = PageServer(self.server.port, "--title", "Plant 1 <machines>", "--gate-log", str(log))

    def test_each(self) -> None:
        """Nothing is wrong by the check in the page, the console is empty, and markup of strangers is text."""
        self.fill()
        self.open("/")
        until(lambda: "Pin.SLDPRT" in self.browser.value("document.body.textContent"), 15)
        for window, width, height, dark in WINDOWS:
            self.browser.show(width, height, dark)
            for name, path in KINDS.items():
                with self.subTest(name, window=window):
                    self.open(path)
                    self.assertEqual(self.browser.value(CHECK), [])
                    self.assertEqual(self.browser.value("document.querySelectorAll('main img, main script, bdi *:not(mark)').length"), 0)
                    complaints = [words for words in self.browser.complaints() if not (name == "missing" and "404" in words)]
                    self.assertEqual(complaints, [])
                    self.browser.picture(PICTURES / f"{name}-{window}.png")

    def test_strangers_words(self) -> None:
        """Names, cards and notes stand there as they were written, and what turns the direction of writing is shown escaped."""
        self.fill()
        self.open("/gripper/base/flange")
        self.assertIn("<img src=x onerror=alert(3)>", self.words("main"))
        claim = self.browser.value("document.querySelector('#line .name, #blockers .name').innerText")
        self.say("eva", f"checkin {claim}")
        self.shows("#versions", "<img src=x onerror=alert(1)><b>\\u202egpj.exe</b>WWW", 2.0)
        self.assertIn("<script>alert(2)</script>", self.words("#versions"))
        for window, width, height, dark in WINDOWS:
            self.browser.show(width, height, dark)
            self.assertEqual(self.browser.value(CHECK), [], window)
            self.browser.picture(PICTURES / f"strangers-{window}.png")
        self.open("/" + "/".join("w" * 32 for _ in range(7)))
        self.browser.show(390, 844)
        self.assertEqual(self.browser.value(CHECK), [])
        self.assertEqual(self.browser.complaints(), [])

    def test_on_paper(self) -> None:
        """What is printed has the queue, and no search."""
        self.fill()
        self.open("/")
        self.browser.show(794, 1123, media="print")
        self.assertEqual(self.browser.value(CHECK), [])
        self.assertEqual(self.browser.value("document.querySelector('form').checkVisibility()"), False)
        self.browser.picture(PICTURES / "library-paper.png")
        printed = self.browser.driver.execute_cdp_cmd("Page.printToPDF", {"printBackground": True})["data"]
        (PICTURES / "library.pdf").write_bytes(base64.b64decode(printed))

    def test_without_scripts(self) -> None:
        """The page reads as it is, links lead on, and a search is a form."""
        self.fill()
        self.browser.run_scripts(False)
        self.browser.open(self.page.address + "/")
        source = self.browser.driver.page_source
        for words in ("Who waits for whom", "How full it is", 'href="/designers/anna"', "as of <time", 'http-equiv="refresh"'):
            self.assertIn(words, source)
        self.browser.open(self.page.address + PISTON)
        self.assertIn("Piston.SLDPRT", self.browser.driver.page_source)
        self.browser.run_scripts(True)


class Browsing(WithOffice):
    """What somebody sees first, and finds again."""

    def see_who_waits(self) -> None:
        """Without scrolling the first screen shows who is in whose way: a claim, and who waits for it, in both sizes."""
        self.open("/")
        for width, height in ((1280, 800), (390, 844)):
            self.browser.show(width, height)
            for selector in ("#blockers > li > .who", "#blockers > li .stopped > li > .who"):
                bottom = self.browser.value(f"document.querySelector({json.dumps(selector)}).getBoundingClientRect().bottom")
                self.assertLess(bottom, height, (selector, width))

    def test_a_large_vault(self) -> None:
        """So it is in a vault of forty projects and two thousand parts, with sixty check-outs of twelve designers, of which twenty wait."""
        for project in range(40):
            self.office.say("anna", f"make /p{project}", f"make /p{project}/a", *(f"make /p{project}/a/part{part}" for part in range(50)))
        for claim in range(60):
            told, = self.office.say(DESIGNERS[claim % 12], f"checkout w:/p{claim}/a" if claim < 40 else f"checkout w:/p{claim - 40}/a/part7")
            self.assertEqual(told.words[0], "held" if claim < 40 else "queued")
        self.see_who_waits()
        self.shows("#tally", "20 waiting", 10)
        self.assertEqual(self.browser.value(CHECK), [])

    def test_the_first_screen(self) -> None:
        """It shows who waits for whom, and in each width nothing leaves its card."""
        self.fill()
        self.see_who_waits()
        for width in (960, 1024):
            for path in ("/", PISTON, "/designers", "/gripper/base/flange"):
                self.browser.show(width, 800)
                self.open(path)
                self.assertEqual((path, width, self.browser.value(CHECK)), (path, width, []))

    def test_back(self) -> None:
        """Who comes back finds open what was open, shut what was shut, and the page where it stood."""
        self.fill()
        self.browser.show(1280, 500)
        self.open("/")
        shut = self.browser.value("(branch => { branch.querySelector('summary').click(); return branch.firstElementChild.id; })"
                                  "(document.querySelector('.tree details[open]'))")
        self.browser.value("document.querySelector('#held details:not([open]) summary').click()")
        opened = self.browser.value("document.querySelector('#held details[open]').id")
        self.browser.value("new Promise(go => { scrollTo(0, 300); setTimeout(go, 200); })")
        self.browser.value("document.querySelector('#blockers .designer').click()")
        until(lambda: "/designers/" in self.browser.driver.current_url, 10)
        self.browser.driver.back()
        until(lambda: self.is_so(f"document.getElementById({json.dumps(opened)})?.open && scrollY > 200"), 10)
        self.assertFalse(self.browser.value(f"document.getElementById({json.dumps(shut)}).parentElement.open"))

    def test_to_the_tree(self) -> None:
        """Two keys lead past the claims to the tree, however many these are. The picture is README's."""
        self.office.build()
        self.open("/")
        self.office.work(0)
        self.shows("#tally", "12 waiting", 10)
        self.browser.show(1280, 800)
        self.browser.picture(PICTURES / "first-1280.png")
        for expected in ("To the content", "To the tree"):
            self.browser.driver.switch_to.active_element.send_keys("\ue004")
            self.assertEqual(self.browser.value("document.activeElement.innerText"), expected)
        self.browser.driver.switch_to.active_element.send_keys("\ue007")
        until(lambda: self.is_so("document.activeElement.id === 'tree-title'"), 5)
        self.browser.driver.switch_to.active_element.send_keys("\ue004")
        self.assertTrue(self.is_so("!!document.activeElement.closest('.tree')"))

    def test_eight_windows(self) -> None:
        """All are live by HTTP/1.1, though a browser opens six connections to a place: they share one stream."""
        self.office.build()
        self.open("/")
        driver, paths = self.browser.driver, ("/engine", PISTON, "/designers", "/designers/anna", "/.blockers", "/press", "/.search?q=crank")
        first = driver.current_window_handle
        for path in paths:
            driver.switch_to.new_window("tab")
            self.open(path)
        self.say("cara", f"checkout w:{PISTON}")
        for window in driver.window_handles[:4]:
            driver.switch_to.window(window)
            until(lambda: "cara" in self.words("main") and self.words("#pill") == "live", 10)
        driver.switch_to.window(first)
        self.assertEqual(self.browser.complaints(), [])

    def test_links_and_colours(self) -> None:
        """A link in a text has a line beneath it. Designers are more than colours: initials and names tell them apart."""
        self.fill()
        names = [f"designer_{number:02}" for number in range(30)]
        for name in names:
            self.say(name, "checkout r:/conveyor")
        self.open("/designers")
        self.shows("main", names[-1])
        faces = self.browser.value("[...document.querySelectorAll('#designers th')].map(each => [each.querySelector('.designer').innerText,"
                                   " each.querySelector('.face').innerText, getComputedStyle(each.querySelector('.face')).backgroundColor])")
        self.assertEqual([name for name, _, _ in faces if name in names], names)
        self.assertLess(len({colour for _, _, colour in faces}), len(faces))
        self.assertEqual({initials for name, initials, _ in faces if name in names}, {f"d{digit}" for digit in "012"})
        for path in ("/", PISTON, "/designers"):
            self.open(path)
            plain = self.browser.value("[...document.querySelectorAll('main a')].filter(each => !each.matches('.leaf, .fetch, .button, .crumbs a') &&"
                                       " !getComputedStyle(each).textDecorationLine.includes('underline')).map(each => each.outerHTML)")
            self.assertEqual((path, plain), (path, []))


if __name__ == "__main__":
    unittest.main()
