"""The live page in a real browser, while designers go on: who sees what, and how soon. tests/test_page_kinds.py has each kind of page.

Pictures lie in tests/out, or in the folder that VAULT_PICTURES names.
"""

import tempfile
import unittest
from pathlib import Path

from browser import Browser, Pages
from page_server import PageServer, processor_seconds, soon, until
from servers import MEMORY, Server
from with_page import PICTURES, PISTON, WithOffice, fill

# Answers take half a second, and a test can reach the stream.
SLOWLY = """
window.asked = [];
window.SharedWorker = undefined;
const get = window.fetch;
window.fetch = async (...words) => {
  asked.push(words);
  const answer = await get(...words);
  await new Promise(go => setTimeout(go, 500));
  return answer;
};
window.EventSource = class extends EventSource { constructor(...words) { super(...words); window.stream = this; } };
"""


class Live(WithOffice):
    """What an open page shows of what designers do meanwhile."""

    def test_a_day(self) -> None:
        """A check-out, a wait, a gift and a check-in come into each kind of page, in both widths, each within a second."""
        self.office.build()
        for width, height in ((1280, 900), (390, 844)):
            self.browser.show(width, height)
            with self.subTest(width=width):
                self.day(width)
        self.assertEqual(self.browser.complaints(), [])

    def day(self, width: int) -> None:
        """A day on one page after the other."""
        for name, path in (("library", "/"), ("project", "/engine"), ("part", PISTON), ("designer", "/designers/cara"), ("designers", "/designers")):
            self.open(path)
            where = "main"
            claim = self.say("cara", f"checkout w:{PISTON}").split()[2]
            self.shows(where, {"/": "cara 1 held", "/designers": "cara 1 0 0"}.get(path, f"cara {claim} held"))
            waits = self.say("ben", "checkout w:/engine").split()[2]
            self.shows(where, {"/designers": "ben 0 1 0", "/designers/cara": f"ben {waits}"}.get(path, f"ben {waits} waits to change /engine"))
            self.say("cara", f"give {claim} deniz")
            self.shows(where, {"/designers": "deniz 1 0 1", "/designers/cara": "has nothing checked out"}.get(path, f"deniz {claim} holds"))
            self.browser.picture(PICTURES / f"day-{name}-{width}.png")
            versions = self.say("deniz", f"count {PISTON}").split()[2]
            self.say("deniz", f"save {claim} {PISTON} {self.office.card(PISTON, 'deniz').hex()}")
            self.say("deniz", f"checkin {claim}")
            self.shows(where, {"/": "ben 1 held", "/designers": "ben 1 0 0", "/designers/cara": "Nobody."}.get(path, f"ben {waits} held"))
            if path == PISTON:
                self.shows("#versions tr", f"{int(versions) + 1} ", 2.0)
            self.say("ben", f"abandon {waits}")
            self.shows(where, {"/engine": "It is free.", PISTON: "It is free.", "/designers/cara": "has nothing checked out"}.get(
                path, "Nobody has anything checked out."))

    def test_places_meanwhile(self) -> None:
        """Places come into the tree; a branch that somebody shut stays shut, and one with a claim opens."""
        self.office.build()
        self.open("/")
        self.browser.value("document.getElementById('row:/press').click()")
        self.assertTrue(self.browser.value("document.getElementById('row:/press').parentElement.open"))
        self.say("anna", "make /engine/sump")
        self.say("anna", "make /engine/sump/pan")
        until(lambda: self.is_so("!!document.getElementById('row:/engine/sump/pan')"), 30)
        self.say("ben", "checkout w:/engine/sump/pan")
        until(lambda: self.is_so("document.getElementById('row:/engine/sump').parentElement.open"), 10)
        self.assertTrue(self.browser.value("document.getElementById('row:/press').parentElement.open"))
        self.browser.value("document.getElementById('row:/engine').click()")
        self.say("cara", "checkout w:/engine/sump/pan")
        until(lambda: "beneath: 1 held, 1 waiting" in self.words("[id='row:/engine']"), 10)
        self.assertFalse(self.browser.value("document.getElementById('row:/engine').parentElement.open"))
        self.assertEqual(self.browser.complaints(), [])

    def test_the_keyboard(self) -> None:
        """The first key leads to the content, a slash to the search, and what has the focus keeps it when it changes."""
        self.office.build()
        claim = self.say("cara", f"checkout w:{PISTON}").split()[2]
        self.say("ben", f"checkout w:{PISTON}")
        self.open("/")
        self.browser.driver.switch_to.active_element.send_keys("\ue004")
        self.assertEqual(self.browser.value("document.activeElement.className"), "skip")
        self.browser.driver.switch_to.active_element.send_keys("/")
        self.assertEqual(self.browser.value("document.activeElement.id"), "q")
        self.browser.driver.switch_to.active_element.send_keys("crank\ue007")
        until(lambda: "Found for crank" in self.words("h1"), 10)
        self.open("/")
        self.browser.value(f"document.querySelector('#blockers a[href=\"{PISTON}\"]').focus()")
        self.say("cara", f"give {claim} deniz")
        self.shows("#blockers", "deniz")
        self.assertEqual(self.browser.value("document.activeElement.getAttribute('href')"), PISTON)
        until(lambda: f"deniz was given {claim} by cara" in self.words("#said"), 5)

    def test_what_stays_stays(self) -> None:
        """If a claim ends, what has the focus or is selected behind it keeps both. In a row that is replaced the same link has the focus."""
        self.office.build()
        first, second, third, fourth = (self.say(name, f"checkout {item}").split()[2] for name, item in (
            ("cara", f"w:{PISTON}"), ("ben", "w:/press"), ("ben", "w:/gripper"), ("deniz", "r:/gripper")))
        self.open("/")
        self.shows("#blockers", f"deniz {fourth}")
        focused = "[document.activeElement.closest('[id]')?.id, document.activeElement.getAttribute('href')]"
        self.browser.value("document.querySelector('[id=\"free:ben\"] summary').click()")
        self.browser.value(f"document.querySelector('[id=\"line:{second}\"] .designer').focus()")
        self.browser.value(f"getSelection().selectAllChildren(document.querySelector('[id=\"blockers:{third}\"] > .who .designer'))")
        self.say("cara", f"abandon {first}")
        until(lambda: self.is_so("!document.getElementById('held:cara')"), 5)
        self.assertEqual(self.browser.value(focused), [f"line:{second}", "/designers/ben"])
        self.assertEqual(self.browser.value("getSelection().toString()"), "ben")
        self.say("ben", "checkout r:/conveyor")
        self.shows("[id='held:ben']", "2 held")
        self.assertTrue(self.is_so("document.getElementById('free:ben').open"))
        self.browser.value(f"document.querySelector('[id=\"stopped:{third}:{fourth}\"] .path').focus()")
        self.say("deniz", f"give {fourth} eva")
        self.shows("#blockers", f"eva {fourth}")
        self.assertEqual(self.browser.value(focused), [f"stopped:{third}:{fourth}", "/gripper"])
        self.assertEqual(self.browser.complaints(), [])

    def test_pieces_that_do_not_fit(self) -> None:
        """If the page lacks what a change is for, it reads itself again."""
        self.office.build()
        first = self.say("cara", f"checkout w:{PISTON}").split()[2]
        self.open("/")
        self.shows("#held", "cara 1 held")
        for missing in ("held:cara", "blockers", "tally"):
            with self.subTest(missing):
                self.browser.value(f"document.getElementById('{missing}').remove()")
                claim = self.say("ben", f"checkout w:{PISTON}").split()[2]
                self.shows("#blockers", f"ben {claim} waits to change")
                self.shows("#blockers", f"cara {first} holds")
                self.say("ben", f"abandon {claim}")
                self.shows("#held", "cara 1 held")
                self.assertTrue(self.is_so(f"!!document.getElementById('{missing}')"))
        self.assertEqual(self.browser.complaints(), [])

    def test_again_while_it_reads(self) -> None:
        """If it is told to read again while it does so, it does so once more after that."""
        self.office.build()
        self.browser.driver.execute_cdp_cmd("Page.addScriptToEvaluateOnNewDocument", {"source": SLOWLY})
        self.open("/")
        before = self.browser.value("asked.length")
        for _ in range(3):
            self.browser.value("stream.dispatchEvent(new Event('again'))")
        until(lambda: self.words("#pill") == "live", 10)
        self.assertEqual(self.browser.value("asked.length"), before + 2)
        self.assertEqual(self.browser.complaints(), [])

    def test_foreign_pages(self) -> None:
        """A page of another origin can't hear, read or frame this one."""
        self.office.build()
        folder = self.enterContext(tempfile.TemporaryDirectory(prefix="vault-test-"))
        Path(folder, "index.html").write_text("<!DOCTYPE html><title>x</title><p>x", "utf-8")
        pages = Pages(Path(folder))
        self.addCleanup(pages.close)
        self.browser.open(pages.origin + "/index.html")
        heard = self.browser.value(f"new Promise(told => {{ const s = new EventSource('{self.page.address}/.events?see=/');"
                                   " s.onopen = () => told('open'); s.onerror = () => told('refused'); })")
        self.assertEqual(heard, "refused")
        self.assertIn("failed", self.browser.value(f"fetch('{self.page.address}/')"))
        framed = self.browser.value(f"new Promise(told => {{ const f = document.createElement('iframe'); f.src = '{self.page.address}/';"
                                    " f.onload = () => { try { told(f.contentDocument ? 'mine' : 'shut') } catch { told('shut') } };"
                                    " document.body.append(f); })")
        self.assertEqual(framed, "shut")
        self.assertTrue(any("frame-ancestors" in words or "ERR_BLOCKED" in words or "403" in words for words in self.browser.complaints()))


class Quick(unittest.TestCase):
    """A full vault in a browser."""

    def test_full(self) -> None:
        """4,096 places and 256 claims show within a second, by a page that has just been started: also by the time of processors that the
        browser, the page and the server take. Other work makes that longer, too, where two threads share a core."""
        server = Server("--workers", "32", folder=MEMORY)
        self.addCleanup(server.close)
        server.start()
        fill(server.port, 4096, 256)
        browser = Browser()
        self.addCleanup(browser.close)
        assert server.process is not None
        painted, taken = [], []
        for _ in range(3):
            page = PageServer(server.port)
            self.addCleanup(page.end)
            browser.show(1280, 900)
            browser.driver.execute_cdp_cmd("Performance.enable", {"timeDomain": "threadTicks"})
            before = page.processor_seconds() + processor_seconds(server.process.pid)
            browser.open(page.address + "/")
            until(lambda: bool(browser.value("performance.getEntriesByName('first-contentful-paint').length")), 10)
            after = page.processor_seconds() + processor_seconds(server.process.pid)
            metrics = {each["name"]: each["value"] for each in browser.driver.execute_cdp_cmd("Performance.getMetrics", {})["metrics"]}
            painted.append(browser.value("performance.getEntriesByName('first-contentful-paint')[0].startTime"))
            taken.append(after - before + metrics["TaskDuration"])
            self.assertEqual(browser.value("[document.querySelectorAll('.claim').length, document.querySelectorAll('.tree .row').length]"),
                             [256, 63])
            self.assertEqual(browser.complaints(), [])
            browser.picture(PICTURES / "full-1280.png")
            browser.driver.execute_cdp_cmd("Performance.disable", {})
            browser.open("about:blank")
            page.end()
        print(f"[painted after {min(painted):.0f} to {max(painted):.0f} ms, {min(taken):.2f} to {max(taken):.2f} s of processors]", end=" ",
              flush=True)
        self.assertLess(min(painted), 1000 * soon())
        self.assertLess(min(taken), soon())


if __name__ == "__main__":
    unittest.main()
