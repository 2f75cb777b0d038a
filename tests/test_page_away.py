"""The live page in a real browser where the vault, the page's own server or its reader is away, and what it shows after that."""

import contextlib
import signal
import time
import unittest

from page_server import PageServer, until
from selenium.common.exceptions import WebDriverException
from servers import Tap
from with_page import CHECK, PICTURES, PISTON, WithOffice


class Away(WithOffice):
    """What an open page says where the vault, its own server or its reader is away, and after that."""

    def test_the_vault_goes_away(self) -> None:
        """The page says since when, shows what it knew, and goes on by itself; a search does, too."""
        self.office.build()
        claim = self.say("cara", f"checkout w:{PISTON}").split()[2]
        self.open("/")
        self.server.kill()
        self.shows("#state", "No vault since", 3)
        self.assertRegex(self.words("#pill"), r"^as of \d\d:\d\d$")
        self.assertIn("cara 1 held", self.words("main"))
        self.assertEqual(self.browser.value(CHECK), [])
        self.browser.picture(PICTURES / "away-1280.png")
        self.server.start()
        until(lambda: self.words("#pill") == "live" and self.words("#state") == "", 15)
        self.office.sessions.clear()
        self.say("ben", f"checkout w:{PISTON}")
        self.shows("#blockers", f"for {claim} of cara")
        self.open("/.search?q=piston")
        self.server.kill()
        self.shows("#state", "No vault since", 3)
        self.assertRegex(self.words("#pill"), r"^as of \d\d:\d\d$")
        self.server.start()
        until(lambda: self.words("#pill") == "live" and self.words("#state") == "", 15)

    def test_the_page_goes_away(self) -> None:
        """A page whose own server was started again is right again by itself, also about what happened meanwhile."""
        self.office.build()
        self.open("/")
        self.page.end()
        until(lambda: "no page server since" in self.words("#pill"), 15)
        self.assertRegex(self.words("#state"), r"^No page server since \d\d:\d\d: nothing answers at 127.0.0.1:\d+. What stands here was so then.")
        self.assertEqual(self.browser.value(CHECK), [])
        self.browser.picture(PICTURES / "away-page-1280.png")
        claim = self.say("cara", f"checkout w:{PISTON}").split()[2]
        self.page = PageServer(self.server.port, "--title", "Plant 1 <machines>", port=self.page.port)
        until(lambda: self.words("#pill") == "live", 30)
        self.assertEqual(self.words("#state"), "")
        self.shows("#held", "cara 1 held")
        self.say("ben", f"checkout w:{PISTON}")
        self.shows("#blockers", f"for {claim} of cara")

    def test_silence(self) -> None:
        """A page that hears nothing any more says when it was right, and not that it is live."""
        self.office.build()
        self.open("/")
        led = "getComputedStyle(document.querySelector('.led')).backgroundColor"
        live = self.browser.value(led)
        self.page.process.send_signal(signal.SIGSTOP)
        try:
            until(lambda: self.words("#pill").startswith("as of "), 40)
            self.assertNotEqual(self.browser.value(led), live)
            until(lambda: "no page server since" in self.words("#pill"), 30)
        finally:
            self.page.process.send_signal(signal.SIGCONT)
        until(lambda: self.words("#pill") == "live", 30)
        self.assertEqual(self.browser.value(led), live)

    def test_the_vault_comes_late(self) -> None:
        """A page says which of the two is missing, and comes by itself once the vault is there, also where it was opened before that."""
        self.office.build()
        self.open("/engine")
        for opened_before in (True, False):
            with self.subTest(opened_before=opened_before):
                self.server.kill()
                self.page.end()
                self.page = PageServer(self.server.port, "--title", "Plant 1 <machines>", port=self.page.port)
                if opened_before:
                    until(lambda: "Nothing is known of the vault yet." in self.words("#state"), 15)
                    self.assertIn("Beneath it", self.words("main"))
                else:
                    self.browser.open(self.page.address + "/engine")
                    self.assertEqual(self.words("h1"), "Not known")
                self.assertEqual(self.words("#pill"), "nothing known yet")
                self.assertIn("The page asks again by itself.", self.words("#state"))
                self.server.start()
                until(self.is_live, 25)
                self.assertIn("Beneath it", self.words("main"))
                self.assertEqual(self.words("#state"), "")

    def is_live(self) -> bool:
        """Whether the page is live. It isn't while it is loaded."""
        with contextlib.suppress(WebDriverException):
            return self.words("#pill") == "live"
        return False

    def test_a_tab_that_nobody_sees(self) -> None:
        """A page in the background asks for nothing; in front again it says when it was right, until it is right again."""
        self.office.build()
        tap = Tap(self.server.port)
        self.addCleanup(tap.close)
        self.page.end()
        self.page = PageServer(tap.port)
        self.open("/")
        driver = self.browser.driver
        first = driver.current_window_handle
        self.browser.value("document.addEventListener('visibilitychange', () => {"
                           " if (!document.hidden) window.seen = document.getElementById('pill').innerText; })")
        driver.switch_to.new_window("tab")
        until(lambda: tap.heard[-1].sent.endswith(b"quit\n"), 30)
        time.sleep(3)
        self.assertTrue(tap.heard[-1].sent.endswith(b"quit\n"))
        self.say("cara", f"checkout w:{PISTON}")
        driver.switch_to.window(first)
        until(lambda: "cara 1 held" in self.words("#held"), 10)
        self.assertRegex(self.browser.value("window.seen"), r"as of \d\d:\d\d")
        self.assertEqual(self.words("#pill"), "live")


if __name__ == "__main__":
    unittest.main()
