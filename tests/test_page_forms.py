"""What designers do with the forms of the page in a browser: what they write, choose and press stays theirs, and files and folders go in."""

import time
import unittest
from typing import List

from page_server import until
from persons import WithDesigners
from with_page import CHECK, PICTURES

# What the page tells by notifications.
NOTED = """
window.noted = [];
window.Notification = class extends Notification { constructor(words, more) { super(words, more); noted.push(words); } };
"""


class UnderTheHand(WithDesigners):
    """What somebody writes, chooses or presses while the page is read again or changes."""

    def test_what_is_written_stays(self) -> None:
        """The page's program is started again while a form is filled in: what stands in it stays, nothing is sent meanwhile, and then it is."""
        anna = self.anna
        self.at_a_part(anna)
        anna.open("/.claim/c2")
        anna.write("upload", file=self.file("part", b"new"))
        why = anna.write("checkin", why="longer str")
        top = why.rect["y"]
        self.ended()
        anna.shows("#state", "The page asks again by itself, and sends nothing until then.", 15)
        self.assertEqual((why.rect["y"], self.anna.browser.value(CHECK)), (top, []))
        anna.browser.picture(PICTURES / "acts-away-1280.png")
        why.send_keys("oke\n")
        self.page = self.started(self.page.socket_path)
        until(lambda: anna.words("#pill") == "live", 30)
        why.send_keys(", lighter")
        self.assertEqual(why.get_attribute("value"), "longer stroke, lighter")
        anna.send("upload")
        anna.shows(".told", "/engine/block/part is a draft in c2.")
        anna.fill("checkin", why="longer stroke")
        anna.shows(".told", "c2 is checked in: 1 new version.")

    def test_what_is_pressed_stays(self) -> None:
        """A button that is pressed is there until it is let go, whatever changes meanwhile, and then it does what it says."""
        anna = self.anna
        self.at_a_part(anna)
        anna.open("/.mine")
        button = next(each for each in anna.browser.driver.find_elements("css selector", "button") if each.text == "Give up")
        anna.browser.press(button)
        for name in ("ben", "cara"):
            self.assertEqual(self.page.act(name, "checkout", place="/engine")[0], 303)
        self.assertEqual(self.page.act("anna", "note", claim="c2", note="until noon")[0], 303)
        time.sleep(0.6)
        self.assertEqual(anna.words("#asked"), "Nobody waits for you.")
        anna.browser.let_go()
        anna.is_told()
        anna.shows(".told", "c2 is given up, with its drafts.")

    def test_what_can_be_done_now(self) -> None:
        """Anna gives way to Ben by one button. His page tells that by a notification, and has the forms for what is held."""
        anna = self.anna
        self.at_a_part(anna)
        self.page.act("ben", "checkout", place="/engine/block/part")
        ben = self.person("ben")
        ben.browser.driver.execute_cdp_cmd("Browser.grantPermissions", {"permissions": ["notifications"]})
        ben.browser.driver.execute_cdp_cmd("Page.addScriptToEvaluateOnNewDocument", {"source": NOTED})
        ben.open("/.claim/c3")
        ben.write("note", note="I am nex")
        ben.shows("main", "It waits. This page tells when it is held.")
        anna.open("/.mine")
        anna.shows("#asked", "You are in ben’s way at /engine/block/part (contested) with c2")
        anna.press("Give c2 up")
        ben.shows("main", "It has no drafts yet.")
        self.assertEqual(ben.browser.value("[document.activeElement.value, window.noted]"), ["I am nex", ["c3 is held"]])


class Files(WithDesigners):
    """Files and folders that go through a browser's own dialogue."""

    def incoming(self) -> List[str]:
        """The files that come into the store at this moment."""
        return [each.name for each in (self.folder / "store" / "incoming").iterdir()]

    def test_a_folder(self) -> None:
        """A folder is chosen, its folders become assemblies, and the tree shows them by their real names."""
        anna = self.anna
        self.at_a_part(anna)
        self.page.act("anna", "make", place="/engine", name="gear")
        self.page.act("anna", "checkout", place="/engine/gear")
        for name in ("Welle.step", "Gehäuse (Guss)/Deckel.step", "Gehäuse (Guss)/innen/Ring", "Gehäuse (Guss)/x.log", ".git/HEAD", ".vaultignore"):
            path = self.folder / "Getriebe" / name
            path.parent.mkdir(parents=True, exist_ok=True)
            path.write_text("*.log\n" if name == ".vaultignore" else name, "utf-8")
        anna.open("/engine/gear")
        anna.browser.value("new Promise(go => setTimeout(go, 1000))")
        anna.browser.driver.find_element("css selector", "input[webkitdirectory]").send_keys(str(self.folder / "Getriebe"))
        anna.browser.driver.find_element("css selector", "form:has([webkitdirectory]) button").click()
        anna.is_told()
        cast = "/engine/gear/geh__use__guss_"
        anna.shows(".told", f"Made 2 assemblies: {cast}, {cast}/innen. Left out: Gehäuse (Guss)/x.log (is ignored).")
        self.page.act("anna", "checkin", claim="c3", why="all of it")
        anna.open("/engine/gear")
        anna.shows("#tree-words", "2 assemblies, 3 parts.")
        anna.shows(f"[id='row:{cast}']", "geh__use__guss_ Gehäuse (Guss)")
        self.pictures(anna, "folder")
        self.assertEqual(anna.browser.complaints(), [])

    def test_how_far_it_is(self) -> None:
        """An upload shows how far it is. Stopped it leaves nothing, and what was chosen is there to be sent again."""
        anna = self.anna
        self.at_a_part(anna)
        anna.open("/engine/block/part")
        network = {"offline": False, "latency": 0, "downloadThroughput": -1}
        anna.browser.driver.execute_cdp_cmd("Network.enable", {})
        anna.browser.driver.execute_cdp_cmd("Network.emulateNetworkConditions", {**network, "uploadThroughput": 2_000_000})
        anna.write("upload", file=self.file("large", b"x" * 12_000_000))
        anna.form("upload").find_element("css selector", "button").click()
        until(lambda: bool(anna.browser.value("(bar => bar && bar.value > 0 && bar.value < bar.max)(document.querySelector('progress'))")), 10)
        anna.shows("form [data-told]", " of 12 MB")
        self.assertEqual(anna.browser.value(CHECK), [])
        anna.browser.picture(PICTURES / "acts-upload-1280.png")
        anna.press_at_once("Stop")
        anna.shows("form [data-told]", "Stopped. What was put before stands as drafts.")
        until(lambda: self.incoming() == [], 30)
        anna.browser.driver.execute_cdp_cmd("Network.emulateNetworkConditions", {**network, "uploadThroughput": -1})
        anna.send("upload")
        anna.shows(".told", "/engine/block/part is a draft in c2.")


if __name__ == "__main__":
    unittest.main()
