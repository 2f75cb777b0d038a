"""Designers at browsers of their own, who sign in at nginx with passwords, for tests. Pictures lie in tests/out."""

import tempfile
import unittest
from pathlib import Path
from typing import Optional

from browser import Browser
from page_server import until
from selenium.webdriver.remote.webelement import WebElement
from servers import MEMORY, Server
from signed_in import Nginx, SignedInPage
from with_page import CHECK, PICTURES

from vault import Client
from vault.store.setting import Setting

NAMES = ["anna", "ben"]
WINDOWS = (("1280", 1280, 800, False), ("390", 390, 844, False), ("1280-dark", 1280, 800, True), ("390-dark", 390, 844, True))


class Person:
    """A designer at a browser."""

    def __init__(self, name: str, nginx: Nginx, folder: Path):
        self.name, self.browser, self.nginx = name, Browser(), nginx
        self.folder = folder / name
        self.folder.mkdir()
        self.browser.driver.execute_cdp_cmd("Browser.setDownloadBehavior", {"behavior": "allow", "downloadPath": str(self.folder)})
        self.browser.show(1280, 800)

    def open(self, path: str) -> None:
        """Opens a page, signed in, and waits until it is live."""
        self.browser.open(self.nginx.address(self.name) + path)
        until(lambda: self.words("#pill") == "live", 10)

    def words(self, selector: str) -> str:
        """The text of the first such element."""
        return str(self.browser.now(f"document.querySelector({selector!r})?.innerText.replace(/\\s+/g, ' ').trim() ?? ''") or "")

    def shows(self, selector: str, words: str, seconds: float = 5.0) -> None:
        """Waits until such an element has these words."""
        try:
            until(lambda: words in self.words(selector), seconds)
        except AssertionError as error:
            raise AssertionError((self.name, words, "isn't in", self.words(selector)[:900])) from error

    def fill(self, act: str, **fields: str) -> None:
        """Fills the fields of a form in and sends it off, as somebody does who types and clicks."""
        self.write(act, **fields)
        self.send(act)

    def write(self, act: str, **fields: str) -> WebElement:
        """Fills the fields of a form in. Gives the last one."""
        form = field = self.form(act)
        for name, value in fields.items():
            field = form.find_element("css selector", f"[name={name}]:not([type=hidden])")
            if field.tag_name == "input" and field.get_attribute("type") != "file":
                field.clear()
            field.send_keys(value)
        return field

    def send(self, act: str) -> None:
        """Sends a form off, and waits for what it came to."""
        self.forget_told()
        self.form(act).find_element("css selector", "button").click()
        self.is_told()

    def forget_told(self) -> None:
        """Takes away what an act before came to: files are sent while the page stays."""
        self.browser.value("document.querySelectorAll('.told').forEach(each => each.remove())")

    def form(self, act: str) -> WebElement:
        """The first form for an act."""
        return self.browser.driver.find_element("css selector", f"form[action='/.act/{act}']:not(#act)")

    def is_told(self) -> None:
        """Waits until a page says what an act came to."""
        until(lambda: bool(self.browser.now("document.readyState == 'complete' && !!document.querySelector('.told')")), 20)

    def press(self, words: str) -> None:
        """Presses a button with these words, and waits for what that came to."""
        self.forget_told()
        self.press_at_once(words)
        self.is_told()

    def press_at_once(self, words: str) -> None:
        """Presses a button with these words."""
        found = [each for each in self.browser.driver.find_elements("css selector", "button") if each.text == words]
        found[0].click()

    def take_away(self, selector: str, name: str) -> bytes:
        """What comes of a link to download."""
        (self.folder / name).unlink(missing_ok=True)
        self.browser.driver.find_element("css selector", selector).click()
        until(lambda: (self.folder / name).exists(), 30)
        return (self.folder / name).read_bytes()


class WithDesigners(unittest.TestCase):
    """A vault with a store and its server, the page, and nginx before that, at which Anna signs in."""

    def setUp(self) -> None:
        folder = tempfile.TemporaryDirectory(prefix="vault-day-", dir=MEMORY)
        self.addCleanup(folder.cleanup)
        self.folder = Path(folder.name)
        self.server = Server("--workers", "32", folder=MEMORY)
        self.addCleanup(self.server.close)
        self.server.start()
        whoever_runs_it = Client("admin", "127.0.0.1", self.server.port, self.folder / "admin", 10.0, 0.05)
        self.store = f"file://{self.folder}/store"
        Setting(whoever_runs_it).set(self.store)
        whoever_runs_it.close()
        self.page = self.started()
        self.addCleanup(lambda: self.ended())
        self.nginx = Nginx(NAMES, self.page.socket_path)
        self.addCleanup(self.nginx.close)
        self.anna = self.person("anna")

    def started(self, socket_path: Optional[Path] = None) -> SignedInPage:
        """The page's program."""
        return SignedInPage(self.server.port, self.folder, "--store", self.store, "--log", str(self.folder / "changes.log"), "--title", "Plant 1",
                            socket_path=socket_path)

    def ended(self) -> None:
        """Ends it, and looks whether it complained of anything."""
        self.assertEqual(self.page.end().replace(b"vaultd-page: no system log takes lines at /dev/log: No such file or directory\n", b""), b"")

    def person(self, name: str) -> Person:
        """A designer at a browser of their own."""
        person = Person(name, self.nginx, self.folder)
        self.addCleanup(person.browser.close)
        return person

    def file(self, name: str, content: bytes) -> str:
        """A file on a designer's disk."""
        path = self.folder / "files" / name
        path.parent.mkdir(exist_ok=True)
        path.write_bytes(content)
        return str(path)

    def pictures(self, person: Person, name: str) -> None:
        """The page in each window: nothing is wrong by the check in it."""
        for window, width, height, dark in WINDOWS:
            person.browser.show(width, height, dark)
            self.assertEqual(person.browser.value(CHECK), [], (name, window))
            person.browser.picture(PICTURES / f"acts-{name}-{window}.png")
        person.browser.show(1280, 800)

    def at_a_part(self, person: Person) -> None:
        """Makes a part, and has a designer check it out."""
        for act, fields in (("make", {"place": "/", "name": "engine"}), ("make", {"place": "/engine", "name": "block"}),
                            ("make", {"place": "/engine/block", "name": "part"}), ("checkout", {"place": "/engine/block/part", "mode": "w"})):
            status, told = self.page.act(person.name, act, **fields)
            self.assertEqual(status, 303, told)
