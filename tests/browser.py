"""A real browser for tests, headless, and a server of the pages that it is to open."""

import contextlib
import functools
import http.server
import shutil
import tempfile
import threading
from pathlib import Path
from typing import Any, Dict, List

from selenium import webdriver
from selenium.common.exceptions import WebDriverException
from selenium.webdriver.chrome.service import Service
from selenium.webdriver.remote.webelement import WebElement

SECONDS = 20
WORDS = (
    "--headless=new", "--no-sandbox", "--disable-gpu", "--disable-dev-shm-usage", "--no-first-run", "--disable-background-networking",
    "--disable-component-update", "--disable-sync", "--host-resolver-rules=MAP * ~NOTFOUND, EXCLUDE 127.0.0.1")


def needed(name: str) -> str:
    """The path of a program that a test needs. If it is missing, the test fails."""
    path = shutil.which(name)
    if path is None:
        raise AssertionError(f"there is no `{name}` on the path: run tools/prepare")
    return path


class Pages:
    """Serves the files of a folder on a port of its own. So they have another origin than any other server's."""

    def __init__(self, folder: Path):
        handler = functools.partial(QuietHandler, directory=str(folder))
        self.server = http.server.ThreadingHTTPServer(("127.0.0.1", 0), handler)
        self.origin = f"http://127.0.0.1:{self.server.server_port}"
        threading.Thread(target=self.server.serve_forever, daemon=True).start()

    def close(self) -> None:
        """Serves no more."""
        self.server.shutdown()
        self.server.server_close()


class QuietHandler(http.server.SimpleHTTPRequestHandler):
    """Hands out files, and logs nothing."""

    def log_message(self, format: str, *words: Any) -> None:
        """Logs nothing."""


class Browser:
    """Chromium with a profile of its own, which finds no host but 127.0.0.1, and further words of its command line."""

    def __init__(self, *words: str) -> None:
        self.profile = tempfile.TemporaryDirectory(prefix="vault-browser-", ignore_cleanup_errors=True)
        options = webdriver.ChromeOptions()
        options.binary_location = needed("chromium")
        for word in (*WORDS, *words, f"--user-data-dir={self.profile.name}"):
            options.add_argument(word)  # type: ignore[no-untyped-call]
        self.driver = webdriver.Chrome(options=options, service=Service(needed("chromedriver")))
        self.driver.set_page_load_timeout(SECONDS)
        self.driver.set_script_timeout(SECONDS)
        self.under: Dict[str, Any] = {}

    def close(self) -> None:
        """Ends it."""
        self.driver.quit()
        self.profile.cleanup()

    def open(self, address: str) -> None:
        """Opens a page, which must load."""
        self.driver.get(address)

    def try_to_open(self, address: str) -> None:
        """Opens an address, as a person would in the address bar, whatever comes of it."""
        try:
            self.driver.get(address)
        except WebDriverException:
            pass

    def show(self, width: int, height: int, dark: bool = False, media: str = "") -> None:
        """Gives pages a window of this size (a phone's if it is narrow), and says which colours a person likes, or that it is paper."""
        self.driver.execute_cdp_cmd("Emulation.setDeviceMetricsOverride", {
            "width": width, "height": height, "deviceScaleFactor": 1, "mobile": width < 500})
        self.driver.execute_cdp_cmd("Emulation.setEmulatedMedia", {
            "media": media, "features": [{"name": "prefers-color-scheme", "value": "dark" if dark else "light"}]})

    def press(self, element: WebElement) -> None:
        """Moves the mouse onto something, and presses it."""
        rect = element.rect
        self.under = {"x": rect["x"] + rect["width"] / 2, "y": rect["y"] + rect["height"] / 2, "button": "left", "clickCount": 1}
        for kind in ("mouseMoved", "mousePressed"):
            self.driver.execute_cdp_cmd("Input.dispatchMouseEvent", {**self.under, "type": kind})

    def let_go(self) -> None:
        """Lets go of what is pressed."""
        self.driver.execute_cdp_cmd("Input.dispatchMouseEvent", {**self.under, "type": "mouseReleased"})

    def run_scripts(self, runs: bool) -> None:
        """Whether pages' scripts run."""
        self.driver.execute_cdp_cmd("Emulation.setScriptExecutionDisabled", {"value": not runs})

    def complaints(self) -> List[str]:
        """What came into the console since the last call."""
        return [entry["message"] for entry in self.driver.get_log("browser")]  # type: ignore[no-untyped-call]

    def picture(self, file: Path) -> None:
        """What the window shows now, as a picture."""
        file.parent.mkdir(parents=True, exist_ok=True)
        self.driver.save_screenshot(str(file))

    def value(self, expression: str) -> Any:
        """The value of a JavaScript expression in the page, awaited if it is a promise."""
        script = f"const told = arguments[0]; Promise.resolve({expression}).then(told, error => told('failed: ' + error));"
        return self.driver.execute_async_script(script)

    def now(self, expression: str) -> Any:
        """The value of a JavaScript expression at once, and nothing while one page is left for another."""
        with contextlib.suppress(WebDriverException):
            return self.driver.execute_script("return " + expression)  # type: ignore[no-untyped-call]
        return None
