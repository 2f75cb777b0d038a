"""Who acts: the name that the web server in front hands on, and the tokens by which a page's own forms alone act."""

from __future__ import annotations

import hashlib
import hmac
import secrets
import time

from multidict import CIMultiDictProxy

from vault.protocol.grammar import NAME
from vaultd_tools.page.doors import Refusal

TOKEN_SECONDS = 24 * 3600


class Identity:
    """Knows designers by a header, and signs tokens for them. No two tokens are alike, so a compressed page tells nothing of the next one."""

    def __init__(self, header: str):
        self.header, self._secret = header, secrets.token_bytes(32)

    def designer_of(self, headers: CIMultiDictProxy[str]) -> str:
        """Whose request it is."""
        named: list[str] = headers.getall(self.header, [])
        if len(named) != 1:
            raise Refusal(403, f"Nobody is signed in: the web server in front hands on who it is in the header {self.header}, once. Ask whoever runs"
                               " the page.")
        if NAME.fullmatch(named[0]) is None:
            raise Refusal(403, "The name that you signed in with is none of the vault's: it has 1 to 32 of a-z, 0-9, _ and -. Ask whoever runs the"
                               " page for such a name.")
        return named[0]

    def token(self, designer: str) -> str:
        """A token for a form that is shown to a designer."""
        begins = f"{int(time.time()):x}.{secrets.token_hex(8)}"
        return f"{begins}.{self._signed(begins, designer)}"

    def is_token(self, token: str, designer: str) -> bool:
        """Whether a token was made for this designer, and not long ago."""
        begins, _, signed = token.rpartition(".")
        if not token.isascii() or not hmac.compare_digest(signed, self._signed(begins, designer)):
            return False
        return 0 <= time.time() - int(begins.partition(".")[0], 16) < TOKEN_SECONDS

    def _signed(self, begins: str, designer: str) -> str:
        return hmac.new(self._secret, f"{designer} {begins}".encode("utf-8"), hashlib.sha256).hexdigest()


def own_page_alone(headers: CIMultiDictProxy[str], host: str) -> None:
    """Refuses an act that doesn't come from a page of this origin, as the browser says. A browser that says neither is too old."""
    site, origin = headers.get("Sec-Fetch-Site"), headers.get("Origin")
    foreign = site is not None and site != "same-origin" or origin is not None and origin.lower() not in (f"http://{host}", f"https://{host}")
    if foreign or site is None and origin is None:
        raise Refusal(403, "Another page can't act through this one, and nothing was done. Act from the vault's own page.")
