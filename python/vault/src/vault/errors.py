"""What the client raises: each error is a sentence with what a person does next."""

import re
from typing import Any, Dict, Optional

# What a refusal says of itself, and isn't so where something was done before.
UNCHANGED = re.compile(r"(?:;|, so) nothing was changed(?=\.)| Nothing was changed\.")


class VaultError(Exception):
    """Something that a person must know; its text is a sentence with what to do."""

    status = 1

    def __init__(self, sentence: str, code: Optional[int] = None):
        super().__init__(sentence)
        self.code = code
        self.fields: Dict[str, Any] = {}

    def put_behind(self, done: str) -> None:
        """Puts a sentence before it that says what was done before; then it says no more that nothing was changed."""
        self.args = (f"{done} {UNCHANGED.sub('', str(self))}",)


class MisusedError(VaultError):
    """What was asked for can't be said to a server."""

    status = 2


class RefusedError(VaultError):
    """The server refused the command and changed nothing."""


class UnreachableError(VaultError):
    """No server answered. Nothing was sent, or nothing that changes anything."""

    status = 3


class NotKnownError(VaultError):
    """It isn't known yet whether the command was done; the client's file remembers to find out."""

    status = 3


class NotUnderstoodError(VaultError):
    """The server said something that this client can't read."""

    status = 3


class LostError(VaultError):
    """The connection ended before the answer."""
