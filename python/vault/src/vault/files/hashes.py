"""SHA-256. The library is loaded once something is hashed: that takes as long as a question to a server."""

from typing import TYPE_CHECKING

if TYPE_CHECKING:
    from hashlib import _Hash


def new_hash() -> "_Hash":
    """A hash of no bytes yet."""
    import hashlib
    return hashlib.sha256()


def sha256_of(content: bytes) -> str:
    """The hash of some bytes, in hexadecimal."""
    digest = new_hash()
    digest.update(content)
    return digest.hexdigest()
