"""A designer at a server, who loses nothing when the connection breaks."""

from vault.client.many import ManyClient


class Client(ManyClient):
    """A designer at a server, for other programs. Every method raises a `VaultError` with a sentence if it can't do what it says."""
