"""Words that several command lines have."""

import argparse

from vault.protocol.address import SSH, Address, read_server


def address(word: str) -> Address:
    """A server's address."""
    found = read_server(word)
    if found is None or word.startswith(SSH):
        raise argparse.ArgumentTypeError("an address is HOST:PORT, as 127.0.0.1:7070")
    return found
