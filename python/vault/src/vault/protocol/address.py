"""The address of a server: a host and a port over TCP, or `ssh:HOST`; and of a designer at it."""

import re
from typing import Optional, Tuple

from vault.errors import MisusedError

SSH = "ssh:"
TCP_HOST = re.compile(r"[A-Za-z0-9._:%-]{1,255}")
SSH_HOST = re.compile(r"[A-Za-z0-9][A-Za-z0-9._-]{0,254}|\[[0-9A-Fa-f:.]{2,45}(%[A-Za-z0-9._-]{1,32})?\]")
SSH_USER = re.compile(r"[A-Za-z0-9_][A-Za-z0-9._-]{0,63}")
PORT = re.compile(r"[0-9]{1,5}")
MAX_SERVERS = 8
# A server's host and port.
Address = Tuple[str, int]


def read_server(word: str) -> Optional[Tuple[str, int]]:
    """Host and port of a server's address; the port is 0 for an ssh address without one. None if the word is no address."""
    if word.startswith(SSH):
        return read_ssh(word)
    host, colon, port = word.rpartition(":")
    if not (TCP_HOST.fullmatch(host.strip("[]")) and colon and is_port(port)):
        return None
    return host.strip("[]"), int(port)


def read_ssh(word: str) -> Optional[Tuple[str, int]]:
    """Host and port of an address such as ssh:vault@vault.example.org:22, in which user and port may be missing."""
    user, _, rest = word[len(SSH):].rpartition("@")
    host, colon, port = rest.rpartition(":") if not rest.endswith("]") else (rest, "", "")
    if not colon:
        host = rest
    if not SSH_HOST.fullmatch(host) or (colon and not is_port(port)) or ("@" in word and not SSH_USER.fullmatch(user)):
        return None
    return SSH + (user + "@" if user else "") + host, int(port) if colon else 0


def is_port(word: str) -> bool:
    """Whether a word is the number of a port."""
    return PORT.fullmatch(word) is not None and 0 < int(word) < 65536


def read_servers(word: str) -> Tuple[Address, ...]:
    """Hosts and ports of some addresses with commas between, each once; none if one of them is no address, or there are too many."""
    found = [read_server(each) for each in word.split(",")]
    several = tuple(dict.fromkeys(each for each in found if each is not None))
    return several if len(several) == len(found) <= MAX_SERVERS else ()


def address_word(host: str, port: int) -> str:
    """A server's address as a person writes it."""
    return f"{host}:{port}" if port else host


def read_address(word: str) -> Tuple[str, Tuple[Address, ...]]:
    """Designer, and host and port of each server, of a word such as anna@127.0.0.1:7070, anna@one:7070,two:7070, or
    anna@ssh:vault.example.org, where the port is 0."""
    designer, _, servers = word.partition("@")
    found = read_servers(servers)
    if not designer or not found:
        raise MisusedError(f"`{word}` is no designer at a server: write NAME@HOST:PORT, as anna@127.0.0.1:7070, or through ssh"
                           " NAME@ssh:HOST or NAME@ssh:USER@HOST:PORT; or a vault's addresses with commas between, each once and at most"
                           f" {MAX_SERVERS}.")
    return designer, found
