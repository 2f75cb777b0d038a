"""Serves a page that shows, live, who holds what in a vault, who waits behind whom, and what there is.

It asks the server over one connection, in a designer's name of its own, and only while somebody looks. It changes nothing but what designers who
are signed in do by it, each in a session of their own.
"""

from __future__ import annotations

import argparse
import asyncio
import contextlib
import logging
import os
import re
import signal
import socket
import sys
from pathlib import Path

from vault.protocol.grammar import NAME
from vaultd_tools.page.doors import Doors, SignedInDoors
from vaultd_tools.page.times import Times
from vaultd_tools.page.web import HOST, MAX_STREAMS, Page

BACKLOG = 128
KEEPALIVE_SECONDS = 20
MOST_BYTES = 4 << 30


def address(word: str) -> tuple[str, int]:
    """An address on the command line."""
    host, colon, port = word.rpartition(":")
    host = host[1:-1] if host[:1] == "[" and host[-1:] == "]" else host
    if not (host and colon and port.isascii() and port.isdigit() and 0 < int(port) < 65536) or any(mark <= " " for mark in word):
        raise argparse.ArgumentTypeError("an address is HOST:PORT, as 127.0.0.1:7070")
    return host, int(port)


def designer(word: str) -> str:
    """A name on the command line."""
    if NAME.fullmatch(word) is None:
        raise argparse.ArgumentTypeError("a name has 1 to 32 of a-z, 0-9, _ and -")
    return word


def host_name(word: str) -> str:
    """A name by which browsers reach the page."""
    found = HOST.fullmatch(word.lower())
    if found is None or found[2]:
        raise argparse.ArgumentTypeError("a host is a name or a number as it stands in an address, without a port, as vault.example.org")
    return found[1]


def stream_count(word: str) -> int:
    """How many pages may be open."""
    if not (word.isascii() and word.isdigit() and 0 < int(word) <= 900):
        raise argparse.ArgumentTypeError("so many pages may be open: 1 to 900")
    return int(word)


def header_name(word: str) -> str:
    """The name of a header on the command line."""
    if re.fullmatch(r"[A-Za-z][A-Za-z0-9-]{0,63}", word) is None:
        raise argparse.ArgumentTypeError("a header's name has letters, digits and -, as X-Vault-Designer")
    return word


def byte_count(word: str) -> int:
    """A number of bytes on the command line."""
    if not (word.isascii() and word.isdigit() and 0 < int(word) < 1 << 50):
        raise argparse.ArgumentTypeError("a number of bytes, as 4000000000")
    return int(word)


def handed_on() -> bool:
    """Whether systemd hands a socket on to this process."""
    return os.environ.get("LISTEN_PID") == str(os.getpid()) and os.environ.get("LISTEN_FDS") == "1"


def words(given: list[str] | None = None) -> argparse.Namespace:
    """The command line."""
    parser = argparse.ArgumentParser(prog="vaultd-page", description=__doc__, allow_abbrev=False,
                                     formatter_class=argparse.RawDescriptionHelpFormatter)
    parser.add_argument("--vault", type=address, default=("127.0.0.1", 7070), metavar="HOST:PORT", help="where the server is (127.0.0.1:7070)")
    parser.add_argument("--listen", type=address, default=("127.0.0.1", 8080), metavar="HOST:PORT",
                        help="where browsers reach the page (127.0.0.1:8080)")
    parser.add_argument("--host", type=host_name, action="append", default=[], metavar="NAME",
                        help="a name by which browsers call it, as vault.example.org; may be given again; without it the listening address"
                        " and, on this machine, localhost")
    parser.add_argument("--as", dest="designer", type=designer, default="page", metavar="NAME", help="the page's own designer's name (page)")
    parser.add_argument("--state", type=Path, metavar="FOLDER", help="where it keeps since when check-outs are held, over restarts")
    parser.add_argument("--gate-log", type=Path, metavar="FILE",
                        help="the ssh gate's log, which tells since when check-outs are held, and what was done when")
    parser.add_argument("--title", default="The design vault", help="the vault's name on the page")
    parser.add_argument("--streams", type=stream_count, default=MAX_STREAMS, metavar="N",
                        help=f"how many open pages are told of changes at once ({MAX_STREAMS})")
    acts = parser.add_argument_group("designers who act", "The web server in front signs them in, and reaches a socket that nobody else does.")
    acts.add_argument("--act-at", type=Path, metavar="SOCKET", help="where that socket is made; a unit of systemd may hand one on instead")
    acts.add_argument("--signed-in-by", default="X-Vault-Designer", metavar="HEADER", type=header_name,
                      help="the header that has the designer's name (X-Vault-Designer)")
    acts.add_argument("--store", default="", metavar="ADDRESS", help="the vault's store that it follows, as file:///srv/vault-store")
    acts.add_argument("--most-bytes", type=byte_count, default=MOST_BYTES, metavar="N", help=f"how large a file may be that is put ({MOST_BYTES})")
    acts.add_argument("--log", type=Path, metavar="FILE", help="where each change is written, in the form of the ssh gate's log")
    asked = parser.parse_args(given)
    if (asked.act_at or handed_on()) and asked.state is None:
        parser.error("who acts needs --state FOLDER, where it is kept what is under way")
    return asked


def hosts_of(asked: argparse.Namespace) -> list[str]:
    """The names by which the page may be called."""
    host = asked.listen[0]
    own = f"[{host}]" if ":" in host else host
    return asked.host or [own.lower()] + (["localhost"] if host in ("127.0.0.1", "::1", "localhost") else [])


def acting_socket(asked: argparse.Namespace) -> socket.socket | None:
    """The socket by which the web server in front hands on what designers do, if there is to be one."""
    if handed_on():
        return socket.socket(fileno=3)
    if asked.act_at is None:
        return None
    with contextlib.suppress(FileNotFoundError):
        if asked.act_at.is_socket():
            asked.act_at.unlink()
    made = socket.socket(socket.AF_UNIX)
    mask = os.umask(0o117)
    try:
        made.bind(str(asked.act_at))
    finally:
        os.umask(mask)
    return made


def doors_of_designers(page: Page, asked: argparse.Namespace) -> SignedInDoors:
    """The connections of the web server in front. What acts and hands files out is loaded where it is wanted: a page that only shows needs less."""
    from vaultd_tools.page.acting import Acting, Record
    from vaultd_tools.page.identity import Identity
    from vaultd_tools.page.signed_in import SignedIn

    host, port = asked.vault
    acting = Acting(host, port, asked.state, asked.store, Record(asked.log, f"{host}:{port}", logging.warning))
    signed_in = SignedIn(page, acting, Identity(asked.signed_in_by), asked.most_bytes)
    return SignedInDoors(signed_in.answer, access_log=None, keepalive_timeout=KEEPALIVE_SECONDS, lingering_time=1.0, auto_decompress=False)


async def serve(asked: argparse.Namespace) -> None:
    """Serves until a signal ends it."""
    loop = asyncio.get_running_loop()
    logs = [log for log in (asked.gate_log, asked.log) if log]
    times = Times(asked.state, asked.gate_log)
    page = Page(asked.vault[0], asked.vault[1], asked.designer, hosts_of(asked), asked.title, asked.streams, times, logs)
    doors = Doors(page.answer, access_log=None, keepalive_timeout=KEEPALIVE_SECONDS, lingering_time=1.0, auto_decompress=False)
    listener = await loop.create_server(doors, *asked.listen, backlog=BACKLOG, reuse_address=True)
    signed_in, socket_of_nginx = None, acting_socket(asked)
    if socket_of_nginx is not None:
        signed_in = doors_of_designers(page, asked)
        await loop.create_unix_server(signed_in, sock=socket_of_nginx, backlog=BACKLOG)
    ended = asyncio.Event()
    for number in (signal.SIGTERM, signal.SIGINT, signal.SIGHUP):
        loop.add_signal_handler(number, ended.set)
    watch = asyncio.ensure_future(page.watcher.run())
    print("listening", flush=True)
    over = asyncio.ensure_future(ended.wait())
    await asyncio.wait({watch, over}, return_when=asyncio.FIRST_COMPLETED)
    listener.close()
    for each in filter(None, (doors, signed_in)):
        await each.shutdown(0.1)
    over.cancel()
    if watch.done():
        watch.result()
    watch.cancel()
    # Until it is over, it could connect again.
    await asyncio.wait({watch})
    await page.watcher.close()


def main() -> int:
    """0 once a signal ended it, 1 if it can't listen at the address, 2 if the command line is wrong."""
    asked = words()
    logging.basicConfig(stream=sys.stderr, format="vaultd-page: %(message)s", level=logging.WARNING)
    try:
        asyncio.run(serve(asked))
    except OSError as error:
        print(f"vaultd-page: can't listen at {asked.listen[0]}:{asked.listen[1]}: {error.strerror or error}. Take another address with --listen,"
              " or end what has it.", file=sys.stderr)
        return 1
    return 0
