"""A way to the server for one designer, whom sshd knows by a key: the name is fixed, whatever is sent.

sshd starts it by the key's forced command. It looks at every line, sends on what its designer may say, and answers the rest itself:
ERR 10 to what is no command, ERR 31 to another's name and to what the key may not do, ERR 80 to a change where no log takes its line.
"""

from __future__ import annotations

import argparse
import fcntl
import os

from vaultd_tools.gate.conversation import Client, Gate, Role, Server, say
from vaultd_tools.gate.lines import name
from vaultd_tools.gate.log import Log, address_of, keys_of
from vaultd_tools.words import address

# How many conversations a name may have at once, of the 64 that the server serves, and where they are counted.
AT_ONCE = 8
PLACES = "/var/lib/vaultd-gate"


def takes_place(folder: str, name: str, at_once: int) -> bool:
    """Takes one of a name's places until this program ends, by a lock on its file; answers whether one was free. Without the folder nobody
    counts."""
    for number in range(at_once):
        try:
            file = os.open(f"{folder}/{name}.{number}", os.O_WRONLY | os.O_CREAT | os.O_CLOEXEC | os.O_NOFOLLOW, 0o600)
        except FileNotFoundError:
            return True
        try:
            fcntl.flock(file, fcntl.LOCK_EX | fcntl.LOCK_NB)
            return True
        except BlockingIOError:
            os.close(file)
    return False


def designer(word: str) -> bytes:
    """A name on the command line."""
    found = name(os.fsencode(word))
    if found is None:
        raise argparse.ArgumentTypeError("a name has 1 to 32 of a-z, 0-9, _ and -")
    return found


def number(word: str) -> int:
    """A number on the command line."""
    if not (word.isascii() and word.isdigit() and 0 < int(word) < 1000):
        raise argparse.ArgumentTypeError("it is a number from 1 to 999")
    return int(word)


def words(given: list[str] | None = None) -> argparse.Namespace:
    """The command line, which stands beside a key in sshd's authorized_keys."""
    parser = argparse.ArgumentParser(prog="vaultd-gate", description=__doc__, allow_abbrev=False,
                                     formatter_class=argparse.RawDescriptionHelpFormatter)
    parser.add_argument("--as", dest="designer", required=True, type=designer, metavar="NAME", help="the designer that this key is")
    parser.add_argument("--read", action="store_true", help="let only questions through")
    parser.add_argument("--any-name", action="store_true", help="let `hello` through with any name: an administrator's key")
    parser.add_argument("--server", type=address, default=("127.0.0.1", 7070), metavar="HOST:PORT", help="where the server is (127.0.0.1:7070)")
    parser.add_argument("--at-once", type=number, default=AT_ONCE, metavar="N", help=f"how many conversations NAME may have at once ({AT_ONCE})")
    parser.add_argument("--places", default=PLACES, metavar="FOLDER", help=f"where these are counted; nowhere if it is missing ({PLACES})")
    parser.add_argument("--log", metavar="FILE",
                        help="a file that the log is added to, too; a change whose line it does not take is not sent on. Without it the"
                        " system's log has to take it")
    parser.add_argument("--sync", action="store_true", help="put each line of that file on disk before going on")
    parser.add_argument("--syslog", default="/dev/log", metavar="SOCKET", help="where the system's log takes lines (/dev/log)")
    return parser.parse_args(given)


def main() -> int:
    """0 once the conversation has ended, 1 if there is no place, no server or no log, 2 if the command line is wrong."""
    asked = words()
    host, port = asked.server
    by, key = asked.designer.decode("ascii"), keys_of(os.environ.get("SSH_USER_AUTH"))
    who = f"vault={host}:{port} from={address_of(os.environ.get('SSH_CONNECTION'))} key={key} by={by}"
    try:
        if not takes_place(asked.places, f"{by}.{port}", asked.at_once):
            say(f"{by} has {asked.at_once} conversations at once, and no more are let in: end one, then come again")
            return 1
    except OSError as error:
        say(f"{asked.places} can't be used: {error.strerror}. Ask whoever runs the server")
        return 1
    try:
        log = Log(who, asked.log, asked.sync, asked.syslog, say)
    except OSError as error:
        say(f"the log {asked.log} can't be opened: {error.strerror}. Ask whoever runs the server")
        return 1
    try:
        server = Server(host, port)
    except OSError as error:
        say(f"no server answers at {host}:{port}: {error.strerror or error}")
        return 1
    Gate(Role(asked.designer, asked.read, asked.any_name), Client(), server, log, os.urandom(8).hex()).run()
    return 0
