"""What happens at a moment of a command."""

import contextlib
import os
import socket
from dataclasses import dataclass, field
from pathlib import Path
from typing import IO, Callable, Dict, List, Optional, Tuple

from moments.programs import SWEEP
from moments.scenes import ADDS, CHECKS_IN, FULL, KILLS, NEW, NEW_FILE, POWER, PUTS, RESTARTS, SAVES, SWEEPS, Scene
from moments.world import FOLDERS, NAMES, World, content_of, sha256_of
from servers import sockets_of

# Within which time a reply is there, in seconds.
ARRIVES = 0.05


@dataclass
class Try:
    """One run of a command up to a moment, what happens there, and what a designer saved: by its hash, in words. The newest is the hash of a
    draft that nothing which was sent before may replace."""

    world: World
    scene: Scene
    moment: int
    saved: Dict[str, str] = field(default_factory=dict)
    newest: str = ""
    handle: Optional[IO[bytes]] = None
    opened: bytes = b""
    process: int = 0

    @property
    def file(self) -> Path:
        """The file that the designer saves."""
        name = NEW_FILE if self.scene.part == NEW else FOLDERS[self.scene.part] + NAMES[self.scene.part]
        return self.world.desk.folder / name

    def was_saved(self, content: bytes) -> None:
        """The designer has saved this in place of what was in the file."""
        self.saved = {sha256: what for sha256, what in self.saved.items() if what != "the file"}
        self.saved[sha256_of(content)] = "the file"


@dataclass(frozen=True)
class Deed:
    """What happens at a moment: it answers whether the command goes on, is killed, or whether nothing could be done. Something may have to stand
    ready before the command, and something may be undone behind it."""

    name: str
    kind: str
    at: Callable[[Try], str]
    before: Callable[[Try], None] = lambda tried: None
    after: Callable[[Try], None] = lambda tried: None
    # Whether all ends then as if nothing had happened, once the command is said again.
    ends_alike: bool = False
    # Whether it is of use behind the command's end.
    behind: bool = False
    # How the client is called then.
    options: Tuple[str, ...] = ()


def mark(tried: Try) -> bytes:
    """Bytes that no other save has."""
    return f"saved at {tried.moment:06d} ".encode()


def open_to_save(path: Path) -> IO[bytes]:
    """A file, opened for a change in place. The designer makes it writable, if it isn't: nothing is checked out for some saves."""
    if not os.access(path, os.W_OK):
        path.chmod(0o644)
    return open(path, "r+b")


def save_in(place: int, whence: int) -> Callable[[Try], str]:
    """A save in place, in some bytes of the file."""
    def saved(tried: Try) -> str:
        if not tried.file.exists():
            return "nothing"
        content = bytearray(tried.file.read_bytes())
        with open_to_save(tried.file) as file:
            at = file.seek(place, whence)
            file.write(mark(tried))
        content[at:at + len(mark(tried))] = mark(tried)
        tried.was_saved(bytes(content))
        return "go"

    return saved


def save_renamed(tried: Try) -> str:
    """A save by another file's name and a rename."""
    if not tried.file.parent.exists():
        return "nothing"
    content = mark(tried) * 200
    beside = tried.file.with_name("~" + tried.file.name)
    beside.write_bytes(content)
    os.replace(beside, tried.file)
    tried.was_saved(content)
    return "go"


def hold_open(tried: Try) -> None:
    """A program has the file open for change."""
    if tried.file.exists():
        tried.opened, tried.handle = tried.file.read_bytes(), open_to_save(tried.file)


def save_by_handle(tried: Try) -> str:
    """The program that has the file open saves it."""
    if tried.handle is None:
        return "nothing"
    tried.handle.seek(0)
    tried.handle.write(mark(tried))
    tried.handle.flush()
    tried.was_saved(mark(tried) + tried.opened[len(mark(tried)):])
    return "go"


def save_behind_by_handle(tried: Try) -> None:
    """The same behind a kill, and it closes the file."""
    save_by_handle(tried)
    let_go(tried)


def let_go(tried: Try) -> None:
    """The program closes the file."""
    if tried.handle is not None:
        tried.handle.close()


def fill(tried: Try) -> str:
    """The disk is full from here on."""
    with open(tried.world.filler, "wb") as file:
        size = 0
        for piece in (1 << 22, 1 << 18, 1 << 14, 1 << 12, 1 << 10):
            try:
                while True:
                    os.posix_fallocate(file.fileno(), size, piece)
                    size += piece
            except OSError:
                continue
    return "go"


def make_room(tried: Try) -> None:
    """The disk has room again."""
    tried.world.filler.unlink(missing_ok=True)


def restart(tried: Try) -> str:
    """The server is killed, and started again."""
    tried.world.server.kill()
    tried.world.server.start()
    return "go"


def cut_connection(tried: Try) -> str:
    """The connections to the server end, and whatever came on them and wasn't read is lost: what was sent is done all the same."""
    cut = "nothing"
    for connection in sockets_of(tried.process):
        with contextlib.suppress(OSError):
            connection.settimeout(ARRIVES)
            while connection.recv(65536):
                cut = "go"
        with contextlib.suppress(OSError):
            connection.shutdown(socket.SHUT_RDWR)
            cut = "go"
    return cut


def cut_and_put(tried: Try) -> str:
    """The same, and the laptop puts before the desk goes on. What the desk has sent by then doesn't replace that."""
    return laptop_puts(tried) if cut_connection(tried) == "go" else "nothing"


def stop_server(tried: Try) -> str:
    """The server is killed, and stays away for longer than the client waits."""
    tried.world.server.kill()
    return "go"


def start_server(tried: Try) -> None:
    """The server is back. A command may have ended before the moment, and then it was never away."""
    if tried.world.server.process is None:
        tried.world.server.start()


def save_behind(save: Callable[[Try], str]) -> Callable[[Try], None]:
    """The designer saves behind a kill."""
    def saved(tried: Try) -> None:
        save(tried)

    return saved


def claims(tried: Try) -> List[str]:
    """The check-outs that there are."""
    return list(tried.world.seen().drafts)


def of_laptop(tried: Try) -> bytes:
    """What the laptop puts; what is old in the store where that is swept."""
    return content_of("again", 4000) if tried.scene.name == "sweep" else content_of(f"laptop {tried.moment}", 4000)


def laptop_puts(tried: Try) -> str:
    """The laptop puts a draft into the check-out."""
    place = tried.scene.part
    found, mine = claims(tried), sha256_of(tried.file.read_bytes()) if tried.file.exists() else ""
    if not found:
        return "nothing"
    was_there = mine in tried.world.seen().drafts[found[0]][1].values()
    content = of_laptop(tried)
    if not tried.world.laptop_puts(place, content, found[0], status=None):
        return "nothing"
    if was_there:
        tried.newest = sha256_of(content)
    return "go"


def restart_and_put(tried: Try) -> str:
    """The server is killed and started again, and the laptop puts before the desk goes on. What the desk has sent by then, or was about to send,
    doesn't replace that."""
    was_sending = any('"kind": "put"' in path.read_text("utf-8") for path in tried.world.desk.home.glob("vault/*.json"))
    restart(tried)
    answer = laptop_puts(tried)
    if answer == "go" and was_sending:
        tried.newest = sha256_of(of_laptop(tried))
    return answer


def laptop_checks_in(tried: Try) -> str:
    """The laptop makes a version: by the check-out, if there is one, or by its own."""
    content, found = of_laptop(tried), claims(tried)
    if found:
        if not tried.world.laptop_puts(tried.scene.part, content, found[0], status=None):
            return "nothing"
        tried.world.laptop.vault("checkin", found[0], status=None)
    elif tried.scene.part in NAMES:
        tried.world.new_versions({tried.scene.part: content})
    else:
        return "nothing"
    tried.saved[sha256_of(content)] = "the laptop's version"
    return "go"


def laptop_adds(tried: Try) -> str:
    """The laptop makes a part of a file with the same name."""
    file = tried.world.laptop.folder / NEW_FILE
    file.write_bytes(content_of("new at the laptop", 4000))
    tried.world.laptop.vault("add", str(file))
    return "go"


def sweep(tried: Try) -> str:
    """What nobody names is swept."""
    world = tried.world
    words = [*world.server.files, f"file://{world.store}", "--days", "1", "--yes"]
    world.outside.run(world.laptop.environment(), world.base, SWEEP, words)
    return "go"


def kill(_tried: Try) -> str:
    """The command is killed."""
    return "kill"


def cut_power(tried: Try) -> str:
    """The power is cut where the command runs: what wasn't put on disk is lost."""
    assert tried.world.small is not None
    tried.world.small.cut()
    return "kill"


def bring_power_back(tried: Try) -> None:
    """The power is back."""
    if tried.world.small is not None and tried.world.small.copy.exists():
        tried.world.small.mend()


def puts_behind(tried: Try) -> None:
    """The laptop puts a draft behind a kill, and the desk asks a question."""
    tried.newest = ""
    found = claims(tried)
    content = of_laptop(tried)
    if found and tried.world.laptop_puts(tried.scene.part, content, found[0], status=None):
        tried.newest = sha256_of(content)
    tried.world.desk.vault("who", status=None)


DEEDS: List[Deed] = [
    Deed("saved in the first bytes", SAVES, save_in(0, os.SEEK_SET), behind=True),
    Deed("saved in the last bytes", SAVES, save_in(-24, os.SEEK_END), behind=True),
    Deed("saved by a rename", SAVES, save_renamed, behind=True),
    Deed("saved through an open handle", SAVES, save_by_handle, hold_open, let_go, behind=True),
    Deed("killed", KILLS, kill, ends_alike=True),
    Deed("killed, and the laptop puts", PUTS, kill, after=puts_behind),
    Deed("the disk is full", FULL, fill, after=make_room, ends_alike=True),
    Deed("the server is killed", RESTARTS, restart, ends_alike=True),
    Deed("the power is cut", POWER, cut_power, after=bring_power_back, ends_alike=True, behind=True),
    Deed("killed, and then saved in the first bytes", SAVES, kill, after=save_behind(save_in(0, os.SEEK_SET))),
    Deed("killed, and then saved by a rename", SAVES, kill, after=save_behind(save_renamed)),
    Deed("the connection is cut", RESTARTS, cut_connection, ends_alike=True),
    Deed("the connection is cut, and the laptop puts", PUTS, cut_and_put),
    Deed("killed, and then saved through an open handle", SAVES, kill, hold_open, save_behind_by_handle),
    Deed("the server is away", RESTARTS, stop_server, after=start_server, ends_alike=True, options=("--patience", "0.3")),
    Deed("the laptop puts", PUTS, laptop_puts),
    Deed("the server is killed, and the laptop puts", PUTS, restart_and_put),
    Deed("the laptop checks in", CHECKS_IN, laptop_checks_in),
    Deed("the laptop adds", ADDS, laptop_adds),
    Deed("a sweep runs", SWEEPS, sweep, ends_alike=True),
]
