"""Storage nodes and server machines: each a network namespace with mounts of its own, on one bridge, and a volume over the nodes.

All of it is made inside namespaces that end with this program (__main__.py), so nothing here needs to be removed.
"""

import contextlib
import os
import re
import shutil
import signal
import subprocess
import tempfile
import time
from pathlib import Path
from typing import Any, Callable, Iterator, Optional

TOP = Path(__file__).resolve().parents[3]
CONTRIB = TOP / "contrib" / "replicated"
VOLUME = "vault"
NODES = {"node1": "10.77.0.1", "node2": "10.77.0.2", "node3": "10.77.0.3"}
MACHINES = {"one": "10.77.0.11", "two": "10.77.0.12"}
WATCHER = "10.77.0.254"
NOBODY = "02:00:00:00:00:fe"


class Trouble(Exception):
    """The trial couldn't be done as planned, so it shows nothing."""


def run(*words: str, check: bool = True, seconds: float = 120) -> str:
    """Runs a command to its end, and answers what it printed on either stream."""
    done = subprocess.run(words, stdin=subprocess.DEVNULL, stdout=subprocess.PIPE, stderr=subprocess.STDOUT, text=True, timeout=seconds,
                          check=False)
    if check and done.returncode:
        raise Trouble(f"{' '.join(words)}: {done.stdout.strip()}")
    return done.stdout


def until(what: str, asked: Callable[[], bool], seconds: float = 60, every: float = 0.05) -> None:
    """Waits until `asked` gives true."""
    end = time.monotonic() + seconds
    while not asked():
        if time.monotonic() > end:
            raise Trouble(f"in {seconds:.0f} seconds not seen: {what}")
        time.sleep(every)


class Space:
    """A network namespace on the bridge, with mounts of its own: a storage node or a machine."""

    def __init__(self, name: str, address: str, folder: Path):
        self.name, self.address, self.folder = name, address, folder / name
        self.folder.mkdir()
        run("ip", "netns", "add", name)
        run("ip", "link", "add", f"v-{name}", "netns", name, "type", "veth", "peer", "name", f"p-{name}")
        run("ip", "link", "set", f"p-{name}", "master", "bridge0", "up")
        run("ip", "-n", name, "address", "add", f"{address}/24", "dev", f"v-{name}")
        run("ip", "-n", name, "link", "set", f"v-{name}", "up")
        run("ip", "-n", name, "link", "set", "lo", "up")
        (self.folder / "log").mkdir()
        ready = self.folder / "ready"
        mounts = f"mount --make-rprivate /; mount -t tmpfs none /run; mkdir /run/gluster; mount --bind {self.folder}/log /var/log/glusterfs"
        self.holder = subprocess.Popen(["ip", "netns", "exec", name, "sh", "-ec", f"{mounts}; touch {ready}; exec sleep infinity"],
                                       stdin=subprocess.DEVNULL)
        until(f"{name} is made", ready.exists)

    def inside(self, *words: str) -> list[str]:
        """The command that runs another one in here."""
        return ["nsenter", "-t", str(self.holder.pid), "-n", "-m", *words]

    def run(self, *words: str, check: bool = True, seconds: float = 120) -> str:
        """Runs a command in here to its end."""
        return run(*self.inside(*words), check=check, seconds=seconds)

    def start(self, *words: str, stdin: Optional[int] = subprocess.DEVNULL, stdout: Any = subprocess.PIPE) -> "subprocess.Popen[str]":
        """Starts a command in here."""
        return subprocess.Popen(self.inside(*words), stdin=stdin, stdout=stdout, stderr=subprocess.STDOUT, text=True, bufsize=1)

    def pids(self) -> list[int]:
        """All processes in here, except the one that holds the namespace."""
        found = [int(pid) for pid in run("ip", "netns", "pids", self.name).split()]
        return [pid for pid in found if pid != self.holder.pid]

    def kill_all(self, but: int = 0) -> None:
        """Kills all that runs in here, as when the power goes, except the process `but`: the designers' load."""
        for pid in self.pids():
            if pid != but:
                with contextlib.suppress(ProcessLookupError):
                    os.kill(pid, signal.SIGKILL)

    def cut(self) -> None:
        """From now on no network frame comes or goes, and nobody is notified."""
        run("ip", "link", "set", f"p-{self.name}", "nomaster")

    def join(self) -> None:
        """The link is there again."""
        run("ip", "link", "set", f"p-{self.name}", "master", "bridge0")

    def lose(self, other: "Space") -> None:
        """From now on no network frame passes between this one and the other, either way."""
        for here, there in ((self, other), (other, self)):
            run("ip", "-n", here.name, "neighbour", "replace", there.address, "lladdr", NOBODY, "dev", f"v-{here.name}", "nud", "permanent")

    def find(self, other: "Space") -> None:
        """Frames pass between the two again."""
        for here, there in ((self, other), (other, self)):
            run("ip", "-n", here.name, "neighbour", "delete", there.address, "dev", f"v-{here.name}", check=False)


class Node(Space):
    """A storage node: glusterd, a brick, and what heals it."""

    def __init__(self, name: str, address: str, folder: Path):
        super().__init__(name, address, folder)
        for part in ("lib", "brick"):
            (self.folder / part).mkdir()
        self.run("mount", "--bind", str(self.folder / "lib"), "/var/lib/glusterd")
        self.brick = self.folder / "brick" / VOLUME

    def kill_all(self, but: int = 0) -> None:
        """Kills all that runs in here, as when the power goes, and /run goes with it."""
        super().kill_all(but)
        until(f"{self.name} stands still", lambda: not self.pids())
        self.run("sh", "-c", "rm -rf /run/gluster*; mkdir /run/gluster")

    def begin(self) -> "subprocess.Popen[str]":
        """Starts glusterd, which starts the brick once there is one."""
        return self.start("glusterd", "-p", "/run/glusterd.pid", stdout=subprocess.DEVNULL)


class Machine(Space):
    """A machine that mounts the volume and runs servers."""

    def __init__(self, name: str, address: str, folder: Path):
        super().__init__(name, address, folder)
        self.mounted = self.folder / "vault"
        self.mounted.mkdir()
        hosts = self.folder / "hosts"
        hosts.write_text("127.0.0.1 localhost\n" + "".join(f"{at} {node}\n" for node, at in NODES.items()), "ascii")
        self.run("mount", "--bind", str(hosts), "/etc/hosts")

    def mount(self) -> None:
        """Mounts the volume as the unit says."""
        unit = (CONTRIB / "var-lib-vaultd.mount").read_text("utf-8")
        options = re.findall(r"^Options=(.*)$", unit, re.MULTILINE)[0]
        what = re.findall(r"^What=(.*)$", unit, re.MULTILINE)[0]
        self.run("mount", "-t", "glusterfs", "-o", options, what, str(self.mounted))

    def unmount(self, but: int = 0) -> None:
        """Kills all that runs here, except the process `but`, and unmounts the volume."""
        self.kill_all(but)
        self.run("umount", "--lazy", str(self.mounted), check=False)


class Cluster:
    """The bridge, the nodes, the machines and the volume."""

    def __init__(self, folder: Path, strict_locks: bool):
        run("ip", "link", "set", "lo", "up")
        run("ip", "link", "add", "bridge0", "type", "bridge")
        run("ip", "address", "add", f"{WATCHER}/24", "dev", "bridge0")
        run("ip", "link", "set", "bridge0", "up")
        self.nodes = [Node(name, address, folder) for name, address in NODES.items()]
        self.machines = [Machine(name, address, folder) for name, address in MACHINES.items()]
        for starting in [node.begin() for node in self.nodes]:
            if starting.wait(120):
                raise Trouble("glusterd didn't start")
        first = self.nodes[0]
        for node in self.nodes[1:]:
            first.run("gluster", "peer", "probe", node.address)
        until("all nodes are peers", lambda: first.run("gluster", "peer", "status").count("(Connected)") == 2)
        self.settings = first.run("sh", str(CONTRIB / "volume"), VOLUME, *(f"{node.address}:{node.brick}" for node in self.nodes), "force")
        if not strict_locks:
            first.run("gluster", "volume", "set", VOLUME, "client.strict-locks", "off")
        self.wait_for_bricks()

    def gluster(self, *words: str, check: bool = True) -> str:
        """Asks the first node."""
        return self.nodes[0].run("gluster", "--mode=script", *words, check=check)

    def online(self) -> int:
        """How many bricks are served."""
        said = self.gluster("volume", "status", VOLUME, "--xml", check=False)
        return len(re.findall(r"<path>/[^<]*</path>\s*<peerid>[^<]*</peerid>\s*<status>1</status>", said))

    def wait_for_bricks(self) -> None:
        """Waits until all bricks are served."""
        until("all bricks are there", lambda: self.online() == len(self.nodes), every=0.3)

    def to_heal(self) -> int:
        """How many files have copies that may differ; -1 if a node can't say."""
        said = self.gluster("volume", "heal", VOLUME, "info", "summary", check=False)
        counts = [int(count) for count in re.findall(r"^Total Number of entries: (\d+)", said, re.MULTILINE)]
        return sum(counts) if len(counts) == len(self.nodes) else -1

    def heal(self, seconds: float = 90) -> float:
        """Waits until no copy is behind, and answers how long that took."""
        begin = time.monotonic()
        self.gluster("volume", "heal", VOLUME, check=False)
        until("all copies are healed", lambda: self.to_heal() == 0, seconds, 0.5)
        return time.monotonic() - begin

    def mend(self) -> None:
        """Brings all links and nodes back."""
        for machine in self.machines:
            machine.join()
            for node in self.nodes:
                machine.find(node)
        for node in self.nodes:
            node.join()
        for starting in [node.begin() for node in self.nodes if not any(name_of(pid) == "glusterd" for pid in node.pids())]:
            starting.wait(120)
        self.wait_for_bricks()


def name_of(pid: int) -> str:
    """The name of a process, or nothing if it ended."""
    with contextlib.suppress(OSError):
        return Path(f"/proc/{pid}/comm").read_text("utf-8").strip()
    return ""


@contextlib.contextmanager
def folder_of_trials(where: Optional[str]) -> Iterator[Path]:
    """A new folder, which is removed afterwards."""
    path = Path(tempfile.mkdtemp(prefix="replicated-", dir=where))
    try:
        yield path
    finally:
        for _ in range(100):
            shutil.rmtree(path, ignore_errors=True)
            if not path.exists():
                break
            time.sleep(0.1)
