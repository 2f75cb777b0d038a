"""Tries the address that moves: keepalived with contrib's configuration on both machines, beside their units."""

import random
import threading
import time

from machines import CONTRIB, Cluster, Machine, run, until
from serving import Unit, does
from trials import Trial

ADDRESS = "10.77.0.70"


class Keeper:
    """keepalived on a machine. When its configuration has systemd restart the server, the unit's server is killed instead."""

    def __init__(self, machine: Machine, unit: Unit):
        self.machine, self.unit, self.ended = machine, unit, False
        self.asked = machine.folder / "restart"
        machine.run("cp", str(CONTRIB / "serves"), "/run/serves")
        restart = "/run/restart"
        machine.run("sh", "-c", f"printf '#!/bin/sh\\necho again >> {self.asked}\\n' > {restart}; chmod 755 {restart}")
        text = (CONTRIB / "keepalived.conf").read_text("utf-8")
        for old, new in (("/usr/share/vaultd/replicated/serves", "/run/serves"), ("interface eth0", f"interface v-{machine.name}"),
                         ("user vaultd-watch", "user nobody"), ("192.0.2.70/24", f"{ADDRESS}/24"),
                         ("/usr/bin/systemctl try-restart vaultd.service", restart)):
            if old not in text:
                raise ValueError(f"keepalived.conf has no {old}")
            text = text.replace(old, new)
        configuration = machine.folder / "keepalived.conf"
        configuration.write_text(text, "utf-8")
        said = (machine.folder / "keepalived.log").open("w", encoding="utf-8")
        self.process = machine.start("keepalived", "--dont-fork", "--log-console", "--use-file", str(configuration), "--pid", "/run/k.pid",
                                     "--vrrp_pid", "/run/v.pid", stdout=said)
        threading.Thread(target=self._restart, daemon=True).start()

    def _restart(self) -> None:
        seen = 0
        while not self.ended:
            count = len(self.asked.read_text("ascii").split()) if self.asked.exists() else 0
            if count > seen:
                seen = count
                self.unit.kill()
            time.sleep(0.1)

    def has(self) -> bool:
        """Whether the address is this machine's."""
        return ADDRESS in run("ip", "-n", self.machine.name, "address", "show", check=False)

    def end(self) -> None:
        """Ends keepalived."""
        self.ended = True
        self.process.terminate()
        self.process.wait(20)


def answers() -> bool:
    """Whether a command with an effect is acknowledged at the address, asked from outside."""
    return does(ADDRESS, 2).startswith("OK")


def moved(trial: Trial, keepers: dict[str, Keeper], how: str) -> str:
    """One move of the address, timed. Then the machine that had it comes back, and doesn't keep it."""
    first = next(keeper for keeper in keepers.values() if keeper.has())
    second = next(keeper for keeper in keepers.values() if keeper is not first)
    begin = time.monotonic()
    if how == "killed":
        first.unit.kill()
        first.unit.stopped = True
    else:
        first.machine.cut()
    until("the address is the other machine's", second.has, 90)
    run("ip", "neighbour", "flush", "dev", "bridge0", check=False)
    until("a command is told at the address", answers, 90)
    took = time.monotonic() - begin
    if how == "killed":
        trial.unit(first.machine)
        first.unit = trial.units[first.machine.name]
    else:
        first.machine.join()
    back = time.monotonic()
    until("one machine alone has the address", lambda: second.has() and not first.has(), 60)
    alone = time.monotonic() - back
    until("a command is told at the address still", answers, 60)
    return f"address: the server's machine {how}; a command told at the address behind {took:.1f} s; one machine alone has it {alone:.1f} s " \
           f"behind the link's return"


def moves(cluster: Cluster, seed: str) -> int:
    """Six moves: by a killed server and by a machine that is cut off, in turn."""
    trial = Trial(cluster, "address", 0, 0, random.Random(seed), True)
    trial.serve()
    keepers = {name: Keeper(unit.machine, unit) for name, unit in trial.units.items()}
    until("a machine has the address", lambda: any(keeper.has() for keeper in keepers.values()))
    for number in range(6):
        print(moved(trial, keepers, ("killed", "cut")[number % 2]), flush=True)
    for keeper in keepers.values():
        keeper.end()
    trial.close()
    return 0
