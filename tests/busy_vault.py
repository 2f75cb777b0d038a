"""An office at work, for pages to be looked at: a vault of machines with files' cards, and sixteen designers who go on changing it.

usage: tests/busy_vault.py PORT [SECONDS]        fills the vault of a running server, and works on in it for this long
"""

import hashlib
import random
import sys
import time
from pathlib import Path
from typing import Dict, List, Tuple

sys.path[:0] = [str(Path(__file__).resolve().parent.parent / "python" / "vault" / "src")]

from vault.store.card import Card, now  # noqa: E402
from vault.protocol.connection import Connection  # noqa: E402
from vault.protocol.replies import Reply  # noqa: E402

DESIGNERS = ("anna", "ben", "cara", "deniz", "eva", "finn", "greta", "hugo", "ines", "jonas",
             "kaya", "lena", "mateo", "nora", "oskar", "paula")
MACHINES: Dict[str, Dict[str, Tuple[str, ...]]] = {
    "press": {"frame": ("column_left", "column_right", "bed", "crown"), "drive": ("flywheel", "crankshaft", "clutch", "brake_disc"),
              "ram": ("slide", "gib", "counterbalance"), "guard": ("door", "light_curtain", "hinge")},
    "engine": {"block": ("cylinder_block", "liner", "main_cap", "gallery_plug"), "crank": ("crankshaft", "bearing_shell", "damper", "pulley"),
               "head": ("cylinder_head", "valve_inlet", "valve_outlet", "spring", "cam"), "piston_group": ("piston", "pin", "ring_set", "rod")},
    "gearbox": {"housing": ("case_front", "case_rear", "cover"), "shafts": ("input_shaft", "layshaft", "output_shaft"),
                "wheels": ("wheel_1", "wheel_2", "wheel_3", "wheel_4", "reverse_idler")},
    "conveyor": {"belt": ("roller", "idler", "belt"), "stand": ("leg", "foot", "brace"), "drive": ("motor_plate", "coupling")},
    "gripper": {"fingers": ("finger_a", "finger_b", "pad"), "base": ("flange", "cylinder", "sensor_mount")},
}
REASONS = ("bore to 80.02", "fillets as in the review", "lighter by 1.2 kg", "new supplier's bearing", "tolerance H7", "first draft",
           "hole moved 4 mm",
           "as measured on the bench", "wall 6 mm for casting", "")
NOTES = ("until Friday, call 217",
         "waiting for the FEM run", "customer review 30 Nov", "do not release before the test", "mirrors the left one", "")


class Office:
    """A vault of machines, and who works in it."""

    def __init__(self, port: int, seed: int = 67):
        self.moments = random.Random(seed)
        self.sessions = {name: Connection("127.0.0.1", port, name) for name in DESIGNERS}
        self.parts: List[str] = []
        self.assemblies: List[str] = []
        self.claims: List[Tuple[str, str, List[str]]] = []

    def say(self, name: str, *lines: str) -> List[Reply]:
        """The replies to some lines of a designer. Each connection is made anew before it is spent."""
        session = self.sessions[name]
        if session.lines + len(lines) > 4000:
            session.leave()
            self.sessions[name] = session = Connection("127.0.0.1", session.socket.getpeername()[1], name)
        return session.ask_all(list(lines))

    def close(self) -> None:
        """Everybody goes home; check-outs stand."""
        for session in self.sessions.values():
            session.leave()

    def build(self) -> None:
        """Makes all places, and a first version of each part."""
        for machine, groups in MACHINES.items():
            self.say("anna", f"make /{machine}")
            for group, parts in groups.items():
                assembly = f"/{machine}/{group}"
                self.say("anna", f"make {assembly}", *(f"make {assembly}/{part}" for part in parts))
                self.assemblies.append(assembly)
                self.parts += [f"{assembly}/{part}" for part in parts]
        self.say("anna", "nest /engine/head/valve_train", "make /engine/head/valve_train/rocker", "make /engine/head/valve_train/lifter")
        self.parts += ["/engine/head/valve_train/rocker", "/engine/head/valve_train/lifter"]
        for part in self.parts:
            for _ in range(self.moments.randint(1, 3)):
                self.version(part, self.moments.choice(DESIGNERS))

    def version(self, part: str, name: str) -> None:
        """A designer checks in a new version of a part, if nobody is in the way."""
        said = self.say(name, f"checkout w:{part}")[0]
        claim = said.words[1]
        if said.words[0] == "held":
            self.say(name, f"save {claim} {part} {self.card(part, name).hex()}", f"checkin {claim}")
        else:
            self.say(name, f"abandon {claim}")

    def card(self, part: str, name: str) -> bytes:
        """A file's card for a part."""
        size = self.moments.randint(40_000, 90_000_000)
        file = part.rpartition("/")[2].replace("_", " ").capitalize() + ".SLDPRT"
        return Card(hashlib.sha256(self.moments.randbytes(8)).hexdigest(), size, file, name, now(), self.moments.choice(REASONS)).spell()

    def take(self) -> None:
        """Somebody checks something out, or waits for it."""
        name = self.moments.choice(DESIGNERS)
        items = [self.moments.choice("wwwr") + ":" + self.moments.choice(self.parts * 2 + self.assemblies)
                 for _ in range(self.moments.choice((1, 1, 1, 2, 3)))]
        claim = self.say(name, "checkout " + " ".join(items))[0].words[1]
        note = self.moments.choice(NOTES)
        if note:
            self.say(name, f"note {claim} {note.encode().hex()}")
        self.claims.append((claim, name, items))

    def end(self) -> None:
        """The oldest check-out, except a few, is checked in with what it changed."""
        claim, name, items = self.claims.pop(self.moments.randint(0, min(4, len(self.claims) - 1)))
        for item in items:
            if item[0] == "w" and item[2:] in self.parts:
                self.say(name, f"save {claim} {item[2:]} {self.card(item[2:], name).hex()}")
        if not self.say(name, f"checkin {claim}")[0].ok:
            self.say(name, f"abandon {claim}")

    def give(self) -> None:
        """Somebody's check-out becomes a colleague's."""
        place = self.moments.randrange(len(self.claims))
        claim, name, items = self.claims[place]
        other = self.moments.choice([each for each in DESIGNERS if each != name])
        self.say(name, f"give {claim} {other}")
        self.claims[place] = (claim, other, items)

    def work(self, seconds: float, claims: int = 22, pause: float = 0.4) -> None:
        """Goes on for this long with about this many check-outs."""
        end = time.monotonic() + seconds
        while time.monotonic() < end or len(self.claims) < claims:
            act = self.take if len(self.claims) < claims or self.moments.random() < 0.45 else self.end
            (self.give if self.moments.random() < 0.06 and self.claims else act)()
            if time.monotonic() < end:
                time.sleep(pause * self.moments.random() * 2)


def main() -> None:
    """Works in a vault."""
    office = Office(int(sys.argv[1]))
    office.build()
    office.work(float(sys.argv[2]) if len(sys.argv) > 2 else 0)
    office.close()


if __name__ == "__main__":
    main()
