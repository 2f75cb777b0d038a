"""The two packages for Debian: what is in them, and a Debian of its own in which they are installed, used by the commands of the pages on
operating and on several vaults, and removed."""

import os
import re
import subprocess
import tempfile
import unittest
from pathlib import Path
from typing import Dict, List

import machines
from servers import TOP, VAULTD, program

import vault
import vaultd_tools

OPERATING, SCALE = ((TOP / "docs" / page).read_text("utf-8") for page in ("OPERATING.md", "SCALE.md"))
# How each block of the page begins that the machine runs.
BLOCKS = {"start.sh": "contrib/install", "watch.sh": "systemctl enable --now vaultd-watch.timer", "broken.sh": "journalctl -u vaultd -n 20",
          "metrics.sh": "apt-get install prometheus-node-exporter", "store.sh": "install -d -g designers",
          "sweep.sh": "runuser -u vaultd -- vaultd-sweep",
          "page.sh": "apt-get install python3-aiohttp", "acts.sh": "install -d /etc/systemd/system/vaultd-page.service.d",
          "backup.sh": "systemctl enable --now vaultd-backup.timer", "by_hand.sh": "same() {", "look.sh": "vaultd check /var/lib/vaultd/a",
          "gate.sh": "apt-get install openssh-server nftables", "upgrade.sh": "systemctl start vaultd-backup  # the way back"}
# The one of the page on several vaults.
PLANT = "sed 's/7070/7071/; /^VAULTD_BACKUPS/d' /etc/default/vaultd"
# The others: the packages are made before, and tests/test_rclone.py has a remote.
OTHER_BLOCKS = ("apt-get install $(contrib/package --to", "rclone config create")
# There is no network in the machine, and the packages are there.
PREAMBLE = "set -eux\napt-get() { true; }\ncontrib/install() { true; }\n"
MACHINE_SECONDS = 300


def blocks(page: str = OPERATING) -> List[str]:
    """The blocks of the page that a shell reads."""
    return re.findall(r"```sh\n(.*?)```", page, re.DOTALL)


def block_of(first: str) -> str:
    """The block of the pages that begins so."""
    found = [block for block in (*blocks(), *blocks(SCALE)) if block.startswith(first)]
    assert len(found) == 1, (first, len(found))
    return found[0]


class Packages(unittest.TestCase):
    """The packages of the program that is tested."""

    deadline = 1800         # a machine that isn't there yet is made first
    folder: Path
    packages: List[Path]

    @classmethod
    def setUpClass(cls) -> None:
        folder = tempfile.TemporaryDirectory(prefix="vault-test-")
        cls.addClassCleanup(folder.cleanup)
        cls.folder = Path(folder.name)
        cls.make(cls.folder)
        cls.packages = sorted(cls.folder.glob("*.deb"))

    @staticmethod
    def make(folder: Path, **environment: str) -> List[Path]:
        """Makes both packages in a folder, and answers what it says: where they are."""
        done = subprocess.run([str(TOP / "contrib" / "package"), "--vaultd", VAULTD, "--to", str(folder)], check=True, timeout=120,
                              stdout=subprocess.PIPE, text=True, env={**os.environ, **environment})
        return [Path(line) for line in done.stdout.splitlines()]

    def said(self, *words: str, status: int = 0) -> str:
        """What a command prints, on either stream."""
        done = subprocess.run(words, stdout=subprocess.PIPE, stderr=subprocess.STDOUT, text=True, timeout=120, check=False)
        self.assertEqual(done.returncode, status, done.stdout)
        return done.stdout

    def test_names(self) -> None:
        """Two packages, with the program's version and the time of the commit, and the same bytes each time."""
        version = self.version(self.packages[0])
        self.assertRegex(version, "^" + re.escape(self.said(VAULTD, "--version").split()[1]) + r"\+20\d{12}$")
        self.assertTrue(version.startswith(self.said(*program("vault"), "--version").split()[1] + "+"))
        architecture = self.said("dpkg", "--print-architecture").strip()
        self.assertEqual([path.name for path in self.packages], [f"vault_{version}_all.deb", f"vaultd_{version}_{architecture}.deb"])
        again = self.folder / "again"
        self.make(again)
        for package in self.packages:
            self.assertEqual((again / package.name).read_bytes(), package.read_bytes(), package.name)

    def version(self, package: Path) -> str:
        """The version of a package."""
        return self.said("dpkg-deb", "--field", str(package), "Version").strip()

    def test_one_version(self) -> None:
        """The server, the client and the tools have one version; the packages' client says theirs."""
        server = self.said(VAULTD, "--version").split()[1]
        self.assertEqual((vault.__version__, vaultd_tools.__version__), (server, server))
        root = self.folder / "unpacked"
        self.said("dpkg-deb", "-x", str(self.packages[0]), str(root))
        installed = f"PYTHONPATH={root / 'usr' / 'lib' / 'python3' / 'dist-packages'}"
        said = self.said("env", installed, "/usr/bin/python3", str(root / "usr" / "bin" / "vault"), "--version")
        self.assertEqual(said, f"vault {self.version(self.packages[0])}\n")

    def test_upgrades(self) -> None:
        """What is built of a later commit is an upgrade, and the server wants the client that was built with it."""
        times = ("1795000000", "1795000001", "1800000000")
        folder = self.folder / "kept"
        made = [self.make(folder, SOURCE_DATE_EPOCH=time) for time in times]
        self.assertEqual(sorted(folder.iterdir()), sorted(path for packages in made for path in packages))
        for earlier, later in zip(made, made[1:]):
            self.said("dpkg", "--compare-versions", self.version(earlier[1]), "lt", self.version(later[1]))
        for client, server in made:
            self.assertIn(f"vault (= {self.version(client)})", self.said("dpkg-deb", "--field", str(server), "Depends"))
        self.said("dpkg", "--compare-versions", self.version(made[0][0]), "lt", "0.9.1")

    def test_all_that_is_installed(self) -> None:
        """Each file that the script installs is in one of the two."""
        root = self.folder / "root"
        self.said(str(TOP / "contrib" / "install"), "--destdir", str(root), "--vaultd", VAULTD)
        wanted = {path.name for path in root.rglob("*") if not path.is_dir()}
        held = [line.split()[5] for package in self.packages for line in self.said("dpkg-deb", "-c", str(package)).splitlines()]
        names = [Path(path).name for path in held if not path.endswith("/")]
        self.assertEqual(wanted - set(names), set())
        self.assertEqual(len(names), len(set(held) - {path for path in held if path.endswith("/")}))

    def test_completion(self) -> None:
        """Each shell finds the client's completion where it looks for it, and what it runs on is recommended."""
        held = self.said("dpkg-deb", "-c", str(self.packages[0]))
        for path in ("bash-completion/completions/vault", "zsh/vendor-completions/_vault", "fish/vendor_completions.d/vault.fish"):
            self.assertIn(f"./usr/share/{path}\n", held)
        self.assertIn("python3-argcomplete", self.said("dpkg-deb", "--field", str(self.packages[0]), "Recommends"))

    def test_first_test(self) -> None:
        """What the page's first commands run beyond the least Debian comes with the package: each program by its package."""
        first, recommends = block_of(BLOCKS["start.sh"]), self.said("dpkg-deb", "--field", str(self.packages[1]), "Recommends").split(", ")
        for name, package in (("systemctl", "systemd"), ("journalctl", "systemd"), ("nc", "netcat-openbsd")):
            self.assertRegex(first, rf"(?m)(^|\| ){name} ")
            self.assertIn(package, recommends)

    def test_lintian(self) -> None:
        """lintian finds no error in the packages."""
        said = self.said("lintian", "--fail-on", "error", "--allow-root", *map(str, self.packages))
        self.assertEqual([line for line in said.splitlines() if line.startswith("E:")], [])

    def test_refusals(self) -> None:
        script = str(TOP / "contrib" / "package")
        self.assertIn("there is no program at /nowhere", self.said(script, "--vaultd", "/nowhere", status=1))
        self.assertIn("usage", self.said(script, "--vaultd", status=2))
        self.assertIn("usage", self.said(script, "--from", "x", status=2))

    def test_every_block(self) -> None:
        """Each block of the page is run in the machine, or named here."""
        known = (*BLOCKS.values(), *OTHER_BLOCKS)
        self.assertEqual([block for block in blocks() if not block.startswith(known)], [])
        self.assertEqual(len(blocks()), len(known))
        self.assertEqual(blocks(SCALE), [block_of(PLANT)])

    @unittest.skipUnless(os.getuid() == 0, "needs root, for a machine of its own")
    def test_in_a_machine(self) -> None:
        """Installed, used, and removed, with systemd as the first process and its journal."""
        files: Dict[str, Path] = {package.name: package for package in self.packages}
        for name, first in {**BLOCKS, "plant.sh": PLANT}.items():
            files[name] = self.folder / name
            files[name].write_text(PREAMBLE + block_of(first), "utf-8")
        later = self.make(self.folder / "later", SOURCE_DATE_EPOCH="1900000000")
        files.update({f"later-{package.name.partition('_')[0]}": package for package in later})
        files["script"] = TOP / "tests" / "data" / "in-a-machine"
        status, said = machines.run_in_machine(files, MACHINE_SECONDS)
        self.assertEqual(status, 0, said)
        self.assertRegex(said, r"\n\d{2,3} passed, 0 failed\n$")


if __name__ == "__main__":
    unittest.main()
