"""Both ways from a clone to a running server: runs each line of README, and compares what it prints with what stands below it.

The program is built only if VAULT_BUILDS is set, since that takes minutes without proofs, and an hour with them. Else the tested
program stands in for it.
"""

import os
import re
import signal
import socket
import subprocess
import tempfile
import unittest
from pathlib import Path

from servers import TOP, VAULTD, free_port
from test_tutorial import Shell, steps

BUILD_SECONDS = 3600
BUILDS = bool(os.environ.get("VAULT_BUILDS"))
# What makes the proved program, and what a block says once the other one is made.
PROVES = "(cd crates/vaultd && rt run -- script < stdin > /dev/null) && PATH=$PWD/crates/vaultd/out:$PATH"
MADE = "The program is made, unproved"
BLOCKS = [steps(block) for block in re.findall(r"```console\n.*?```", (TOP / "README.md").read_text("utf-8"), re.DOTALL)]


class Readme(unittest.TestCase):
    """README's two blocks, in a folder that has the tree, at a port that is free."""

    deadline = 2 * BUILD_SECONDS

    def run_block(self, number: int, first: str) -> None:
        """Runs the block whose first line begins so."""
        block = BLOCKS[number]
        self.assertTrue(block[0][1].startswith(first), block[0])
        with tempfile.TemporaryDirectory(prefix="vault-test-") as folder:
            top, programs = Path(folder) / "top", Path(folder) / "programs"
            for path in (top, programs):
                path.mkdir()
            for name in ("crates", "crates.txt", "tools", "python", "docs"):
                (top / name).symlink_to(TOP / name)
            meant = {"7070": str(free_port()), "/tmp/vault": folder + "/vault"}
            (programs / "vaultd").symlink_to(VAULTD)
            shell = Shell(top, programs)
            self.addCleanup(shell.close)
            try:
                shell.run("unset VAULTD" if BUILDS else f"export VAULTD={VAULTD}", 0)
                for _, line, wanted in block:
                    if not BUILDS:
                        line = "true" if line == PROVES else line
                        wanted = [said for said in wanted if not said.startswith(MADE)]
                    for shown, instead in meant.items():
                        line, wanted = line.replace(shown, instead), [said.replace(shown, instead) for said in wanted]
                    with self.subTest(line):
                        self.assertEqual(shell.run(line, len(wanted), BUILD_SECONDS if line.startswith(first) else 60), wanted)
            finally:
                shell.run("kill $! 2> /dev/null; kill $(cat " + folder + "/vault/pid 2> /dev/null) 2> /dev/null", 0)

    def test_unproved(self) -> None:
        self.assertEqual(len(BLOCKS), 2)
        self.run_block(0, "tools/prepare")

    def test_proved(self) -> None:
        self.assertIn(PROVES, [line for _, line, _ in BLOCKS[1]])
        self.run_block(1, "(cd crates/vaultd && rt run")


class TryIt(unittest.TestCase):
    """`tools/try-it` where no server can listen."""

    def said(self, *words: str) -> "subprocess.CompletedProcess[str]":
        """What it says of these words, with the tested program."""
        return subprocess.run([str(TOP / "tools" / "try-it"), *words], env={**os.environ, "VAULTD": VAULTD}, stdin=subprocess.DEVNULL, text=True,
                              capture_output=True, timeout=60, check=False)

    def test_leaves_nothing(self) -> None:
        """At a port that is taken, at one that there can't be, and at another machine's address it says so, and makes nothing."""
        with tempfile.TemporaryDirectory(prefix="vault-test-") as folder:
            new = Path(folder) / "new"
            with socket.create_server(("127.0.0.1", free_port())) as taken:
                port = taken.getsockname()[1]
                for address, reason in ((f"127.0.0.1:{port}", "Address already in use"), ("127.0.0.1:70000", "0-65535"),
                                        ("127.0.0.1", "invalid literal"), ("192.0.2.1:7070", "Cannot assign requested address")):
                    done = self.said(str(new), address)
                    self.assertEqual((done.returncode, done.stdout, new.exists()), (1, "", False), done.stderr)
                    self.assertRegex(done.stderr, f"^try-it: no server can listen at {address}: .*{reason}.*Nothing was made. Name another address")
            done = self.said(str(new), f"127.0.0.1:{port}")
            self.assertEqual(done.returncode, 0, done.stderr)
            os.kill(int((new / "pid").read_text("ascii")), signal.SIGTERM)


if __name__ == "__main__":
    unittest.main()
