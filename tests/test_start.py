"""What a command costs before it does anything: only what it needs is loaded, and nothing is written that is there already."""

import os
import subprocess
import sys
from pathlib import Path
from typing import Set

from designers import PART
from servers import PACKAGES
from stores import WithStore

# Libraries that take long to load, and what needs them: many files at once, another program, a hash, a table, progress, a lock where the system has
# none, patterns of what is ignored, a wrong word.
LONG = {"concurrent.futures", "dataclasses", "difflib", "filelock", "hashlib", "inspect", "logging", "pathspec", "platformdirs", "rich", "shutil",
        "subprocess", "tempfile", "threading", "tqdm", "uuid"}
SHOWS = "import sys, atexit; atexit.register(lambda: print('loaded', *sys.modules, file=sys.stderr))\n"
PROGRAM = "from vault.cli.program import main; sys.exit(main())"


class Loaded(WithStore):
    """What is loaded by the time a command ends."""

    def setUp(self) -> None:
        super().setUp()
        self.as_program()
        self.put_version()
        self.work = self.root / "work"
        self.vault("get", "/engine/block", "--to", str(self.work))

    def loaded(self, *words: str) -> Set[str]:
        """The modules that a command loads."""
        environment = {**self.environment(), "PYTHONPATH": os.pathsep.join(str(package / "src") for package in PACKAGES)}
        done = subprocess.run([sys.executable, "-c", SHOWS + PROGRAM, *words], env=environment, capture_output=True, text=True, timeout=60,
                              check=False)
        self.assertEqual(done.returncode, 0, done.stderr)
        return set(done.stderr.rpartition("loaded ")[2].split())

    def test_questions(self) -> None:
        """Questions load none of these, and nothing of stores and working folders but what they ask about."""
        for words in (("mine",), ("who", "/")):
            found = self.loaded(*words)
            with self.subTest(words):
                self.assertEqual(found & LONG, set())
                self.assertEqual({name for name in found if name.startswith(("vault.store", "vault.working."))} - {"vault.working.days"}, set())
        found = self.loaded("status", str(self.work))
        self.assertEqual((found & LONG, found & {"vault.working.importing", "vault.store.rclone_store", "vault.store.many"}), (set(), set()))

    def test_check_out_and_in(self) -> None:
        """A check-out of one loads none of these, and its check-in what hashes alone."""
        self.assertEqual(self.loaded("checkout", f"w:{PART}") & LONG, set())
        file = next(path for path in self.work.iterdir() if path.name[:1] != ".")
        file.write_bytes(b"bore 81")
        self.assertEqual(self.loaded("checkin", str(self.work)) & (LONG - {"hashlib"}), set())


class Written(WithStore):
    """What is there already isn't written again."""

    def test_questions_write_nothing(self) -> None:
        self.as_program()
        self.put_version()
        work = self.root / "work"
        self.vault("get", "/engine/block", "--to", str(work))
        for _ in range(2):
            before = self.looks()
            for words in (("mine",), ("who", "/"), ("status", str(work))):
                self.vault(*words)
        self.assertEqual(self.looks(), before)

    def looks(self) -> Set[object]:
        """How the client's own files look, by which one that is written anew is known."""
        kept = (*Path(self.folder.name).glob("vault/*.json"), *self.root.glob("work/.vault/folder.json"))
        return {(path.name, path.stat().st_ino) for path in kept}
