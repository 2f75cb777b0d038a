"""The client's wheel: pure Python, made by `python3 -m build`, and installed without a network into an empty environment, where it works."""

import shutil
import subprocess
import sys
import tempfile
import zipfile
from pathlib import Path
from types import ModuleType

import pathspec
from designers import PART, WithServer
from servers import TOP

from vault import __version__

PACKAGE = TOP / "python" / "vault"


class Wheel(WithServer):
    """A wheel of the client, and an environment that has nothing else but the libraries that it needs."""

    def said(self, *words: str) -> str:
        """What a program prints, which has to go through."""
        kept = {name: value for name, value in self.environment().items() if not name.startswith(("PYTHON", "PIP"))}
        done = subprocess.run(words, stdout=subprocess.PIPE, stderr=subprocess.STDOUT, text=True, timeout=300, check=False, env=kept)
        self.assertEqual(done.returncode, 0, done.stdout)
        return done.stdout

    def made(self, folder: Path) -> Path:
        """The wheel, made of a copy of the package: building leaves files beside it."""
        shutil.copytree(PACKAGE, folder / "source", ignore=shutil.ignore_patterns("__pycache__", "*.egg-info", "build"))
        self.said(sys.executable, "-m", "build", "--wheel", "--no-isolation", "--outdir", str(folder), str(folder / "source"))
        found = list(folder.glob("*.whl"))
        self.assertEqual([path.name for path in found], [f"vault-{__version__}-py3-none-any.whl"])
        return found[0]

    def test_in_an_empty_environment(self) -> None:
        """It has each module, is of any system, and does a designer's work."""
        with tempfile.TemporaryDirectory(prefix="vault-test-") as name:
            folder = Path(name)
            wheel = self.made(folder)
            modules = {path.relative_to(PACKAGE / "src").as_posix() for path in (PACKAGE / "src/vault").rglob("*.py")}
            with zipfile.ZipFile(wheel) as opened:
                self.assertEqual(modules - set(opened.namelist()), set())
                self.assertIn("vault/py.typed", opened.namelist())
                about = next(each for each in opened.namelist() if each.endswith("/WHEEL"))
                self.assertIn("Root-Is-Purelib: true", opened.read(about).decode())
            self.said(sys.executable, "-m", "venv", str(folder / "venv"))
            python = str(folder / "venv/bin/python3")
            site = Path(self.said(python, "-c", "import sysconfig; print(sysconfig.get_path('purelib'))").strip())
            self.lay(site, pathspec)
            self.said(python, "-m", "pip", "install", "--no-index", "--quiet", str(wheel))
            self.assertIn("No broken requirements", self.said(python, "-m", "pip", "check"))
            vault = str(folder / "venv/bin/vault")
            self.assertEqual(self.said(vault, "--version"), f"vault {__version__}\n")
            self.said(vault, "hello", f"anna@127.0.0.1:{self.server.port}")
            self.said(vault, "store", "set", f"file://{folder}/store")
            work = folder / "work"
            self.said(vault, "get", "/engine/block", "--to", str(work))
            (work / "Bolzen.SLDPRT").write_bytes(b"pin" * 1000)
            self.said(vault, "add", str(work / "Bolzen.SLDPRT"))
            self.said(vault, "checkout", "w:/engine/block")
            self.assertIn("1 new version", self.said(vault, "checkin", str(work)))
            self.said(vault, "get", "/engine/block/bolzen_sldprt", "--to", str(folder / "bolt"))
            self.assertEqual((folder / "bolt").read_bytes(), b"pin" * 1000)
            self.assertIn(PART, self.said(vault, "--json", "tree"))

    @staticmethod
    def lay(site: Path, library: ModuleType) -> None:
        """Puts a library of Debian into an environment, with what pip has to know of it: there is no network to fetch it from."""
        assert library.__file__ is not None
        package = Path(library.__file__).parent
        records = [path for path in package.parent.glob(f"{library.__name__}-*") if path.suffix in (".dist-info", ".egg-info")]
        assert records, f"no record of {library.__name__} beside {package}"
        for path in (package, *records):
            if path.is_dir():
                shutil.copytree(path, site / path.name)
            else:
                shutil.copy(path, site / path.name)
