"""What is installed: units, manual pages, completion and the script that puts them there."""

import contextlib
import io
import json
import os
import re
import shlex
import shutil
import subprocess
import sys
import tempfile
import unittest
from pathlib import Path
from typing import Dict, List, Set

from servers import MEMORY, TOP, VAULTD, Limits, Server, scripts
from test_documents import taken_by
from tries import told

sys.path.insert(0, str(TOP / "bench"))

from measure import ALLOCATOR  # noqa: E402
from vault.cli.program import main  # noqa: E402
from vaultd_tools.page.program import words as words_of_the_page  # noqa: E402

CONTRIB = TOP / "contrib"


def helped(*words: str) -> str:
    """What the client's help says."""
    said = io.StringIO()
    with contextlib.redirect_stdout(said), contextlib.suppress(SystemExit):
        main([*words, "--help"])
    return said.getvalue()


class Contrib(unittest.TestCase):
    """Each file, by the tool that reads it."""

    def setUp(self) -> None:
        folder = tempfile.TemporaryDirectory(prefix="vault-test-")
        self.addCleanup(folder.cleanup)
        self.root = Path(folder.name) / "root"

    def said(self, *words: str, status: int = 0) -> str:
        """What a command prints, on either stream."""
        done = subprocess.run(words, stdout=subprocess.PIPE, stderr=subprocess.STDOUT, text=True, timeout=60, check=False)
        self.assertEqual(done.returncode, status, done.stdout)
        return done.stdout

    def install(self) -> None:
        """Installs under the root."""
        self.said(str(CONTRIB / "install"), "--destdir", str(self.root), "--vaultd", VAULTD)

    def test_installed(self) -> None:
        """The installed client and tools run from where they are put, and a configuration is kept."""
        self.install()
        kept = self.root / "etc" / "default" / "vaultd"
        kept.write_text("VAULTD_ADDRESS=127.0.0.1:1\n", "utf-8")
        self.install()
        self.assertEqual(kept.read_text("utf-8"), "VAULTD_ADDRESS=127.0.0.1:1\n")
        server = Server(folder=MEMORY)
        self.addCleanup(server.close)
        server.start()
        os.environ["XDG_STATE_HOME"] = str(self.root / "state")
        self.addCleanup(os.environ.pop, "XDG_STATE_HOME")
        os.environ["PYTHONPATH"] = str(self.root / "usr" / "lib" / "python3" / "dist-packages")
        self.addCleanup(os.environ.pop, "PYTHONPATH")
        client, backup = self.root / "usr" / "bin" / "vault", self.root / "usr" / "sbin" / "vaultd-backup"
        self.said(str(client), "hello", f"anna@127.0.0.1:{server.port}")
        self.said(str(client), "make", "/engine")
        for program in [client] + sorted((self.root / "usr" / "sbin").glob("vaultd-*")):
            self.assertEqual(program.read_text("utf-8").partition("\n")[0], "#!/usr/bin/python3")
            self.assertIn("usage: " + program.name, self.said(str(program), "--help"))
        self.assertIn("places 2", self.said(str(backup), "--vaultd", VAULTD, *server.files, str(self.root / "kept")))
        for page in ("man1/vault.1.gz", "man5/vault-files.5.gz", "man8/vaultd.8.gz", "man8/vaultd-board.8.gz", "man8/vaultd-watch.8.gz"):
            self.assertTrue((self.root / "usr" / "share" / "man" / page).exists(), page)
        self.assertIn("usage", self.said(str(CONTRIB / "install"), "--destdir", status=2))

    def test_who_may_read(self) -> None:
        """Whatever the umask of who installs, everybody can read what is installed."""
        self.said("sh", "-c", f"umask 077; '{CONTRIB}/install' --destdir '{self.root}' --vaultd '{VAULTD}'")
        self.assertEqual([str(path) for path in self.root.rglob("*") if not path.is_symlink() and path.stat().st_mode & 0o444 != 0o444], [])

    def test_replicated(self) -> None:
        """`settle` keeps the same bytes, and never runs beside a server; `serves` says that a server serves if it grants a check-out."""
        settle, serves = str(CONTRIB / "replicated" / "settle"), str(CONTRIB / "replicated" / "serves")
        server = Server(folder=MEMORY)
        self.addCleanup(server.close)
        address = f"127.0.0.1:{server.port}"
        self.said(serves, address, "1", status=1)
        server.start()
        for _ in range(2):
            self.said(serves, address)
        with server.connect() as cut_off, server.connect() as anna:
            told(cut_off, b"hello monitor\n" + 3 * b"checkout r:/monitor\n" + b"checkout w:/\n", 5)
            told(anna, b"hello anna\ncheckout r:/monitor\nhold r:/monitor\n", 3)
            self.said(serves, address)
            self.assertEqual(told(anna, b"claims /monitor\n", 1), b"OK claims 3 c6 c7 h1\n")
        self.assertEqual(self.said(settle, *server.files, status=1), "vault in use\n")
        server.kill()
        before = [Path(file).read_bytes() for file in server.files]
        os.utime(server.files[0], (0, 0))
        self.assertEqual(self.said(settle, *server.files), "")
        self.assertGreater(os.stat(server.files[0]).st_mtime, 0)
        self.assertEqual([Path(file).read_bytes() for file in server.files], before)
        self.assertIn("nothing is lost", self.said(settle, *server.files[:1], "/nowhere/b", status=1))
        server.start(Limits(file_bytes=len(before[0])))
        self.said(serves, address, "5", status=1)

    def test_replicated_units(self) -> None:
        """The unit with its additions for two machines, and the mount."""
        units = self.root / "units"
        (units / "vaultd.service.d").mkdir(parents=True)
        program = self.root / "vaultd"
        shutil.copy("/bin/true", program)
        shutil.copy(CONTRIB / "replicated" / "var-lib-vaultd.mount", units)
        for source, kept in ((CONTRIB / "systemd" / "vaultd.service", "vaultd.service"),
                             (CONTRIB / "replicated" / "replicated.conf", "vaultd.service.d/replicated.conf")):
            text = re.sub("/usr/sbin/vaultd(-watch)?", str(program), source.read_text("utf-8"))
            (units / kept).write_text(text.replace("/usr/share/vaultd/replicated/settle", str(program)), "utf-8")
        self.assertEqual(self.said("systemd-analyze", "verify", "--man=no", str(units / "vaultd.service"),
                                   str(units / "var-lib-vaultd.mount")), "")

    def test_replicated_mark(self) -> None:
        """The mark of the watch goes before each start, behind `settle`."""
        self.install()
        text = (self.root / "usr/share/vaultd/replicated/replicated.conf").read_text("utf-8")
        before = re.findall(r"^ExecStartPre=(\S+) ", text, re.MULTILINE)
        self.assertEqual(before, ["/usr/share/vaultd/replicated/settle", "+/bin/rm"])
        self.assertIn("ExecStartPre=+/bin/rm -f /run/vaultd-watch/%N.broken\n", text)

    def test_replicated_users(self) -> None:
        """keepalived asks the server as a user who is made with it, and whom the ssh gate's rule lets through. What restarts it is root's."""
        text = (CONTRIB / "replicated" / "keepalived.conf").read_text("utf-8")
        script, = re.findall(r"^vrrp_script serves \{\n(.*?)^\}", text, re.DOTALL | re.MULTILINE)
        user, = re.findall(r"^ *user (\S+)$", script, re.MULTILINE)
        rule, = re.findall(r"^define vaultd_users = \{(.*)\}$", (CONTRIB / "gate" / "vaultd.nft").read_text("utf-8"), re.MULTILINE)
        self.assertIn(f'"{user}"', rule.replace(" ", "").split(","))
        self.assertIn(f"\nu {user} ", (CONTRIB / "systemd" / "vaultd.sysusers").read_text("utf-8"))
        self.assertRegex(text.replace(script, ""), r"(?ms)^ *script_user root$.*^ *notify_fault \"/usr/bin/systemctl try-restart [^\"]*\"$")

    def check_rating(self, unit: Path) -> None:
        """A unit is rated, and by Debian 12's systemd as the page on operating says; another one rates otherwise."""
        rated = self.said("systemd-analyze", "security", "--offline=true", "--no-pager", str(unit))
        found = re.search(r"Overall exposure level for .*: ([0-9.]+)", rated)
        self.assertIsNotNone(found)
        if found and self.said("systemctl", "--version").startswith("systemd 252 "):
            self.assertIn(f"rates the units of the server and of the page {found[1]} of 10", (TOP / "docs" / "OPERATING.md").read_text("utf-8"))

    def test_units(self) -> None:
        """All units are accepted as they are installed, and the server's are rated as the page on operating says."""
        self.install()
        folder = self.root / "usr" / "lib" / "systemd" / "system"
        for unit in list(folder.iterdir()):
            unit.write_text(unit.read_text("utf-8").replace("/usr/sbin/", str(self.root / "usr" / "sbin") + "/"), "utf-8")
            if "@" in unit.name:
                shutil.copy(unit, folder / unit.name.replace("@", "@plant"))
        units = sorted(str(unit) for unit in folder.iterdir() if "@." not in unit.name)
        self.assertGreaterEqual(len(units), 14)
        self.assertEqual(self.said("systemd-analyze", "verify", "--man=no", *units), "")
        for unit in (folder / "vaultd.service", folder / "vaultd@plant.service"):
            self.check_rating(unit)

    def test_unit_of_the_page(self) -> None:
        """It is accepted, rated as the page on operating says, and its program takes the words that it gives."""
        self.install()
        text = (CONTRIB / "systemd" / "vaultd-page.service").read_text("utf-8")
        unit = self.root / "vaultd-page.service"
        unit.write_text(text.replace("/usr/sbin/vaultd-page", str(self.root / "usr" / "sbin" / "vaultd-page")), "utf-8")
        self.assertEqual(self.said("systemd-analyze", "verify", "--man=no", str(unit)), "")
        self.check_rating(unit)
        values = dict(re.findall(r"(VAULTD_PAGE_\w+)=(\S*)", text))
        words = re.findall(r"^ExecStart=\S+ (.*)$", text, re.MULTILINE)[0].replace("$VAULTD_PAGE_OPTIONS", "--host vault.example.org --title Plant-1")
        asked = words_of_the_page([values.get(word.strip("${}"), word) for word in words.split()])
        self.assertEqual((asked.vault, asked.listen), (("127.0.0.1", 7070), ("127.0.0.1", 8080)))
        self.assertEqual((asked.host, asked.designer, asked.title), (["vault.example.org"], "page", "Plant-1"))
        self.assertIn("u vaultd-page ", (self.root / "usr" / "lib" / "sysusers.d" / "vaultd-page.conf").read_text("utf-8"))
        lines = [line.strip() for line in (self.root / "usr/share/doc/vaultd/page/nginx.conf").read_text("utf-8").splitlines()]
        for line in ("proxy_pass http://unix:/run/vaultd-page/signed-in.socket:;", 'proxy_set_header Authorization "";',
                     "proxy_set_header X-Vault-Designer $remote_user;"):
            self.assertIn(line, lines)
        self.assertIn("define page_port = 8080\n", (self.root / "usr/share/doc/vaultd/page/vaultd-page.nft").read_text("utf-8"))
        templates = sorted(file.name for file in (TOP / "python/vaultd_tools/src/vaultd_tools/page/templates").iterdir())
        self.assertEqual(sorted(file.name for file in (self.root / "usr/lib/python3/dist-packages/vaultd_tools/page/templates").iterdir()), templates)

    def test_nginx(self) -> None:
        """Each example is one that nginx takes, with a certificate."""
        self.root.mkdir(parents=True, exist_ok=True)
        key, certificate = self.root / "key", self.root / "certificate"
        subprocess.run(["openssl", "req", "-x509", "-newkey", "rsa:2048", "-nodes", "-subj", "/CN=vault.example.org", "-keyout", str(key), "-out",
                        str(certificate)], check=True, capture_output=True)
        for example in sorted((CONTRIB / "page").glob("nginx*.conf")):
            text = re.sub(r"/etc/ssl/certs/\S+\.pem", str(certificate), example.read_text("utf-8")).replace(
                "/etc/ssl/private/vault.example.org.key", str(key)).replace("listen [::]:443 ssl http2;", "")
            conf = self.root / "nginx.conf"
            conf.write_text(f"pid {self.root}/pid;\nevents {{}}\nhttp {{\n{text}\n}}\n", "utf-8")
            words = [shutil.which("nginx") or "/usr/sbin/nginx", "-t", "-q", "-c", str(conf), "-e", "stderr"]
            done = subprocess.run(words, capture_output=True, text=True, check=False)
            self.assertEqual((example.name, done.returncode, done.stderr), (example.name, 0, ""))

    def test_the_template_is_the_unit(self) -> None:
        """The template differs from the unit only in its names."""
        unit = (CONTRIB / "systemd" / "vaultd.service").read_text("utf-8")
        template = (CONTRIB / "systemd" / "vaultd@.service").read_text("utf-8").splitlines()
        other = [line.partition("=")[0] for line in set(unit.splitlines()) ^ set(template)]
        self.assertEqual(set(other), {"Description", "Environment", "EnvironmentFile", "ExecStart", "RequiresMountsFor", "StateDirectory"})
        self.assertIn("RequiresMountsFor=/var/lib/vaultd/%i", template)

    def test_benches_run_as_the_units(self) -> None:
        """The benches' settings of the allocator stand in both units."""
        for name in ("vaultd.service", "vaultd@.service"):
            lines = (CONTRIB / "systemd" / name).read_text("utf-8").splitlines()
            for word, value in ALLOCATOR.items():
                self.assertIn(f"Environment={word}={value}", lines)

    def test_units_say_why(self) -> None:
        """Both units of the server start it with `--verbose`."""
        for name in ("vaultd.service", "vaultd@.service"):
            start = re.findall(r"^ExecStart=(.*)$", (CONTRIB / "systemd" / name).read_text("utf-8"), re.MULTILINE)
            self.assertEqual([line.split()[-1] for line in start], ["--verbose"])

    @unittest.skipUnless(os.getuid() == 0, "needs root, for owners of folders")
    def test_folder_of_backups(self) -> None:
        """The unit makes its own folder where it is missing, and leaves one that is there as it is. Another one that is missing may be on a disk
        that isn't mounted: it is named, and not made."""
        self.install()
        usual, there, away = self.root / "usual", self.root / "there", self.root / "away" / "a folder"
        there.mkdir(mode=0o1777)
        there.chmod(0o1777)
        for unit, name in (("vaultd-backup.service", ""), ("vaultd-backup@.service", "-plant")):
            text = (self.root / "usr/lib/systemd/system" / unit).read_text("utf-8").replace("%i", "plant")
            self.assertEqual(set(re.findall(r"/var/backups/vaultd[^ ;:\]]*", text)), {f"/var/backups/vaultd{name}"})
            line = re.findall(r"^ExecStartPre=\+(.*)$", text, re.MULTILINE)[0].replace("$$", "$")
            line = line.replace("-o vaultd -g vaultd", "-o nobody -g nogroup").replace(f"/var/backups/vaultd{name}", str(usual) + name)
            for folder, status in ((self.root / (usual.name + name), 0), (there, 0), (away, 1)):
                done = subprocess.run(shlex.split(line), capture_output=True, text=True, timeout=60, check=False,
                                      env={**os.environ, "VAULTD_BACKUPS": str(folder)})
                self.assertEqual((done.returncode, f"{away} is not there: mount its disk" in done.stderr), (status, folder == away), done.stderr)
        self.assertEqual([(folder.owner(), folder.stat().st_mode & 0o7777) for folder in (usual, self.root / "usual-plant", there)],
                         [("nobody", 0o750), ("nobody", 0o750), ("root", 0o1777)])
        self.assertFalse(away.parent.exists())

    def test_manual(self) -> None:
        """No page has a warning, and each names every command and option of its program."""
        for page in sorted((CONTRIB / "man").iterdir()):
            words = ("man", "--warnings", "-E", "UTF-8", "-l", "-Tutf8", "-Z", str(page))
            done = subprocess.run(words, capture_output=True, text=True, check=True)
            self.assertEqual(done.stderr, "", page.name)
            if shutil.which("mandoc"):
                self.assertEqual(self.said("mandoc", "-Tlint", str(page)), "")
        self.check_manual_of_the_client()
        self.check_manual_of_the_server()

    def manual(self, name: str) -> str:
        """The source of a page, with its hyphens as they are typed."""
        return (CONTRIB / "man" / name).read_text("utf-8").replace("\\-", "-")

    def check_manual_of_the_client(self) -> None:
        """It has an entry for each command, and names each option."""
        page = self.manual("vault.1")
        entries = set(re.findall(r'^\.TP\n\.B\w* "?([a-z]+)\b', page, re.MULTILINE))
        options = set(re.findall(r"(?<![\w-])--[a-z-]+", page))
        self.assertEqual([word for word in self.client_words() if word not in entries | options], [])

    def check_manual_of_the_server(self) -> None:
        """Its lines of use have the options of each program, and no others."""
        uses = re.findall(r"^\.B (vaultd[a-z-]*)(.*?)(?=^\.br$|\Z)", self.manual("vaultd.8").partition(".SH SYNOPSIS\n")[2].partition(".SH ")[0],
                          re.MULTILINE | re.DOTALL)
        shown: Dict[str, Set[str]] = {}
        for name, words in uses:
            shown.setdefault(name, set()).update(re.findall(r"--[a-z-]+", words))
        for name in ("vaultd", *(name for name in scripts() if name != "vault")):
            with self.subTest(name):
                # Each that is given the vault's files takes this one, as the page says behind them.
                self.assertEqual(shown[name], taken_by(name) - {"--vaultd"})

    def client_words(self) -> List[str]:
        """The commands and options that the client has by its own help, except help and version."""
        commands = re.findall(r"^    ([a-z]+)  ", helped(), re.MULTILINE)
        self.assertGreater(len(commands), 10)
        shown = helped() + "".join(helped(command) for command in commands)
        return commands + sorted(set(re.findall(r"--[a-z-]+", shown)) - {"--help", "--version"})

    def completed(self, script: str, function: str, *words: str) -> List[str]:
        """What the completion offers for the last of some words."""
        line = " ".join(f"'{word}'" for word in words)
        return self.said("bash", "-c", f"source '{CONTRIB}/completion/{script}'; COMP_WORDS=({line}); COMP_CWORD={len(words) - 1};"
                         f" {function}; printf '%s\\n' \"${{COMPREPLY[@]}}\"").split()

    def test_limits(self) -> None:
        """Each limit of the protocol stands in both manual pages, and what a vault's files show of them is named as `vaultd check` names it."""
        told = re.search(r"\| 50 \| a limit: (.*?);", (TOP / "docs" / "PROTOCOL.md").read_text("utf-8"))
        assert told is not None
        limits = told[1].split(", ")
        self.assertGreater(len(limits), 9)
        sections = {}
        for page in ("vault.1", "vaultd.8"):
            text = (CONTRIB / "man" / page).read_text("utf-8")
            sections[page] = " ".join(re.sub(r"(?m)^\.[A-Z]+ ", "", text[text.index(".SH LIMITS"):].split(".SH ")[1]).replace("\\", "").split())
            self.assertEqual([limit for limit in limits if limit not in sections[page]], [], page)
        with tempfile.TemporaryDirectory() as folder:
            files = (os.path.join(folder, "a"), os.path.join(folder, "b"))
            self.said(VAULTD, "create", *files)
            found = json.loads(self.said(VAULTD, "check", "--json", *files))["limits"]
        self.assertGreater(len(found), 7)
        self.assertEqual([limit["name"] for limit in found if f"{limit['name']}" not in sections["vaultd.8"]], [])

    def test_completion(self) -> None:
        """That of vaultd; tests/test_completion.py has the client's."""
        self.assertEqual(self.completed("vaultd", "_vaultd", "vaultd", "se"), ["serve"])
        self.assertEqual(self.completed("vaultd", "_vaultd", "vaultd", "serve", "a", "b", "x", "--wo"), ["--workers"])
        for command in ("script", "create", "check", "inspect", "serve"):
            self.assertEqual(self.completed("vaultd", "_vaultd", "vaultd", command, "--v"), ["--verbose"])


if __name__ == "__main__":
    unittest.main()
