"""The pages are true of this tree: what they link to, name as a path or a crate, and give to a program as an option exists; and each block
of commands is run by a test, or stands here with the reason why none runs it."""

import os
import re
import shutil
import subprocess
import sys
import tempfile
import time
import unittest
from functools import cache
from pathlib import Path
from typing import Dict, Iterator, List, Sequence, Set, Tuple

from servers import MEMORY, TOP, VAULTD, Server, free_port, program, scripts

PAGES = sorted(path for path in [*TOP.glob("*.md"), *TOP.glob("docs/*.md"), *TOP.glob("bench/*.md"), *TOP.glob("contrib/**/*.md")])
# Folders at the top, by which a word is known to be a path of this tree.
FOLDERS = ("crates/", "docs/", "python/", "contrib/", "tests/", "tools/", "bench/", ".ci/")
# Placeholders in paths.
PLACEHOLDERS = re.compile(r"NAME|CRATE|FOLDER|PROGRAM|[*<{]|\.\.")
LINK = re.compile(r"\[[^]]*\]\(([^)\s]+)\)")
SPAN = re.compile(r"`([^`\n]+)`")
FENCE = re.compile(r"^```.*?\n(.*?)^```", re.DOTALL | re.MULTILINE)
OPTION = re.compile(r"(?<![\w-])--[a-z][a-z-]*")
# A block anywhere on a page, also in a list, with its language, and a line of one that is a command, or said to a server.
BLOCK = re.compile(r"^ *```(\w*)\n(.*?)^ *```$", re.DOTALL | re.MULTILINE)
COMMAND = re.compile(r"^ *(\w*\$|>|vaultd?|rt|cd|cp|install|systemctl|apt-get|python3|(tools|tests|bench|contrib)/\S+) \S", re.MULTILINE)
# The tests that run all such blocks of a page, by their language.
RUN_BY = {("README.md", "console"): "test_readme", ("docs/OPERATING.md", "sh"): "test_packages", ("docs/OPERATING.md", "console"): "test_documents",
          ("docs/TUTORIAL.md", "console"): "test_tutorial", ("docs/SCALE.md", "console"): "test_tutorial",
          ("docs/SCALE.md", "sh"): "test_packages", ("docs/PROTOCOL.md", ""): "test_documents", ("bench/README.md", "sh"): "test_documents"}
# Blocks that no test runs, by how they begin.
NOT_RUN = {("docs/SIMULATION.md", "cd crates/vault_simulation"): "needs the prover, and minutes; CI runs the crate by its args",
           ("contrib/replicated/README.md", "./volume vault"): "needs three nodes: tests/by_hand/replicated makes them",
           ("contrib/replicated/README.md", "cd /usr/share/vaultd/replicated"): "needs two machines: tests/by_hand/replicated makes them"}
# Programs of bench/ that no test runs.
BENCH_NOT_RUN = {"bench/line.py": "proves the crates of a commit from nothing", "bench/gates.py": "runs two gates from nothing"}
# How long such a program may take, and how many ports it takes at most, the next ones behind its own.
BENCH_SECONDS, BENCH_PORTS = 400, 8
# A name of code in a span: with an underscore, or of two words as types have it.
NAME = re.compile(r"(?<![}\w])(?:[A-Za-z]\w*_\w+|[A-Z][a-z]+[A-Z]\w*)")
# Names from elsewhere: of the language's library and tools, of the kernel, of a cluster's fences; and one of an example.
FOREIGN = {"writes_back", "shift_remove", "RT_JOBS", "sched_vcpu_pack", "fence_scsi", "fence_mpath", "try_it"}
# Options of the kit that its help doesn't have.
OF_THE_KIT = {"--allow-holes", "--short-goals"}
# Words before a program's name in a command.
BEFORE = ("runuser", "-u", "vaultd-watch", "--", "sudo", "/usr/bin/python3", "python3")
# Messages of programs, which are no commands.
MESSAGES = ("vault in use", "vault in use: ..", "vault exists")
SUBCOMMANDS = ("create", "serve", "inspect", "check", "script")


def text_of(page: Path) -> str:
    """The text of a page."""
    return page.read_text("utf-8")


def name_of(page: Path) -> str:
    """How a failure names a page."""
    return str(page.relative_to(TOP))


def anchors(page: Path) -> Set[str]:
    """The anchors of a page's headings, as GitHub makes them."""
    found = set()
    for heading in re.findall(r"^#+ (.*)$", FENCE.sub("", text_of(page)), re.MULTILINE):
        plain = re.sub(r"[^\w\- ]", "", heading.lower())
        found.add(plain.replace(" ", "-"))
    return found


def code_of(page: Path) -> Iterator[str]:
    """What stands on a page as code: each span, and each line of each block."""
    text = text_of(page)
    for block in FENCE.findall(text):
        yield from block.splitlines()
    yield from SPAN.findall(FENCE.sub("", text))


def commands_of(page: Path) -> Iterator[Tuple[str, str]]:
    """The programs of this tree that a page calls, each with its line."""
    known = {"vaultd", "vault", *scripts()}
    for code in code_of(page):
        line = re.sub(r"^\w*\$ ", "", code.strip())
        for part in re.split(r"[|;&()]+|\bdo\b|\bthen\b", line.partition(" #")[0]):
            words = part.split()
            while words and (re.match(r"^[A-Z_]+=", words[0]) or words[0] in BEFORE):
                words = words[1:]
            if words and (words[0] in known or words[0].startswith(("tools/", "tests/", "bench/"))):
                yield words[0], part


def names_in_code() -> Set[str]:
    """All words of the tree's files but its pages, and the names of files."""
    found: Set[str] = set()
    for folder in FOLDERS:
        for above, below, files in os.walk(TOP / folder):
            below[:] = [each for each in below if each not in ("out", "__pycache__", "node_modules")]
            for file in files:
                path = Path(above, file)
                found.update({path.stem, path.parent.name})
                if path.suffix not in (".md", ".png", ".pyc"):
                    found.update(re.findall(r"\w+", path.read_text("utf-8", "ignore")))
    return found


def clauses_of_functions() -> Dict[str, Set[str]]:
    """The names of the clauses that the functions of each name have, in all crates."""
    found: Dict[str, Set[str]] = {}
    for path in TOP.glob("crates/*/src/**/*.rt"):
        pieces = re.split(r"\bfn (\w+)", text_of(path))
        for name, behind in zip(pieces[1::2], pieces[2::2]):
            contract = re.split(r"^ *\{$", behind, maxsplit=1, flags=re.MULTILINE)[0]
            found.setdefault(name, set()).update(re.findall(r"\bensures (\w+) \{", contract))
    return found


@cache
def help_of(name: str) -> str:
    """The help of a program, and of each of its commands."""
    call: List[str] = [VAULTD] if name == "vaultd" else program(name)
    shown = said([*call, "--help"])
    commands = SUBCOMMANDS if name == "vaultd" else re.findall(r"^    ([a-z]+)  ", shown, re.MULTILINE)
    return shown + "".join(said([*call, command, "--help"]) for command in commands)


def options_of(name: str) -> Set[str]:
    """The options in a program's help, or, for a script of this tree, in its text."""
    if name == "vaultd" or name in scripts():
        return set(OPTION.findall(help_of(name)))
    path = TOP / name
    return {option for file in ([path] if path.is_file() else path.glob("*.py")) for option in OPTION.findall(text_of(file))}


def taken_by(name: str) -> Set[str]:
    """The options that a program takes by its help, but for the usual ones."""
    return set(re.findall(r"^ +(?:-\w, +)?(--[a-z-]+)", help_of(name), re.MULTILINE)) - {"--help", "--version"}


def said(call: List[str]) -> str:
    """What a program prints of itself."""
    done = subprocess.run(call, capture_output=True, text=True, timeout=60, check=False, env={**os.environ, "COLUMNS": "200"})
    return done.stdout + done.stderr


class Pages(unittest.TestCase):
    """Every page of the repository."""

    def test_links_lead_somewhere(self) -> None:
        for page in PAGES:
            for target in LINK.findall(FENCE.sub("", text_of(page))):
                if "://" in target:
                    continue
                path, _, anchor = target.partition("#")
                to = (page.parent / path).resolve() if path else page
                with self.subTest(page=name_of(page), target=target):
                    self.assertTrue(to.exists())
                    if anchor:
                        self.assertIn(anchor, anchors(to))

    def test_paths_exist(self) -> None:
        for page in PAGES:
            if page.name == "CHANGELOG.md":
                continue
            for code in code_of(page):
                for word in re.split(r"[\s:,;|()'\"]+", code):
                    if word.startswith(FOLDERS) and not PLACEHOLDERS.search(word) and "/out" not in word:
                        with self.subTest(page=name_of(page), path=word):
                            self.assertTrue((TOP / word).exists())

    def test_pages_that_are_named_exist(self) -> None:
        names = {page.name for page in PAGES}
        for page in PAGES:
            for word in re.findall(r"\b([A-Z]{3,}\.md)\b", text_of(page)):
                with self.subTest(page=name_of(page), named=word):
                    self.assertIn(word, names)

    def test_names_of_code_are_there(self) -> None:
        known = names_in_code() | FOREIGN
        seen = set()
        for page in PAGES:
            if page.name == "CHANGELOG.md":
                continue
            for span in SPAN.findall(FENCE.sub("", text_of(page))):
                for name in NAME.findall(span):
                    seen.add(name)
                    with self.subTest(page=name_of(page), name=name):
                        self.assertTrue(name in known or name.removeprefix("vaultd_") in known)
        self.assertGreater(len(seen), 200)
        self.assertEqual(FOREIGN - seen, set())

    def test_clauses_of_the_theorem_are_there(self) -> None:
        """Each clause that a promise names after functions is one of theirs."""
        clauses = clauses_of_functions()
        seen = 0
        for row in text_of(TOP / "docs" / "THEOREM.md").splitlines():
            for named, _, of_them in re.findall(r"((`[\w:{}, ]+`(?:, | and )?)+),? \(?clauses? ((?:`\w+`(?:, | and )?)+)", row.rpartition(" | ")[2]):
                paths = [path.partition("{") for path in re.findall(r"`([^`]+)`", named)]
                functions = [name for path, _, names in paths for name in (names.strip("}").split(", ") if names else [path.rpartition("::")[2]])]
                for function in functions:
                    for clause in re.findall(r"`(\w+)`", of_them):
                        seen += 1
                        with self.subTest(function=function, clause=clause):
                            self.assertIn(clause, clauses.get(function, {clause} if function[:1].isupper() else set()))
        self.assertGreater(seen, 60)

    def test_definitions_are_in_their_modules(self) -> None:
        """A cell "crate, Module, Module" names files of that crate's specs/."""
        seen = 0
        for page in (TOP / "docs" / "DEFINITIONS.md", TOP / "docs" / "THEOREM.md"):
            for crate, modules in re.findall(r"(?:\| |; )((?:[a-z]+_)+[a-z]+), ((?:[A-Z]\w+(?:, )?)+)", text_of(page)):
                for module in modules.removesuffix(", ").split(", "):
                    seen += 1
                    with self.subTest(page=name_of(page), crate=crate, module=module):
                        self.assertTrue((TOP / "crates" / crate / "specs" / f"{module}.antt").exists())
        self.assertGreater(seen, 40)

    def test_each_crate_has_its_row(self) -> None:
        page = text_of(TOP / "docs" / "ARCHITECTURE.md")
        named = {word for row in re.findall(r"^\| ([a-z_, ]+) \|", page, re.MULTILINE) for word in row.split(", ")}
        built = {line.partition(":")[0] for line in text_of(TOP / "crates.txt").splitlines() if line and not line.startswith("#")}
        self.assertEqual(built - named, set())
        self.assertEqual({word for word in named if "_" in word} - built, set())

    def test_number_of_edits(self) -> None:
        """README says how many wrong bodies CI tries."""
        found = re.search(r"(\d+) must-fail edits", text_of(TOP / "README.md"))
        self.assertEqual(int(found[1]) if found else None, len(list(TOP.glob("crates/*/must-fail/*.edit"))))

    def test_headings_that_the_program_names(self) -> None:
        """The sections that `vaultd check` sends its reader to are there."""
        named = set(re.findall(r"docs/OPERATING\.md, '([^']+)'", (TOP / "crates/vaultd_files/src/told.rt").read_text("utf-8")))
        self.assertGreater(len(named), 2)
        self.assertLessEqual(named, set(re.findall(r"^#+ (.+)$", text_of(TOP / "docs/OPERATING.md"), re.MULTILINE)))

    def test_options_are_those_of_the_programs(self) -> None:
        seen = 0
        for page in PAGES:
            if page.name == "CHANGELOG.md":
                continue
            for name, line in commands_of(page):
                for option in OPTION.findall(line):
                    seen += 1
                    with self.subTest(page=name_of(page), line=line.strip()):
                        self.assertIn(option, options_of(name))
        print(f"options of {seen} calls", file=sys.stderr)
        self.assertGreater(seen, 20)

    def test_defaults_of_the_server(self) -> None:
        """The page's column has what the program's help has: a number where there is one, and else none."""
        has = dict(re.findall(r"^ +(--[a-z-]+) <.*?(?:\[default: (\d+)\])?$", said([VAULTD, "serve", "--help"]), re.MULTILINE))
        shown: Dict[str, str] = {}
        for options, defaults in re.findall(r"^\| (`--.*?) \| (.*?)(?:; .*?)? \|", section("OPERATING.md", "## Serving"), re.MULTILINE):
            names, each = OPTION.findall(options), defaults.split(", ")
            shown.update(zip(names, each * len(names) if len(each) == 1 else each, strict=True))
        self.assertEqual((shown.pop("--verbose"), shown.pop("--waits")), ("not", "3/4 of the workers"))
        self.assertEqual(shown, {option: has[option] or "none" for option in shown})
        self.assertEqual(set(has) - set(shown), {"--threads", "--connections", "--waits"})

    @unittest.skipIf(shutil.which("rt") is None, "the kit isn't here, and pages name its options, too")
    def test_options_that_stand_alone(self) -> None:
        """An option in a span without its program is one of some program of this tree, or of the kit."""
        tools = [str(path.relative_to(TOP)) for folder in ("tools", "bench", "tests/by_hand", "contrib") for path in (TOP / folder).rglob("*")
                 if path.is_file() and path.suffix in ("", ".py")]
        known = {option for name in ("vaultd", *scripts()) for option in options_of(name)}
        known |= {option for name in tools for option in OPTION.findall(text_of(TOP / name))} | set(OPTION.findall(said(["rt", "help"])))
        seen = 0
        for page in PAGES:
            for span in SPAN.findall(FENCE.sub("", text_of(page))):
                for option in OPTION.findall(span) if span.startswith("--") else []:
                    seen += 1
                    with self.subTest(page=name_of(page), span=span):
                        self.assertIn(option, known | OF_THE_KIT)
        self.assertGreater(seen, 40)


def blocks_of(page: Path) -> Iterator[Tuple[str, str]]:
    """The blocks of commands of a page, each with its language."""
    for language, block in BLOCK.findall(text_of(page)):
        if language in ("sh", "console") or COMMAND.search(block):
            yield language, block


def section(page: str, heading: str) -> str:
    """What stands on a page after a heading, up to the next of its kind."""
    text = text_of(TOP / "docs" / page).partition(f"\n{heading}\n")[2]
    assert text, (page, heading)
    return text.partition("\n" + heading.partition(" ")[0] + " ")[0]


class Commands(unittest.TestCase):
    """The commands of the pages."""

    deadline = 1800         # a program of bench/ takes some seconds, on a busy machine more

    def test_each_block_is_run(self) -> None:
        seen = set()
        for page in PAGES:
            for language, block in blocks_of(page):
                test = RUN_BY.get((name_of(page), language))
                begins = {key for key in NOT_RUN if key[0] == name_of(page) and block.strip().startswith(key[1])}
                seen |= begins | ({(name_of(page), language)} if test else set())
                with self.subTest(page=name_of(page), block=block.partition("\n")[0]):
                    self.assertEqual(bool(test) + len(begins), 1)
        self.assertEqual(seen, {*RUN_BY, *NOT_RUN})
        for (named, _), test in RUN_BY.items():
            self.assertTrue(Path(named).name in text_of(TOP / "tests" / f"{test}.py"), (named, test))

    def test_each_program_has_its_help(self) -> None:
        bench = [path for path in TOP.glob("bench/*.py") if "__main__" in text_of(path)]
        calls = [[VAULTD, word, "--help"] for word in SUBCOMMANDS] + [[*program(name), "--help"] for name in scripts()]
        calls += [["/usr/bin/python3", str(path), "--help"] for path in bench]
        for call in calls:
            with self.subTest(call[-2:]):
                done = subprocess.run(call, capture_output=True, text=True, timeout=60, check=False)
                self.assertEqual((done.returncode, done.stderr), (0, ""))
                self.assertIn("usage", done.stdout.lower())
        self.assertEqual({path.name for path in bench} - set(re.findall(r"bench/(\w+\.py)", text_of(TOP / "bench" / "README.md"))), set())

    def test_what_tools_check_of_the_theorem(self) -> None:
        """The contracts that it names are there, and its list of modules is that of the `use` lines."""
        for tool in ("definitions", "theorem-modules"):
            done = subprocess.run([str(TOP / "tools" / tool), "--check"], cwd=TOP, capture_output=True, text=True, timeout=120, check=False)
            with self.subTest(tool):
                self.assertEqual((done.returncode, done.stdout + done.stderr), (0, ""))

    def test_words_of_commands_are_known(self) -> None:
        known = {"vaultd": set(SUBCOMMANDS), "vault": set(re.findall(r"^\s{2,}([a-z]+)\b", said([*program("vault"), "--help"]), re.MULTILINE))}
        rt = set(re.findall(r"[a-z]+(?:-[a-z]+)?", said(["rt", "help"]))) if shutil.which("rt") else None
        for page in PAGES:
            for name, line in commands_of(page):
                said_of_it = re.search(rf"\b{name} (?:--as \S+ |--json |--patience \S+ )*([a-z]+)\b", line)
                if name in known and said_of_it and line.strip() not in MESSAGES:
                    with self.subTest(page=name_of(page), line=line.strip()):
                        self.assertIn(said_of_it[1], known[name])
            for word in re.findall(r"(?m)^rt ([a-z-]+)", "\n".join(code_of(page))):
                with self.subTest(page=name_of(page), rt=word):
                    self.assertTrue(rt is None or word in rt)

    def test_conversation_of_the_protocol(self) -> None:
        (_, block), = blocks_of(TOP / "docs" / "PROTOCOL.md")
        lines = block.splitlines()
        server = Server(folder=MEMORY)
        self.addCleanup(server.close)
        server.start()
        with server.connect() as client, client.makefile("rw", encoding="ascii", newline="\n") as stream:
            for asked, told in zip(lines[::2], lines[1::2], strict=True):
                stream.write(asked.removeprefix("> ") + "\n")
                stream.flush()
                self.assertEqual("< " + stream.readline().rstrip("\n"), told)

    def test_log_of_the_gate(self) -> None:
        page = section("OPERATING.md", "### The log of who did what")
        (_, logged), (language, shown) = BLOCK.findall(page)
        self.assertEqual([block for each, block in blocks_of(TOP / "docs" / "OPERATING.md") if each == language == "console"], [shown])
        command, _, wanted = shown.partition("\n")
        with tempfile.NamedTemporaryFile("w", encoding="utf-8") as log:
            log.write(logged)
            log.flush()
            words = command.removeprefix("$ ").replace("/var/log/vaultd-gate.log", log.name).split()
            self.assertEqual(said([*program(words[0]), *words[1:]]), wanted)

    def ended(self, call: Sequence[str]) -> "subprocess.CompletedProcess[str]":
        """A program of bench/ that has ended. One that takes too long shows what it said by then."""
        try:
            return subprocess.run(call, cwd=TOP, stdin=subprocess.DEVNULL, stdout=subprocess.PIPE, stderr=subprocess.STDOUT, text=True,
                                  timeout=BENCH_SECONDS, check=False)
        except subprocess.TimeoutExpired as over:
            raise AssertionError(f"it went on for {BENCH_SECONDS} seconds, and had said {over.stdout!r}") from over

    def test_programs_of_bench(self) -> None:
        """Each line of the page, at a hundredth of its size. How long each took is said, too: on a slow disk that shows where time goes."""
        (_, block), = blocks_of(TOP / "bench" / "README.md")
        self.assertGreater(len(block.splitlines()), 15)
        for line in block.splitlines():
            words = line.partition("  #")[0].split()[1:]
            if words[0] in BENCH_NOT_RUN:
                continue
            with self.subTest(line), tempfile.TemporaryDirectory(prefix="vault-test-", dir=MEMORY) as folder:
                meant = {"DISK": folder, "/dev/shm/FOLDER": folder, "PROGRAM": VAULTD, "CLONE": str(TOP)}
                call = ["/usr/bin/python3", *(meant.get(word, word) for word in words), "--tiny", "--program", VAULTD]
                if '"--port"' in text_of(TOP / words[0]):
                    call += ["--port", str(free_port(BENCH_PORTS))]
                began = time.monotonic()
                done = self.ended(call)
                print(f"{words[0]} took {time.monotonic() - began:.1f} s", file=sys.stderr)
                self.assertEqual(done.returncode, 0, done.stdout)
                self.assertIn("|---|", done.stdout)


def bytes_of(block: str, before: bytes = b"", column: int = 11, until: int = 42) -> bytes:
    """The bytes that a block of the page on files shows, after those `before` its first line. `..` stands for these."""
    file = bytearray()
    for line in block.splitlines():
        offset = re.match(r"(?:offset)? *(\d+)$", line[:column - 2]) if column else None
        if offset and not file:
            file += before[:int(offset[1])]
        if offset:
            assert len(file) == int(offset[1]), line
        file += bytes.fromhex(line[column:until].replace("..", before.hex()))
    return bytes(file)


class Files(unittest.TestCase):
    """The worked files of the page on files, made by the program or read by it."""

    def setUp(self) -> None:
        self.server = Server(folder=MEMORY)
        self.addCleanup(self.server.close)
        self.first, self.second = map(Path, self.server.files)
        worked = [block for _, block in BLOCK.findall(section("FORMAT.md", "## Worked files"))]
        self.assertEqual(len(worked), 5)
        self.new = bytes_of(worked[0])
        self.made, self.session = (bytes_of(block, self.new) for block in worked[1:3])
        snapshots = [block for _, block in BLOCK.findall(section("FORMAT.md", "## The snapshot"))]
        self.snapshot, self.longer, self.older = (bytes_of(block, column=0, until=49) for block in snapshots)
        self.renewed, self.again = bytes_of(worked[3]), bytes_of(worked[4], self.snapshot)

    def told(self, *lines: str) -> None:
        """Makes the server do these commands."""
        with self.server.connect() as client, client.makefile("rw", encoding="ascii", newline="\n") as stream:
            for line in lines:
                stream.write(line + "\n")
                stream.flush()
                self.assertEqual(stream.readline()[:2], "OK")

    def inspected(self, first: bytes, second: bytes = b"") -> List[str]:
        """What `vaultd inspect` says of two files."""
        with tempfile.TemporaryDirectory(prefix="vault-test-", dir=MEMORY) as folder:
            for name, content in (("a", first), ("b", second)):
                (Path(folder) / name).write_bytes(content)
            return said([VAULTD, "inspect", f"{folder}/a", f"{folder}/b"]).splitlines()

    def test_new_and_made(self) -> None:
        self.assertEqual((self.first.read_bytes(), self.second.read_bytes()), (self.new, b""))
        self.server.start()
        self.told("hello anna", "make /e")
        self.assertEqual(self.first.read_bytes(), self.made)

    def test_session(self) -> None:
        self.server.start()
        self.told("hello anna", "make /engine")
        self.told("hello anna", "checkout w:/engine")
        self.assertEqual(self.first.read_bytes(), self.session)

    def test_snapshots(self) -> None:
        self.assertEqual([len(each) for each in (self.snapshot, self.longer, self.older, self.renewed)], [34, 82, 32, 59])
        self.assertEqual(self.inspected(self.made, self.renewed)[-1], "c1 anna held w:/e")
        file = self.new[:20] + len(self.longer).to_bytes(4, "big") + self.longer + b"\0"
        self.assertEqual(self.inspected(file)[-3:], ["places 4, versions 2, claims 2, drafts 1", "c1 anna held w:/e/b",
                                                     "c2 ben queued behind c1 r:/e note 6162"])

    def test_renewal_of_older_files(self) -> None:
        version = (1).to_bytes(4, "big")
        self.first.write_bytes(self.made[:8] + version + self.made[12:])
        self.second.write_bytes(self.renewed[:8] + version + self.renewed[12:20] + (32).to_bytes(4, "big") + self.older + b"\0")
        before = self.second.read_bytes()
        self.assertEqual(len(before), 57)
        self.server.start()
        self.told("hello anna")
        for _ in range(100):
            if self.first.read_bytes() == self.again:
                break
            time.sleep(0.05)
        self.assertEqual((self.first.read_bytes(), self.second.read_bytes()), (self.again, before))

    def test_cut_by_hand(self) -> None:
        """What the page on operating has somebody do with a damaged file."""
        command = re.search(r"`(head -c O a > cut; [^`]*)`", section("OPERATING.md", "## A damaged file"))
        assert command is not None
        damaged = self.session[:56] + b"c" + self.session[57:]
        self.assertEqual(self.inspected(damaged)[0], "file a: damaged at 51")
        self.first.write_bytes(damaged)
        subprocess.run(["bash", "-c", command[1].replace(" O ", " 51 ")], cwd=self.first.parent, check=True)
        self.assertEqual(self.inspected((self.first.parent / "cut").read_bytes())[-1], "places 2, versions 0, claims 0, drafts 0")

    def test_what_opening_says(self) -> None:
        page = section("FORMAT.md", "## Opening")
        cuts = re.findall(r"^\| (\d+)(?: to (\d+))? \| (.*) \|$", page, re.MULTILINE)
        self.assertEqual(len(cuts), 4)
        for least, most, says in cuts:
            for length in range(int(least), int(most or least) + 1):
                with self.subTest(length=length):
                    wanted = says.strip("`").replace("a vault with two places", "places 2")
                    self.assertIn(wanted, "\n".join(self.inspected(self.made[:length])))
        changes = {"the head gate to 0": (0, b"\0"), "byte 1 to 0": (1, b"\0"), "the version to 3": (11, b"\3"),
                   "the generation to 0": (19, b"\0"), "the snapshot's length to 11": (23, b"\x0b"),
                   "the frame's length to 0": (38, b"\0"), "its first record's kind to 0x63": (39, b"c"),
                   "the gate at 34 to 7": (34, b"\7")}
        for change, (offset, byte) in changes.items():
            row = re.search(rf"^\|.*{re.escape(change)}.*\| (.*) \|$", page, re.MULTILINE)
            self.assertIsNotNone(row, change)
            says = row[1].strip("`").partition(":")[0].replace("a new vault", "places 1") if row else ""
            with self.subTest(change):
                changed = self.made[:offset] + byte + self.made[offset + 1:]
                self.assertIn(says, "\n".join(self.inspected(changed)))


if __name__ == "__main__":
    unittest.main()
