#!/usr/bin/env python3
"""What an office waits for: a folder of files in and out, a question, a check-out and a check-in of one part, by the client of this tree, by that
of another tree, and by Subversion over svnserve, by turns.

usage, at the top of the repository:  python3 bench/office.py [--program PROGRAM] [--folder FOLDER] [--before CLONE] [--files N] [--assemblies N]
                                      [--bytes N] [--rounds N] [--port P] [--tiny]
Each figure is the median of the rounds, the wall time of the commands as a shell has it. --before names a clone whose client does the same; it
may have no `vault import`: then it does what its user had to do. Without svnserve, which Debian's package subversion has, its column is left out.
"""
import os
import random
import shutil
import socket
import statistics
import subprocess
import sys
import time
import tomllib

from measure import arguments, head, prepared, table

# How many seconds a server has for its start.
STARTED_WITHIN = 60
STEPS = ("in", "out", "status", "mine", "who", "check-out of one", "check-in of one")


def timed(words, **more):
    """How long some commands take, one behind the other."""
    began = time.monotonic()
    for each in words:
        done = subprocess.run(each, stdout=subprocess.PIPE, stderr=subprocess.PIPE, check=False, text=True, **more)
        if done.returncode:
            raise SystemExit(f"office.py: {' '.join(each)}: {done.stdout}{done.stderr}")
    return time.monotonic() - began


def lay(folder, options):
    """Writes the files of an office."""
    chance = random.Random(1)
    for number in range(options.assemblies):
        os.makedirs(os.path.join(folder, f"Baugruppe {number}"))
    for number in range(options.files):
        size = int(options.bytes / options.files * chance.uniform(0.2, 1.8))
        with open(os.path.join(folder, f"Baugruppe {number % options.assemblies}", f"Teil {number}.SLDPRT"), "wb") as file:
            file.write(chance.randbytes(size))


class Vault:
    """A designer of a vault, by the client of a clone."""

    def __init__(self, folder, clone, options):
        self.folder, self.imports = folder, os.path.exists(os.path.join(clone, "python/vault/src/vault/cli/import_commands.py"))
        state = os.path.join(folder, "state")
        source = os.path.join(clone, "python", "vault", "src")
        with open(os.path.join(clone, "python", "vault", "pyproject.toml"), "rb") as file:
            module, _, function = tomllib.load(file)["project"]["scripts"]["vault"].partition(":")
        self.start = f"import sys\nfrom {module} import {function}\nsys.exit({function}())\n"
        # as an installation does; what can't be written costs time alone
        subprocess.run([sys.executable, "-m", "compileall", "-qq", source], check=False)
        self.environment = {**os.environ, "PYTHONPATH": source, "XDG_STATE_HOME": state, "XDG_CACHE_HOME": state}
        self.said("hello", f"anna@127.0.0.1:{options.port}")
        self.round, self.assemblies = 0, options.assemblies

    def said(self, *words):
        """How long a command takes, begun as by the script of an installation."""
        return timed([[sys.executable, "-c", self.start, *words]], env=self.environment)

    def all_said(self, *every):
        """How long some commands take."""
        return sum(self.said(*words) for words in every)

    def rounds(self, files):
        """The times of one round: a folder goes in, comes out elsewhere, and one part is worked on."""
        self.round += 1
        place, work, out = f"/{os.path.basename(self.folder)}{self.round}", f"{self.folder}/in{self.round}", f"{self.folder}/out{self.round}"
        names = [f"baugruppe_{number}" for number in range(self.assemblies)]
        if self.imports:
            shutil.copytree(files, work)
            times = [self.said("import", work, place, "--yes", "--in-parts")]
        else:
            times = [self.all_said(("make", place), *(("make", f"{place}/{name}") for name in names), ("get", place, "--to", work))]
            for number, name in enumerate(names):
                shutil.copytree(f"{files}/Baugruppe {number}", f"{work}/{name}", dirs_exist_ok=True)
            times[0] += self.said("add", *(f"{work}/{name}/{file}" for name in names for file in os.listdir(f"{work}/{name}")))
            times[0] += sum(self.all_said(("checkout", f"w:{place}/{name}"), ("checkin", work)) for name in names)
        times += [self.said("get", place, "--to", out), self.said("status", out), self.said("mine"), self.said("who", place)]
        times.append(self.said("checkout", f"w:{place}/baugruppe_0/teil_0_sldprt"))
        changed = next(path for path in (f"{out}/Baugruppe 0/Teil 0.SLDPRT", f"{out}/baugruppe_0/Teil 0.SLDPRT") if os.path.exists(path))
        with open(changed, "ab") as file:
            file.write(b"changed")
        times.append(self.said("checkin", out))
        shutil.rmtree(work)
        shutil.rmtree(out)
        return times


class Subversion:
    """The same by Subversion."""

    def __init__(self, folder, port):
        self.folder, self.url, self.round = folder, f"svn://127.0.0.1:{port}/all", 0
        timed([["svnadmin", "create", f"{folder}/all"]])
        for name, text in (("svnserve.conf", "[general]\nanon-access = read\nauth-access = write\npassword-db = passwd\n"),
                           ("passwd", "[users]\nanna = anna\n")):
            with open(f"{folder}/all/conf/{name}", "w", encoding="ascii") as file:
                file.write(text)
        self.server = subprocess.Popen(["svnserve", "-d", "--foreground", "--listen-host", "127.0.0.1", "--listen-port", str(port), "-r", folder])
        wait_for(port)

    def rounds(self, files):
        """The times of one round."""
        self.round += 1
        url, out = f"{self.url}/r{self.round}", f"{self.folder}/out{self.round}"
        times = [self.said("import", "-m", "in", files, url), self.said("checkout", url, out)]
        times += [self.said("status", out), None, self.said("info", "-R", url)]
        changed = f"{out}/Baugruppe 0/Teil 0.SLDPRT"
        times.append(self.said("lock", changed))
        with open(changed, "ab") as file:
            file.write(b"changed")
        times.append(self.said("commit", "-m", "one", out))
        shutil.rmtree(out)
        return times

    @staticmethod
    def said(*words):
        """How long a command takes."""
        quiet = [] if words[0] in ("status", "info") else ["-q"]
        return timed([["svn", *words, *quiet, "--non-interactive", "--no-auth-cache", "--username", "anna", "--password", "anna"]])

    def close(self):
        """Ends the server."""
        self.server.terminate()
        self.server.wait()


def wait_for(port):
    """Waits for a server."""
    until = time.monotonic() + STARTED_WITHIN
    while time.monotonic() < until:
        try:
            socket.create_connection(("127.0.0.1", port)).close()
            return
        except OSError:
            time.sleep(0.05)
    raise SystemExit(f"office.py: no server answers at port {port}")


def measured(folder, options, program):
    """The times of each by name, round by round, each time another one first."""
    files = f"{folder}/files"
    os.makedirs(files)
    lay(files, options)
    subprocess.run([program, "create", f"{folder}/a", f"{folder}/b"], check=True, stdout=subprocess.DEVNULL)
    server = subprocess.Popen([program, "serve", f"{folder}/a", f"{folder}/b", f"127.0.0.1:{options.port}", "--workers", "16"],
                              stdout=subprocess.DEVNULL)
    others = []
    try:
        wait_for(options.port)
        clones = {"before": options.before, "this": "."} if options.before else {"this": "."}
        for name in (*clones, "svn"):
            os.makedirs(f"{folder}/{name}")
        who = {name: Vault(f"{folder}/{name}", os.path.abspath(clone), options) for name, clone in clones.items()}
        next(iter(who.values())).said("store", "set", f"file://{folder}/store")
        for one in list(who.values())[1:]:
            one.said("store", "confirm", f"file://{folder}/store")
        if shutil.which("svnserve"):
            who["svn"] = Subversion(f"{folder}/svn", options.port + 1)
            others.append(who["svn"])
        names = list(who)
        found = {name: [] for name in names}
        for number in range(options.rounds):
            for name in names[number % len(names):] + names[:number % len(names)]:
                found[name].append(who[name].rounds(files))
        return found
    finally:
        for each in others:
            each.close()
        server.kill()
        server.wait()


def main():
    parser = arguments("What an office waits for, by turns with another client and Subversion.")
    parser.add_argument("--before", default="", help="a clone whose client is measured, too")
    parser.add_argument("--files", type=int, default=300)
    parser.add_argument("--assemblies", type=int, default=6, help="of at most 63 files each; a vault holds 4,096 places, all rounds together")
    parser.add_argument("--bytes", type=int, default=115_000_000, help="of all files")
    parser.add_argument("--rounds", type=int, default=3)
    parser.add_argument("--port", type=int, default=7171, help="of the vault's server; svnserve takes the next one")
    options = parser.parse_args()
    if options.tiny:
        options.files, options.bytes, options.rounds = 12, 100_000, 1
    program, folder = prepared(options)
    folder = os.path.abspath(folder)
    head(program, f"{options.files} files of {options.bytes:,} bytes in {options.assemblies} assemblies, {options.rounds} rounds by turns")
    found = measured(folder, options, program)
    rows = []
    for number, step in enumerate(STEPS):
        times = [[each[number] for each in found[name] if each[number] is not None] for name in found]
        rows.append((step, *(f"{statistics.median(each):.2f} s" if each else "" for each in times)))
    table(("Step", *found), rows)


if __name__ == "__main__":
    main()
