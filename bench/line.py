#!/usr/bin/env python3
"""How long each call of the line takes, with 0, 64, 128 and 255 claims of 8 items over 297 places: this tree beside an older commit.

usage, at the top of the repository:  python3 bench/line.py [--old COMMIT] [--folder FOLDER] [--runs N]
"""
import argparse
import collections
import datetime
import os
import shutil
import subprocess
import tempfile

COUNTS = [0, 64, 128, 255]
USED = ["vault_state", "design_tree", "lock_table", "long_locks"]


def used_in(text):
    """What each crate of a crates.txt uses."""
    rows = [line.partition("#")[0].partition(":") for line in text.splitlines()]
    return {name.strip(): uses.split() for name, colon, uses in rows if colon}


def below(used, names):
    """These crates of a repository, and all below them."""
    found = {name for name in names if name in used}
    return found.union(*(below(used, used[name]) for name in found))


def crates_of(text):
    """The lines of crates.txt for the crates below the program, and the program's own."""
    used = used_in(text)
    crates = below(used, USED)
    lines = [f"{name}: {' '.join(uses)}\n" for name, uses in used.items() if name in crates]
    return "".join(lines) + f"line_speed: {' '.join(USED)}\n"


def own_tree(folder):
    """The crates of this tree, with what `rt check` left in out/."""
    with open("crates.txt", encoding="utf-8") as file:
        text = file.read()
    for crate in below(used_in(text), USED):
        shutil.copytree(f"crates/{crate}", f"{folder}/crates/{crate}", symlinks=True)
    return text


def old_tree(commit, folder):
    """The crates of a commit that has vault_state. Each is proved from nothing."""
    text = subprocess.run(["git", "show", f"{commit}:crates.txt"], stdout=subprocess.PIPE, text=True, check=True).stdout
    crates = [f"crates/{crate}" for crate in below(used_in(text), USED)]
    packed = subprocess.run(["git", "archive", commit, *crates], stdout=subprocess.PIPE, check=True)
    subprocess.run(["tar", "x", "-C", folder], input=packed.stdout, check=True)
    return text


def built(folder, fill):
    """The program over the crates that `fill` puts there, unless it was built in this folder before."""
    program = f"{folder}/crates/line_speed/out/line_speed"
    if os.access(program, os.X_OK):
        return program
    os.makedirs(f"{folder}/crates", exist_ok=True)
    text = fill(folder)
    with open(f"{folder}/crates.txt", "w", encoding="utf-8") as file:
        file.write(crates_of(text))
    for place, _, names in os.walk("bench/line"):
        to = f"{folder}/crates/line_speed{place[len('bench/line'):]}"
        os.makedirs(to, exist_ok=True)
        for name in names:
            shutil.copyfile(f"{place}/{name}", f"{to}/{name.removesuffix('.txt')}")
    subprocess.run(["rt", "run"], cwd=f"{folder}/crates/line_speed", stdout=subprocess.DEVNULL, check=True)
    return program


def figures(program):
    """The median of each call's runs in nanoseconds; for `covers`, where each run is a place, the slowest place."""
    told = collections.defaultdict(list)
    for row in subprocess.run([program], stdout=subprocess.PIPE, text=True, check=True).stdout.splitlines():
        line, count, call, nanos = row.split("|")
        told[line, call, int(count)].append(int(nanos))
    middle = {key: sorted(runs)[len(runs) // 2] for key, runs in told.items()}
    slowest = {(line, "covers, slowest place", count): max(runs) for (line, call, count), runs in told.items() if call == "covers"}
    return middle | slowest


def least(tables):
    """The least of several runs, call by call: other work on the machine only adds."""
    return {key: min(table[key] for table in tables if key in table) for key in tables[0]}


def shown(name, table):
    print(f"{name}, microseconds:\n")
    print("| Line | Call | " + " | ".join(f"{count} claims" for count in COUNTS) + " |")
    print("|---|---|" + "---|" * len(COUNTS))
    for line, call in dict.fromkeys((line, call) for line, call, _ in table):
        cells = [f"{table[line, call, count] / 1000:.3f}" if (line, call, count) in table else "" for count in COUNTS]
        print(f"| {line} | {call} | " + " | ".join(cells) + " |")
    print()


def main():
    parser = argparse.ArgumentParser(description=__doc__.splitlines()[0])
    parser.add_argument("--old", help="a commit that has vault_state, to time beside this tree in the same run")
    parser.add_argument("--folder", help="where both are built, and found again by a later run; a new one where it isn't given")
    parser.add_argument("--runs", type=int, default=5, help="how often each program runs; the least counts")
    options = parser.parse_args()
    folder = os.path.abspath(options.folder or tempfile.mkdtemp(prefix="vaultd-line-"))
    programs = {"this tree": built(f"{folder}/new", own_tree)}
    if options.old:
        os.makedirs(f"{folder}/{options.old}", exist_ok=True)
        programs[options.old] = built(f"{folder}/{options.old}", lambda at: old_tree(options.old, at))
    tables = {name: [] for name in programs}
    for _ in range(options.runs):
        for name, program in programs.items():
            tables[name].append(figures(program))
    now = datetime.datetime.now().strftime("%d %B %Y, %H:%M")
    print(f"Calls of the line. {now}; load of the machine {os.getloadavg()[0]:.1f}; least of {options.runs} runs.\n")
    for name, each in tables.items():
        shown(name, least(each))


if __name__ == "__main__":
    main()
