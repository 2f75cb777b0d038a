#!/usr/bin/env python3
"""How long `vaultd script` takes, and how much memory: one run of each script, replies not compared.

usage, at the top of the repository:  python3 bench/scripts.py [--program PROGRAM] [--only WORD] [--tiny]
"""
from measure import arguments, head, megabytes, prepared, run_once, sized, table

CONTENT = "61" * 1000
LONGEST_SCRIPT = 16 * 1024 * 1024


def text_of(lines):
    return ("\n".join(lines) + "\n").encode()


def hellos(count):
    return [f"@{k} hello d{k}" for k in range(1, count + 1)]


def tree(projects, assemblies, parts):
    """The lines that make this number of projects, with this number of assemblies in each, and this number of parts in each of these."""
    for p in range(projects):
        yield f"@1 make /p{p}"
        for a in range(assemblies):
            yield f"@1 make /p{p}/a{a}"
            for x in range(parts):
                yield f"@1 make /p{p}/a{a}/x{x}"


def full(options):
    """64 sessions, 1,220 places, 256 check-outs of 8 items that stand, and states up to the 4,096th command."""
    lines = hellos(64) + list(tree(20, 4, 14))
    for n in range(256):
        items = [f"{'w' if n % 3 == 0 and i == 0 else 'r'}:/p{(n + i) % 20}/a{i % 4}/x{n % 14}" for i in range(8)]
        lines.append(f"@{n % 64 + 1} checkout " + " ".join(items))
    lines += [f"@{n % 64 + 1} state c{n % 256 + 1}" for n in range(4096 - len(lines))]
    return text_of(lines[:sized(len(lines), options)])


def extensions(options):
    """250 check-outs that stand, and 3,700 extensions: six of each check-out are done, and another one is in the way of the rest."""
    lines = hellos(1) + list(tree(1, 4, 14)) + ["@1 checkout r:/p0"] * 250
    for n in range(3700):
        intent = "r" if n < 6 * 250 else "w"
        lines.append(f"@1 extend c{n % 250 + 1} {intent}:/p0/a{n % 4}/x{n % 14}")
    return text_of(lines[:sized(len(lines), options)])


def holds(standing):
    """This number of check-outs that stand, and 1,900 holds after them, each given up again."""
    def script(options):
        lines = hellos(1) + list(tree(1, 4, 14)) + ["@1 checkout r:/p0/a0"] * standing
        for n in range(1900):
            lines += [f"@1 hold w:/p0/a0/x{n % 14}", f"@1 release h{n + 1}"]
        return text_of(lines[:sized(len(lines), options)])
    return script


def versions(options):
    """960 parts, of which each is saved twice, checked in and fetched."""
    lines = hellos(2) + list(tree(15, 1, 64))
    for n in range(30):
        place = f"/p{n // 2}/a0"
        parts = [f"{place}/x{x}" for x in range(n % 2 * 32, n % 2 * 32 + 32)]
        lines.append(f"@1 checkout w:{place}")
        lines += [f"@1 save c{n + 1} {part} {CONTENT}" for part in parts] * 2
        lines.append(f"@1 checkin c{n + 1}")
    lines += [f"@2 fetch /p{p}/a0/x{x} 1" for p in range(15) for x in range(64)]
    return text_of(lines[:sized(len(lines), options)])


def saves(count):
    """This number of saves of one part, each with a commit, 4,000 in a life."""
    def script(options):
        lines = []
        for n in range(sized(count, options)):
            if n % 4000 == 0:
                lines += ["!crash new"] if n else []
                lines += hellos(1) + ([] if n else list(tree(1, 1, 1)) + ["@1 checkout w:/p0"])
            lines += [f"@1 save c1 /p0/a0/x0 {CONTENT}", "!commit"]
        return text_of(lines)
    return script


def filled_with(line):
    """16 MiB of one line."""
    def script(options):
        return (line + b"\n") * (sized(LONGEST_SCRIPT, options) // (len(line) + 1))
    return script


SCRIPTS = [
    ("empty", lambda options: b""),
    ("4,096 commands: 64 sessions, 1,220 places, 256 standing check-outs of 8 items, then states", full),
    ("4,012 commands: 250 standing check-outs, then 3,700 extensions", extensions),
    *[(f"3,800 commands: 1,900 holds, each given up, behind {standing} standing check-outs that look there", holds(standing))
      for standing in (0, 64, 128, 250)],
    ("3,932 commands: 990 places, 30 check-outs, 1,920 saves of 1,000 bytes, 30 check-ins, 960 fetches", versions),
    ("500 saves of 1,000 bytes, each with a commit", saves(500)),
    ("1,000 such saves", saves(1000)),
    ("2,000 such saves", saves(2000)),
    ("4,000 such saves", saves(4000)),
    ("7,800 such saves in two lives", saves(7800)),
    ("16 MiB of comments and bad lines", filled_with(b"# a comment\nno line of a script")),
    ("16 MiB of lines `x`", filled_with(b"x")),
    ("16 MiB of lines `@1 `", filled_with(b"@1 ")),
    ("16 MiB of check-outs of 800 words", filled_with(b"@1 checkout" + b" r:/" * 800)),
]


def main():
    parser = arguments("How long scripts take.")
    parser.add_argument("--only", default="", help="the scripts with this word in their names")
    options = parser.parse_args()
    program, _ = prepared(options)
    head(program, "Scripts, one run each")

    def rows():
        for name, script in SCRIPTS:
            if options.only in name:
                given = script(options)
                wall, memory, told = run_once(program, ["script"], given)
                yield name, f"{len(given) / 1e6:.1f} MB", f"{wall * 1000:,.0f} ms", f"{len(told) / 1e6:.1f} MB", megabytes(memory)
    table(("Script", "Its bytes", "Wall", "Replies", "Resident memory"), rows())


if __name__ == "__main__":
    main()
