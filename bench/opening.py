#!/usr/bin/env python3
"""How long it takes to read the files of a vault: `vaultd inspect` over journals of several sizes, many runs each.

The files are written by this program, by docs/FORMAT.md. `inspect` reads as the server's opening does, but without its two syncs, and
prints a report, so the time of a new vault is taken off.

usage, at the top of the repository:  python3 bench/opening.py [--program PROGRAM] [--folder FOLDER] [--runs N] [--tiny]
"""
import os
import statistics

from measure import arguments, head, megabytes, prepared, run_once, sized, table

MAX_RECORDS = 262139
PARTS = 64
# What each journal is called, about how many MiB of records it has, and how many bytes each content has.
JOURNALS = [("1 MiB", 1, 1024), ("2 MiB", 2, 1024), ("4 MiB", 4, 1024), ("8 MiB", 8, 1024), ("16 MiB, all that a vault holds", 16, 1024),
            ("1 MiB, contents of 16 bytes", 1, 16)]


def number(n, size):
    return n.to_bytes(size, "big")


def name(text):
    return bytes([len(text)]) + text.encode()


def made(parent, text):
    return b"\x01" + number(parent, 4) + name(text)


def asked(claim, place):
    return b"\x02" + number(claim, 4) + name("anna") + b"\x01\x01" + number(place, 4)


def saved(claim, place, content):
    return b"\x04" + number(claim, 4) + number(place, 4) + number(len(content), 2) + content


def checked_in(claim):
    return b"\x05" + number(claim, 4)


def records(size, content):
    """Records of about this many bytes in all: an assembly of 64 parts, checked out, saved and checked in again and again."""
    made_so_far = [made(0, "e"), made(1, "b")] + [made(2, f"x{n}") for n in range(PARTS)]
    yield from made_so_far
    total, claim = sum(map(len, made_so_far)), 0
    while total < size:
        claim += 1
        turn = [asked(claim, 2)] + [saved(claim, 3 + n, content) for n in range(PARTS)] + [checked_in(claim)]
        yield from turn
        total += sum(map(len, turn))


def file_of(all_records):
    """The bytes of a new vault's file with these records in frames, as full as they may be."""
    snapshot = number(0, 4) + number(1, 4) + number(0, 2)
    out = [b"\x01LLVAULT" + number(2, 4) + number(1, 8) + number(len(snapshot), 4) + snapshot]
    frame, length, count = [], 0, 0

    def close():
        out.append(b"\x01" + number(length, 4) + b"".join(frame))

    for record in all_records:
        count += 1
        if length + len(record) > MAX_RECORDS:
            close()
            frame, length = [], 0
        frame.append(record)
        length += len(record)
    if frame:
        close()
    return b"".join(out) + b"\x00", count


def measured(program, folder, content, runs):
    """The wall times of some runs over such a file, the memory of the last, and what it printed."""
    first, second = os.path.join(folder, "vault.a"), os.path.join(folder, "vault.b")
    with open(first, "wb") as file:
        file.write(content)
    open(second, "wb").close()
    done = [run_once(program, ["inspect", first, second]) for _ in range(runs)]
    if b"damaged" in done[-1][2] or b"no vault" in done[-1][2]:
        raise SystemExit(f"the file isn't opened: {done[-1][2].decode()}")
    return [wall for wall, _, _ in done], done[-1][1]


def main():
    parser = arguments("How long it takes to read a vault's files.")
    parser.add_argument("--runs", type=int, default=40, help="how often each file is read, 40 where it isn't given")
    options = parser.parse_args()
    program, folder = prepared(options)
    head(program, f"Reading two files, {options.runs} runs each")
    empty, _ = measured(program, folder, file_of([])[0], options.runs)
    start = statistics.median(empty)

    def rows():
        for label, mebibytes, content in JOURNALS:
            bytes_of_file, count = file_of(records(sized(mebibytes << 20, options), b"a" * content))
            walls, memory = measured(program, folder, bytes_of_file, options.runs)
            smallest, median = min(walls) - min(empty), statistics.median(walls) - start
            yield label, f"{count:,}", f"{smallest * 1000:.1f} ms", f"{median * 1000:.1f} ms", megabytes(memory)
        yield "a new vault, not taken off", "0", f"{min(empty) * 1000:.1f} ms", f"{start * 1000:.1f} ms", ""
    table(("Journal", "Records", "Smallest", "Median", "Resident memory"), rows())


if __name__ == "__main__":
    main()
