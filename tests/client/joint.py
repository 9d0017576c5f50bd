#!/usr/bin/env python3
"""joint.py: two houses with the same bytes file the same list; `same` says so, or the first line at which lists part."""
import random
import shutil

from command import Checks, Folder, csv, drawn, fvecs

KINDS = (("--bits", "4"), ("--bits", "5"), ("--bits", "6"), ("--residual",), ("--working", "7"))
DIM = 12


def house(kind):
    """A folder with an index that was built there, changed too, and queries."""
    folder, draw = Folder(), random.Random(5)
    folder.done("new", "games.vecq", "--dim", DIM, "--seed", 7, *kind)
    rows = [drawn(draw, DIM) for _ in range(60)]
    keys = [None if i % 9 == 0 else i // 2 for i in range(60)]
    (folder / "rows.csv").write_bytes(csv(rows, keys))
    folder.done("add", "games.vecq", "rows.csv", "--multi", "--year", 2030)
    folder.done("remove", "games.vecq", 3, "--present", 2030)
    folder.done("relabel", "games.vecq", 4, 1000)
    queries = [drawn(draw, DIM) for _ in range(5)]
    (folder / "queries.csv").write_bytes(csv(queries))
    (folder / "queries.fvecs").write_bytes(fvecs(queries))
    return folder


def second_house(first):
    """Has a copy of the bytes, and the queries in the other form."""
    folder = Folder()
    shutil.copy(first / "games.vecq", folder / "copy.vecq")
    shutil.copy(first / "queries.fvecs", folder / "queries.fvecs")
    return folder


def check_kind(checks, kind):
    name = " ".join(kind)
    ours = house(kind)
    theirs = second_house(ours)
    ours.done("file", "games.vecq", "queries.csv", "-k", 10, "-o", "list")
    theirs.done("file", "copy.vecq", "queries.fvecs", "-k", 10, "-o", "list")
    checks.equal(f"{name}: the lists of two houses", (ours / "list").read_bytes(), (theirs / "list").read_bytes())
    ran = ours.vecq("same", "list", theirs / "list")
    checks.equal(f"{name}: same", (ran.status, ran.out, ran.err), (0, "", ""))
    found = ours.done("find", "games.vecq", "queries.csv", "-k", 10, "--by", "slot", "--format", "tsv")
    checks.equal(f"{name}: find prints what is filed", found.out, (ours / "list").read_text())
    check_changed_bit(checks, name, ours, theirs)
    check_changed_lists(checks, name, ours)


def check_changed_bit(checks, name, ours, theirs):
    """A bit of a code or scale changed: another hash, so the lists part at the line that has it."""
    file = (theirs / "copy.vecq").read_bytes()
    for at in (40, len(file) // 3):
        changed = bytearray(file)
        changed[at] ^= 1
        (theirs / "copy.vecq").write_bytes(changed)
        theirs.done("file", "copy.vecq", "queries.fvecs", "-k", 10, "-o", "list")
        one, other = (ours / "list").read_text().splitlines(), (theirs / "list").read_text().splitlines()
        ran = ours.vecq("same", "list", theirs / "list")
        checks.equal(f"{name}: a changed bit at {at}", (ran.status, ran.out, ran.err), (1, f"line 2\n< {one[1]}\n> {other[1]}\n", ""))
    (theirs / "copy.vecq").write_bytes(file)


def check_changed_lists(checks, name, ours):
    """Each line of a list changed at one place, left out, or put behind its end."""
    lines = (ours / "list").read_text().splitlines(keepends=True)
    for number in range(1, len(lines) + 1):
        line = lines[number - 1].rstrip("\n")
        digit = next((at for at in reversed(range(len(line))) if line[at].isdigit()), None)
        other = line[:digit] + str((int(line[digit]) + 1) % 10) + line[digit + 1:]
        (ours / "other").write_text("".join(lines[: number - 1]) + other + "\n" + "".join(lines[number:]))
        ran = ours.vecq("same", "list", "other")
        checks.equal(f"{name}: line {number} changed", (ran.status, ran.out), (1, f"line {number}\n< {line}\n> {other}\n"))
        if number > 3:
            (ours / "other").write_text("".join(lines[: number - 1]))
            ran = ours.vecq("same", "list", "other")
            checks.equal(f"{name}: ended before line {number}", (ran.status, ran.out), (1, f"line {number}\n< {line}\n> (ended)\n"))
            ran = ours.vecq("same", "other", "list")
            checks.equal(f"{name}: ended before line {number}, first", (ran.status, ran.out), (1, f"line {number}\n< (ended)\n> {line}\n"))


def main():
    checks = Checks("two houses, one list")
    for kind in KINDS:
        check_kind(checks, kind)
    checks.end()


if __name__ == "__main__":
    main()
