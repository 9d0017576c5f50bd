#!/usr/bin/env python3
"""damaged.py: inputs that were cut or damaged, as index, vectors, script and list: every command ends by a status of its own, says why in a line, never panics,
and leaves FILE as it was unless it is done."""
import random
import re

from command import Checks, Folder, csv, drawn, fvecs

ROUNDS = 40
DIM = 5
SCRIPT = """add rows.csv --year 2036 --keyed --present 2030
relabel 1 9
remove 9 --present 2036
remove 2 --slot 3 --present 2036
add rows.fvecs --year 0 --multi
"""


def damaged(draw, data):
    """The bytes cut, with some changed, or with others between them."""
    data, kind = bytearray(data), draw.randrange(4)
    if kind == 0:
        del data[draw.randrange(len(data) + 1):]
    elif kind == 1:
        at = draw.randrange(len(data) + 1)
        data[at:at] = draw.randbytes(draw.randrange(1, 9))
    else:
        for _ in range(draw.choice((1, 1, 2, 8))):
            data[draw.randrange(len(data))] = draw.choice((0, 9, 10, 13, 32, 44, 45, 46, 48, 255, draw.randrange(256)))
    return bytes(data)


def prepared():
    folder, draw = Folder(), random.Random(11)
    folder.done("new", "i.vecq", "--dim", DIM, "--bits", 4)
    rows = [drawn(draw, DIM) for _ in range(12)]
    (folder / "rows.csv").write_bytes(csv(rows, [i % 5 if i % 3 else None for i in range(12)]))
    (folder / "rows.fvecs").write_bytes(fvecs(rows))
    (folder / "rows.keys").write_text("".join(f"{i}\n" for i in range(12)))
    folder.done("add", "i.vecq", "rows.csv", "--multi", "--year", 2030)
    folder.done("find", "i.vecq", "rows.fvecs", "-o", "list")
    (folder / "script").write_text(SCRIPT)
    return folder


# What is damaged, and the commands that read it; `script` is their standard input.
USES = (
    ("i.vecq", (
        "info i.vecq --slots", "check i.vecq", "keys i.vecq", "find i.vecq rows.fvecs --cascade 3", "find i.vecq rows.fvecs --by key",
        "score i.vecq rows.fvecs --slot 2", "relabel i.vecq 1 77", "remove i.vecq 2 --present 2030", "add i.vecq rows.csv --year 1 --keyed --present 2030",
        "edit i.vecq",
    )),
    ("rows.csv", (
        "add i.vecq rows.csv --year 1 --multi", "add i.vecq rows.csv --year 0", "find i.vecq rows.csv --keyed --format json", "find i.vecq rows.csv --header",
    )),
    ("rows.fvecs", ("add i.vecq rows.fvecs --year 1 --keyed --present 2030", "file i.vecq rows.fvecs -k 2 -o out")),
    ("rows.keys", ("add i.vecq rows.fvecs --year 1 --multi",)),
    ("script", ("edit i.vecq",)),
    ("list", ("same list kept",)),
)
# What is said with each status. A refusal has one of the numbers of documents 01 and 02, but never 13.
SAID = {
    0: "",
    1: r"(vecq: [^\n]+\n)?",
    2: r"vecq: [^\n]+\n(try: vecq help \w+\n)?",
    3: r"vecq: (line \d+: )?refused ([1-9]|1[0-24-9]|2[01]): [^\n]+\n",
    4: r"vecq: [^\n]+\n",
}


def check_use(checks, folder, kept, name, words):
    """One command over what is damaged."""
    before = (folder / "i.vecq").read_bytes()
    ran = folder.vecq(*words.split(" "), stdin=(folder / "script").read_bytes())
    what = f"{words}, {name} damaged: {(folder / name).read_bytes()[:80]!r}"
    checks.that(f"{what}: a status", ran.status in range(5), ran)
    said = ran.err.removeprefix("vecq: slots were renumbered: i.vecq\n")
    checks.that(f"{what}: what is said", re.fullmatch(SAID.get(ran.status, "(?!)"), said), ran)
    checks.that(f"{what}: the file", ran.status == 0 or (folder / "i.vecq").read_bytes() == before, "it changed")
    if ran.status == 0 and name == "i.vecq":
        checks.equal(f"{what}: sound afterwards", folder.vecq("check", "i.vecq").status, 0)
    for path, data in kept.items():
        (folder / path).write_bytes(data)


def main():
    checks, draw, folder = Checks("inputs that were cut or damaged"), random.Random(12), prepared()
    kept = {name: (folder / name).read_bytes() for name in folder.names()}
    kept["kept"] = kept["list"]
    (folder / "kept").write_bytes(kept["list"])
    for number in range(ROUNDS):
        for name, uses in USES:
            (folder / name).write_bytes(damaged(draw, kept[name]))
            check_use(checks, folder, kept, name, draw.choice(uses))
    checks.equal("nothing is left", [name for name in folder.names() if name.endswith((".new", ".lock"))], [])
    checks.end()


if __name__ == "__main__":
    main()
