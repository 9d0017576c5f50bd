#!/usr/bin/env python3
"""edits.py: a script given to `edit` leaves the bytes that its lines leave as commands one by one; a line that isn't done ends it, and nothing is saved."""
import random
import shutil

from command import Checks, Folder, csv, drawn

SEEDS = range(1, 13)
# Of slots and of the present: most may go, some later in the script, some never.
YEARS = (1, 1, 1, 1, 0, 2030, 2031, 65535)
PRESENTS = (0, 2029, 2030, 2031)
LINES = 24
KINDS = (("--bits", "4"), ("--bits", "5"), ("--bits", "6"), ("--residual",), ("--working", "3"), ())


def vectors_file(folder, draw, name, dim):
    """A file of one to three vectors, and the option that it is added by."""
    option = draw.choice(("", "--keyed", "--multi"))
    rows = [drawn(draw, dim) for _ in range(draw.randrange(1, 4))]
    keys = [draw.choice((1, 2, 3, 4, 2**64 - 1, None)) for _ in rows]
    (folder / name).write_bytes(csv(rows, keys if option else None))
    return option


def drawn_line(folder, draw, number, dim, slots):
    """Words of a line: some that can't be done are among them."""
    kind = draw.randrange(10)
    key = draw.choice((1, 2, 3, 4, 2**64 - 1, 9))
    if kind < 5:
        option = vectors_file(folder, draw, f"rows{number}.csv", dim)
        present = ("--present", str(draw.choice(PRESENTS))) if option == "--keyed" else ()
        return ["add", f"rows{number}.csv", "--year", str(draw.choice(YEARS)), *([option] if option else []), *present]
    if kind < 7:
        return ["relabel", str(key), str(draw.choice((1, 2, 3, 4, 5, 9)))]
    if kind < 9:
        return ["remove", str(key), "--slot", str(draw.randrange(slots + 1)), "--present", str(draw.choice(PRESENTS))]
    return ["remove", str(key), "--present", str(draw.choice(PRESENTS))]


def live(ran_out):
    return int(dict(line.split("\t") for line in ran_out.splitlines())["live"])


def one_by_one(folder, draw, dim):
    """Draws lines and makes each a command on one.vecq: those that were done, and those that weren't with the place and how they ended."""
    kept, turned_down, slots = [], [], 0
    for number in range(LINES):
        words = drawn_line(folder, draw, number, dim, slots)
        before = (folder / "one.vecq").read_bytes()
        ran = folder.vecq(words[0], "one.vecq", *words[1:])
        if ran.status == 0:
            kept.append(words)
            slots = live(ran.out) if ran.out else slots
        else:
            turned_down.append((len(kept), words, ran, before))
    return kept, turned_down


def as_script(draw, lines):
    """The lines with comments and empty lines among them, and the number of the last line."""
    text = []
    for words in lines:
        while draw.random() < 0.3:
            text.append(draw.choice(("", "# a comment", "   ")))
        text.append(" ".join(words))
    return "".join(f"{line}\n" for line in text).encode(), len(text)


def check_scripts(checks, seed):
    draw, folder = random.Random(seed), Folder()
    dim = draw.choice((3, 4, 8))
    kind = KINDS[seed % len(KINDS)]
    folder.done("new", "one.vecq", "--dim", dim, "--seed", seed, *kind)
    shutil.copy(folder / "one.vecq", folder / "start.vecq")
    kept, turned_down = one_by_one(folder, draw, dim)
    shutil.copy(folder / "start.vecq", folder / "all.vecq")
    script, _ = as_script(draw, kept)
    ran = folder.vecq("edit", "all.vecq", stdin=script)
    checks.equal(f"seed {seed}: the script is done", (ran.status, ran.err.replace("vecq: slots were renumbered: all.vecq\n", "")), (0, ""))
    one, whole = (folder / "one.vecq").read_bytes(), (folder / "all.vecq").read_bytes()
    checks.that(f"seed {seed}: {len(kept)} lines at once and one by one", one == whole, f"{len(whole)} bytes and {len(one)}")
    said = dict(line.split("\t") for line in ran.out.splitlines())
    checks.equal(f"seed {seed}: bytes", said.get("bytes"), str(len(one)))
    for place, words, alone, before in turned_down:
        check_ended(checks, folder, draw, kept[:place] + [words], alone, f"seed {seed}: {' '.join(words)}")


def check_ended(checks, folder, draw, lines, alone, what):
    """A script whose last line isn't done: said as the line alone was, with its number, and the file as it was."""
    shutil.copy(folder / "start.vecq", folder / "all.vecq")
    script, last = as_script(draw, lines)
    ran = folder.vecq("edit", "all.vecq", stdin=script + b"remove 1 --present 1\n")
    said = alone.err.removeprefix("vecq: ").replace("one.vecq", "all.vecq")
    checks.equal(what, (ran.status, ran.out, ran.err), (alone.status, "", f"vecq: line {last}: {said}"))
    checks.that(f"{what}: nothing saved", (folder / "all.vecq").read_bytes() == (folder / "start.vecq").read_bytes(), "the file changed")
    checks.that(f"{what}: nothing left", not [name for name in folder.names() if name.startswith("all.vecq.")], folder.names())


def main():
    checks = Checks("edit and its lines one by one")
    for seed in SEEDS:
        check_scripts(checks, seed)
    checks.end()


if __name__ == "__main__":
    main()
