#!/usr/bin/env python3
"""judged.py: what the command prints of drawn indexes and queries, set beside what tools without a part in it say (tools.py)."""
import json
import random

import tools
from command import Checks, Folder

SEEDS = range(1, 11)
KINDS = (("--bits", "4"), ("--bits", "5"), ("--bits", "6"), ("--residual",), ())
# Games with one trait (document 02, Req 05): residual, and of 4 bits.
ONE_TRAIT = (8, 10)
# Retention years that slots get, and present years; past the last one every slot may go.
YEARS = (1, 1, 2, 0x0102, 2030)
PRESENTS = (0, 1, 2029, 2030)
# Decimals that a rounding in two steps gets wrong, halfway cases, the ends of the range.
DECIMALS = (
    "1.00000005960464477539062500000001", "1.000000059604644775390625", "1.00000017881393432617187499999999", "16777217", "16777219", "0.1", "-0.3", "1e-3",
    "+2.5", ".5", "5.", "1E2", "0.000000000000000000000000000000000000011754943508222875", "7.0064923216240853546186479164495806564013097093825788587853e-10",
    "123456789012345678", "-0.0", "3.4028234663852886e18", "1.1754942807573643e-19",
)


def drawn_decimal(draw):
    kind = draw.randrange(4)
    if kind == 0:
        return draw.choice(DECIMALS)
    if kind == 1:
        return repr(draw.uniform(-4, 4))
    if kind == 2:
        return f"{draw.randrange(-999, 1000)}e{draw.randrange(-4, 3)}"
    return str(draw.randrange(-9, 10))


def drawn_row(draw, dim):
    """The first entry isn't near 0: an index may store that one alone."""
    return [draw.choice(("1", "-2.5", "0.1", "1.00000005960464477539062500000001")), *(drawn_decimal(draw) for _ in range(dim - 1))]


def as_text(draw, rows, keys):
    """The rows as text, the entries parted by whatever may part them."""
    lines = []
    for number, row in enumerate(rows):
        if draw.random() < 0.2:
            lines.append(draw.choice(("", "# a comment", "   ")))
        by = draw.choice((",", " ", "\t", ", ", ";", " \t "))
        fields = row if keys is None else [keys[number], *row]
        lines.append(by.join(fields))
    end = draw.choice(("\n", "\r\n"))
    return (draw.choice(("", "\ufeff")) + "".join(line + end for line in lines)).encode()


def as_fvecs(rows):
    return b"".join(len(row).to_bytes(4, "little") + tools.packed(row) for row in rows)


class Case:
    """A folder with an index of drawn rows, added in two parts with a year each, its file's bytes, and drawn queries."""

    def __init__(self, seed):
        self.draw, self.folder, self.name = random.Random(seed), Folder(), f"seed {seed}"
        draw = self.draw
        self.dim = 1 if seed in ONE_TRAIT else draw.choice((2, 3, 5, 8, 17))
        self.kind = KINDS[seed % len(KINDS)]
        self.index_seed = draw.choice((0, 1, 2**64 - 1, draw.getrandbits(64)))
        self.more = ("--working", draw.randrange(1, self.dim + 1)) if "--residual" not in self.kind and draw.random() < 0.4 else ()
        self.folder.done("new", "i.vecq", "--dim", self.dim, "--seed", self.index_seed, *self.kind, *self.more)
        self.rows = [drawn_row(draw, self.dim) for _ in range(draw.randrange(1, 40))]
        self.keys = [draw.choice(("-", "1", "2", "3", "18446744073709551615")) for _ in self.rows]
        self.half = draw.randrange(len(self.rows))
        self.years = [draw.choice(YEARS)] * self.half + [draw.choice(YEARS)] * (len(self.rows) - self.half)
        for part in (slice(0, self.half), slice(self.half, None)):
            (self.folder / "rows.csv").write_bytes(as_text(draw, self.rows[part], self.keys[part]))
            self.ran = self.folder.done("add", "i.vecq", "rows.csv", "--multi", "--year", self.years[part][0] if self.years[part] else 1)
        self.file = (self.folder / "i.vecq").read_bytes()
        self.queries = [drawn_row(draw, self.dim) for _ in range(4)]
        self.patterns = [[tools.binary32(x) for x in row] for row in self.queries]
        (self.folder / "q.txt").write_bytes(as_text(draw, self.queries, None))
        (self.folder / "q.fvecs").write_bytes(as_fvecs(self.patterns))


def check_added(checks, case):
    """The bytes are those that `exercise` writes of the rows as exact rounding has them."""
    kind = "residual" if "--residual" in case.kind else "working"
    working = case.more[1] if case.more else case.dim
    making = f"residual {case.dim:x} {case.index_seed:x}" if kind == "residual" else f"working {case.dim:x} {working:x} {case.index_seed:x}"
    bits = [f"bits {case.kind[1]}"] if "--bits" in case.kind else []
    vectors = [tools.vector([tools.binary32(x) for x in row]) for row in case.rows]
    adds = [(f"add {v} {year:x}" if key == "-" else f"add_multi {int(key):x} {v} {year:x}") for key, v, year in zip(case.keys, vectors, case.years)]
    written = tools.exercise([tools.LEND, making, *bits, *adds, "write 10000"])[-1]
    checks.equal(f"{case.name}: the file", case.file.hex(), written.removeprefix("bytes "))
    checks.equal(f"{case.name}: what add says", case.ran.out, f"added\t{len(case.rows) - case.half}\nlive\t{len(case.rows)}\nbytes\t{len(case.file)}\n")
    # The same rows as .fvecs with a .keys file beside it.
    case.folder.done("new", "f.vecq", "--dim", case.dim, "--seed", case.index_seed, *case.kind, *case.more)
    for part in (slice(0, case.half), slice(case.half, None)):
        (case.folder / "rows.fvecs").write_bytes(as_fvecs([[tools.binary32(x) for x in row] for row in case.rows[part]]))
        (case.folder / "rows.keys").write_text("".join(f"{key}\n" for key in case.keys[part]))
        case.folder.done("add", "f.vecq", "rows.fvecs", "--multi", "--year", case.years[part][0] if case.years[part] else 1)
    checks.equal(f"{case.name}: the file from .fvecs", (case.folder / "f.vecq").read_bytes(), case.file)


def check_info(checks, case):
    head = tools.Head(case.file)
    facts = [("version", head.version), ("dim", head.dim), ("working_dim", head.working), ("seed", head.seed), ("bits", head.bits),
             ("residual", "yes" if head.residual else "no"), ("slots", head.live), ("keyed", len(head.keys)), ("keys", len(set(head.keys.values()))),
             ("bytes", len(case.file)), ("sha256", tools.sha256(case.file))]
    text = "".join(f"{name}\t{fact}\n" for name, fact in facts)
    checks.equal(f"{case.name}: info", case.folder.done("info", "i.vecq").out, text)
    lines = zip(tools.listing(case.file).splitlines()[1:], case.years)
    slots = "".join(line.replace(" ", "\t") + f"\t{year}\n" for line, year in lines)
    checks.equal(f"{case.name}: info --slots", case.folder.done("info", "i.vecq", "--slots").out, f"{text}\nslot\tkey\thalf\tyear\n{slots}")
    checks.equal(f"{case.name}: years", (head.years, head.version >= 262), (tuple(case.years), any(year != 1 for year in case.years)))


def check_keys(checks, case):
    head, held = tools.Head(case.file), {}
    for slot, key in sorted(head.keys.items()):
        held.setdefault(int(key), []).append(str(slot))
    text = "".join(f"{key}\t{' '.join(held[key])}\n" for key in sorted(held))
    checks.equal(f"{case.name}: keys", case.folder.done("keys", "i.vecq").out, text)


def list_text(case, asked, answers, keys=None):
    """The list that the command is to print, its scores left out: those are looked at by themselves."""
    head = tools.Head(case.file)
    lines = ["# vecq list 1", f"# index sha256 {tools.sha256(case.file)} bytes {len(case.file)} dim {head.dim} bits {head.bits} "
             f"residual {'yes' if head.residual else 'no'} live {head.live}"]
    for number, (query, found) in enumerate(zip(case.patterns, answers), 1):
        key = f" key {keys[number - 1]}" if keys else ""
        lines.append(f"# query {number}{key} sha256 {tools.sha256(tools.packed(query))} k {asked.k} by {asked.by} {asked.kind()}")
        for rank, (name, pattern) in enumerate(found, 1):
            slot, key = (name, head.keys.get(name, "-")) if asked.by == "slot" else ("-", name)
            lines.append(f"{rank}\t{slot}\t{key}\t{pattern:08X}")
    return lines


def without_scores(checks, name, text):
    """The lines less their decimals, each of which must be the shortest of its bits."""
    lines = []
    for line in text.splitlines():
        if not line.startswith("#"):
            line, _, decimal = line.rpartition("\t")
            checks.that(f"{name}: a decimal", tools.is_shortest(decimal, int(line.rpartition("\t")[2], 16)), f"{line} {decimal}")
        lines.append(line)
    return lines


def options(asked):
    cascade = () if asked.cascade is None else ("--cascade", asked.cascade)
    return ("-k", asked.k, "--by", asked.by, *cascade)


def check_lists(checks, case):
    live = tools.Head(case.file).live
    kinds = [tools.Asked(k, by) for k in (0, 1, 10, live, live + 5) for by in ("slot", "key")]
    if tools.Head(case.file).bits == 4:
        kinds += [tools.Asked(k, "slot", r) for k, r in ((1, 1), (3, 5), (live, 0), (2, live + 1))]
    for asked in kinds:
        name, answers = f"{case.name}: find {options(asked)}", tools.hits(case.file, case.patterns, asked)
        right = list_text(case, asked, answers)
        for queries in ("q.txt", "q.fvecs"):
            ran = case.folder.done("find", "i.vecq", queries, *options(asked))
            checks.equal(name, without_scores(checks, name, ran.out), right)
        case.folder.done("find", "i.vecq", "q.txt", *options(asked), "-o", "list")
        checks.equal(f"{name} -o", (case.folder / "list").read_text(), ran.out)
        check_json(checks, case, asked, answers, name)
    checks.equal(f"{case.name}: what is left", [n for n in case.folder.names() if n.endswith((".new", ".lock"))], [])
    keys = ["7", "-", "18446744073709551615", "0"]
    (case.folder / "k.csv").write_bytes(as_text(case.draw, case.queries, keys))
    ran = case.folder.done("file", "i.vecq", "k.csv", "-k", 3, "-o", "filed", "--keyed")
    text, asked = (case.folder / "filed").read_text(), tools.Asked(3)
    right = list_text(case, asked, tools.hits(case.file, case.patterns, asked), keys)
    checks.equal(f"{case.name}: file", (ran.out, without_scores(checks, case.name, text)), ("", right))


def check_json(checks, case, asked, answers, name):
    """The same answers as one object."""
    ran, head = case.folder.done("find", "i.vecq", "q.txt", *options(asked), "--format", "json"), tools.Head(case.file)
    said = json.loads(ran.out)
    scores = [hit.pop("score") for one in said["lists"] for hit in one["hits"]]
    patterns = [int(hit["bits"], 16) for one in said["lists"] for hit in one["hits"]]
    checks.that(f"{name}: scores of json", all(tools.binary32(repr(score)) == pattern for score, pattern in zip(scores, patterns)), scores)
    lists = []
    for number, (query, found) in enumerate(zip(case.patterns, answers), 1):
        by_slot = asked.by == "slot"
        rows = [{"rank": rank, "slot": at if by_slot else None, "key": head.keys.get(at) if by_slot else str(at), "bits": f"{pattern:08X}"}
                for rank, (at, pattern) in enumerate(found, 1)]
        lists.append({"query": number, "sha256": tools.sha256(tools.packed(query)), "k": asked.k, "by": asked.by, "cascade": asked.cascade, "hits": rows})
    index = {"sha256": tools.sha256(case.file), "bytes": len(case.file), "dim": head.dim, "bits": head.bits, "residual": head.residual, "live": head.live}
    checks.equal(f"{name}: json", said, {"index": index, "lists": lists})


def check_scores(checks, case):
    for slot in range(0, tools.Head(case.file).live, 7):
        answers = tools.exercise(tools.reading(case.file) + [f"score {slot:x} {tools.vector(query)}" for query in case.patterns])[2:]
        right = [f"{number}\t{answer.removeprefix('score ').upper()}" for number, answer in enumerate(answers, 1)]
        ran = case.folder.done("score", "i.vecq", "q.txt", "--slot", slot)
        checks.equal(f"{case.name}: score --slot {slot}", without_scores(checks, case.name, ran.out), right)


def check_changes(checks, case):
    """Removals and a relabelling leave the file that `exercise` writes after the same calls."""
    keys = sorted({int(key) for key in case.keys if key != "-"})
    if len(keys) < 2:
        return
    slot = case.keys.index(str(keys[1]))
    case.folder.done("relabel", "i.vecq", keys[0], 77)
    case.folder.done("remove", "i.vecq", keys[1], "--slot", slot, "--present", 2030)
    case.folder.done("remove", "i.vecq", 77, "--present", 65535)
    calls = [f"relabel {keys[0]:x} 4d", f"remove_at {keys[1]:x} {slot:x} 7ee", "compact", "remove 4d ffff", "compact", "write 10000"]
    written = tools.exercise(tools.reading(case.file) + calls)[-1]
    checks.equal(f"{case.name}: the file after changes", (case.folder / "i.vecq").read_bytes().hex(), written.removeprefix("bytes "))
    rows = [drawn_row(case.draw, case.dim) for _ in range(4)]
    (case.folder / "over.csv").write_bytes(as_text(case.draw, rows, ["2", "5", "-", "5"]))
    ran = case.folder.done("add", "i.vecq", "over.csv", "--year", 2029, "--keyed", "--present", 2030)
    vectors = [tools.vector([tools.binary32(x) for x in row]) for row in rows]
    adds = [f"add {v} 7ed" if key == "-" else f"add_keyed {key} {v} 7ed 7ee" for key, v in zip("25-5", vectors)]
    written = tools.exercise(tools.reading(case.file) + calls[:-1] + adds + ["write 10000"])[-1]
    checks.equal(f"{case.name}: the file after overwrites", (case.folder / "i.vecq").read_bytes().hex(), written.removeprefix("bytes "))
    checks.that(f"{case.name}: added", ran.out.startswith("added\t4\n"), ran)


def check_kept(checks, case):
    """Removals and overwrites at several present years: each is done, or refused by 21 and leaves the file, as `exercise` has it."""
    (case.folder / "one.csv").write_bytes(as_text(case.draw, [case.rows[0]], ["3"]))
    entries = tools.vector([tools.binary32(x) for x in case.rows[0]])
    slot = case.keys.index("3") if "3" in case.keys else 0
    for present in PRESENTS:
        uses = ((("remove", "k.vecq", 3), f"remove 3 {present:x}"), (("remove", "k.vecq", 3, "--slot", slot), f"remove_at 3 {slot:x} {present:x}"),
                (("add", "k.vecq", "one.csv", "--year", 0, "--keyed"), f"add_keyed 3 {entries} 0 {present:x}"))
        for words, line in uses:
            (case.folder / "k.vecq").write_bytes(case.file)
            ran = case.folder.vecq(*words, "--present", present)
            answer, *_, written = tools.exercise(tools.reading(case.file) + [line, "compact", "write 10000"])[2:]
            status = {"no": 1, "refused 21": 3}.get(answer, 0)
            what = f"{case.name}: {' '.join(map(str, words))} --present {present}"
            checks.that(what, ran.status == status and ("refused 21: " in ran.err) == (status == 3), f"{ran}, and exercise has {answer}")
            checks.equal(f"{what}: the file", (case.folder / "k.vecq").read_bytes().hex(), written.removeprefix("bytes ") if status == 0 else case.file.hex())


def check_many_queries(checks):
    """More queries than are searched for at once: their lists come in the order of the queries."""
    case = Case(1)
    case.queries = [drawn_row(case.draw, case.dim) for _ in range(101)]
    case.patterns = [[tools.binary32(x) for x in row] for row in case.queries]
    (case.folder / "many.csv").write_bytes(as_text(case.draw, case.queries, None))
    asked = tools.Asked(3)
    right = list_text(case, asked, tools.hits(case.file, case.patterns, asked))
    ran = case.folder.done("find", "i.vecq", "many.csv", *options(asked))
    checks.equal("many queries", without_scores(checks, "many queries", ran.out), right)
    said = json.loads(case.folder.done("find", "i.vecq", "many.csv", *options(asked), "--format", "json").out)
    checks.equal("many queries: json", [one["query"] for one in said["lists"]], list(range(1, 102)))
    checks.equal("many queries: hits of json", [[hit["bits"] for hit in one["hits"]] for one in said["lists"]],
                 [[f"{pattern:08X}" for _, pattern in found] for found in tools.hits(case.file, case.patterns, asked)])


def check_zeros(checks):
    """Document 02, Req 04: lines whose scores are zeros follow slot order, each with its own sign. The query is at right angles to every row, so a score has its scale's."""
    folder = Folder()
    folder.done("new", "z.vecq", "--dim", 2)
    (folder / "rows.csv").write_text("".join(f"{key},1,0\n" for key in (7, 7, 8, 9, 7, 8)))
    folder.done("add", "z.vecq", "rows.csv", "--multi", "--year", 1)
    file = bytearray((folder / "z.vecq").read_bytes())
    file[25:37] = bytes.fromhex("0080 0000 00bc 003c 0000 0080")
    (folder / "z.vecq").write_bytes(file)
    (folder / "q.csv").write_text("0,1\n")
    minus, plus = "80000000\t-0", "00000000\t0"
    by_slot = [f"1\t0\t7\t{minus}", f"2\t1\t7\t{plus}", f"3\t2\t8\t{minus}", f"4\t3\t9\t{plus}", f"5\t4\t7\t{plus}", f"6\t5\t8\t{minus}"]
    by_key = [f"1\t-\t7\t{minus}", f"2\t-\t8\t{minus}", f"3\t-\t9\t{plus}"]
    for k, by, right in ((6, "slot", by_slot), (2, "slot", by_slot[:2]), (6, "key", by_key), (2, "key", by_key[:1])):
        lines = folder.done("find", "z.vecq", "q.csv", "-k", k, "--by", by).out.splitlines()
        checks.equal(f"zeros: k {k} by {by}", [line for line in lines if not line.startswith("#")], right)


def check_listed_files(checks):
    """Files of every version, sound and not: `info --slots` shows what document 01's listing does, or the number of the refusal."""
    folder = Folder()
    for name, file in tools.files_to_list():
        (folder / "f").write_bytes(file)
        ran, right = folder.vecq("info", "f", "--slots"), tools.listing_by_01(file).splitlines()
        if " " in right[0]:
            facts = dict(line.split("\t") for line in ran.out.split("\n\n")[0].splitlines())
            said = [" ".join(facts[fact] for fact in ("version", "dim", "working_dim", "bits", "slots"))] if facts else []
            rows = [line.split("\t") for line in ran.out.partition("\n\n")[2].splitlines()[1:]]
            said += [" ".join(row[:-1]) for row in rows]
            checks.equal(f"info of {name}", (ran.status, said), (0, right))
            checks.that(f"info of {name}: years", facts.get("version", "") >= "262" or {row[-1] for row in rows} <= {"1"}, rows)
        else:
            checks.that(f"info of {name}", ran.status == 3 and ran.err.startswith(f"vecq: refused {right[0]}: "), f"{ran}, and 01 has {right[0]}")


def main():
    checks = Checks("the command beside exercise, listing, hashes and exact rounding")
    for seed in SEEDS:
        case = Case(seed)
        for check in (check_added, check_info, check_keys, check_lists, check_scores, check_kept, check_changes):
            check(checks, case)
    check_many_queries(checks)
    check_zeros(checks)
    check_listed_files(checks)
    checks.end()


if __name__ == "__main__":
    main()
