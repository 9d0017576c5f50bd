#!/usr/bin/env python3
"""Counts the places of older forms in crates/*/src/*.rt: prints a line for each, and how many there are of each kind.

    tools/forms.py [TREE] [--list]

It goes by text, so that two runs over two trees can be set beside one another; docs/DESIGN-PASS.md says what each kind is and what became of its places.
"""
import collections
import glob
import os
import re
import sys

TREE = next((a for a in sys.argv[1:] if not a.startswith("-")), ".")


def functions(text):
    """(name, signature, body) of each function, by the brace that closes it at its own indent."""
    out = []
    for m in re.finditer(r"^( *)(?:pub(?:\(crate\))? )?(?:extern \"C\" )?fn (\w+)", text, re.M):
        indent, name, at = m.group(1), m.group(2), m.start()
        end = re.compile(r"^%s\}$" % indent, re.M).search(text, at)
        if not end:
            continue
        whole = text[at : end.end()]
        cut = re.search(r"^%s\{$|\) (?:-> [^{\n]*)?\{$" % indent, whole, re.M)
        out.append((name, whole[: cut.start() if cut else 0], whole[cut.end() if cut else 0 :]))
    return out


def shape(body):
    """The body without names, numbers and types: what two twins have in common."""
    body = re.sub(r"//.*", "", body)
    body = re.sub(r"\b(?:0x[0-9A-Fa-f_]+|\d[\d_]*(?:\.\d+)?)(?:u8|u16|u32|u64|usize|f32|i32)?\b", "0", body)
    body = re.sub(r"\b(?:u8|u16|u32|u64|usize|f32|bool|i32)\b", "T", body)
    names = {}
    return re.sub(r"\b[a-z_]\w*\b", lambda m: names.setdefault(m.group(0), "v%d" % len(names)), re.sub(r"\s+", " ", body))


def main():
    places = collections.defaultdict(list)
    shapes = collections.defaultdict(list)
    for path in sorted(glob.glob(os.path.join(TREE, "crates/*/src/*.rt"))):
        text = open(path).read()
        short = os.path.relpath(path, TREE)
        lines = text.split("\n")
        for n, line in enumerate(lines, 1):
            at = "%s:%d: %s" % (short, n, line.strip())
            if re.match(r"\s*(?:while|loop)\b", line):
                places["3 loops by while"].append(at)
            if re.match(r"\s*(?:pub )?(?:ok|known|has_key): bool,", line):
                places["1 flags with a value beside"].append(at)
            if re.match(r"\s*(?:Refused\(u8\)|Misfit,|Unable,)", line):
                places["1 own enums like Option or Result"].append(at)
            numbered = re.match(r"\s*match (?:c|command|array|field) \{", line) and re.match(r"\s*\d", lines[n])
            if re.match(r"\s*(?:pub )?(?:command|field|array): usize,", line) or numbered:
                places["1 numbers for kinds"].append(at)
        for name, signature, body in functions(text):
            at = "%s: %s" % (short, name)
            if re.search(r"(?:fault|refusal)", name) and re.search(r"-> (?:u8|usize)", signature):
                places["1 numbers for refusals"].append(at)
            if re.fullmatch(r"\s*\[[^;\n]*; \d+\]\s*\}", body):
                places["2 functions that only make an array"].append(at)
            if len(body.strip().split("\n")) > 3 and not re.search(r"^const", body):
                shapes[shape(body)].append(at)
            if re.fullmatch(r"\s*\w+ as \w+\s*\}", body) or re.search(r"fn (?:least|lower|smaller|fewer|capped|at_least_1|wanted|group_of|copy|clear|apart|greater)\b", signature):
                places["4 the library's method by hand"].append(at)
            params = re.findall(r"\b(\w+): &?(?:mut )?[\w\[<]", signature.split("ensures")[0].split("requires")[0])
            if len(params) >= 8 and "extern" not in signature:
                places["5 functions of eight parameters or more"].append(at + " (%d)" % len(params))
    for s, group in shapes.items():
        if len(group) > 1:
            places["2 functions of one shape"].append(", ".join(group))
    for kind in sorted(places):
        print("%4d  %s" % (len(places[kind]), kind))
        if "--list" in sys.argv:
            for at in places[kind]:
                print("      " + at)


main()
