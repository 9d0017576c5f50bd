#!/usr/bin/env python3
"""Brings this repository's own names of definitions and lemmas to today's spelling: words in snake case, facts and types in upper camel case.

usage: python3 tools/respell.py [FOLDER]

Run once, after the kit's port.py, at the top of the repository or in FOLDER. It rewrites crates/*/{src,specs,proofs}/**, crates/*/must-fail/*.edit and the
names that README.md and docs/**/*.md give in backticks. Functions of src/, C names, strings, inputs and outputs keep their names: none of them is in lower
camel case. A second run changes nothing.
"""

import os
import re
import sys

# (a byte such as b'A' is no name)
START = r"(?<![\w'₀-₉-])(?!b'.')"
TOKEN = re.compile(START + r"[A-Za-z_][\w'₀-₉]*(?:-[\w'₀-₉]+)*")

# Facts that had a word's spelling, and a word that had a fact's.
FACTS = {
    "isScale": "IsScale",
    "keyLow": "KeyLow",
    "patternLow": "PatternLow",
    "scaleIf": "ScaleIf",
}
# Lemmas whose name is, once respelled, that of the definition which they are about. In some files alone, where others use the word for other things.
LEMMAS = {
    "any_nan": None,
    "at_width": None,
    "held_by": None,
    "holds_at": None,
    "second_at": None,
    "block_size": {"index/proofs/Fits.antt"},
    "by_key": {"histories/proofs/Scores.antt", "search_keyed/proofs/Keys.antt"},
}
# Parts of names that the library has respelled.
PARTS = {"getD": "get_or"}


def snake(part):
    if part in PARTS:
        return PARTS[part]
    if not re.match(r"[a-z]", part):
        return part
    return re.sub(r"(?<=[a-z0-9'₀-₉])([A-Z])", lambda m: "_" + m.group(1).lower(), part)


def respelled(word):
    if word in FACTS:
        return FACTS[word]
    return "-".join(snake(p) for p in word.split("-"))


def code_of(text, path):
    """The text without comments and strings."""
    mark = "--" if path.endswith(".antt") else "//" if path.endswith(".rt") else "#"
    lines = []
    for line in text.split("\n"):
        line = "" if line.strip().startswith(mark) else line.split(f" {mark} ")[0]
        lines.append(re.sub(r'b?"(?:[^"\\]|\\.)*"', '""', line))
    return "\n".join(lines)


def files(root):
    for folder, dirs, names in os.walk(os.path.join(root, "crates")):
        dirs[:] = sorted(d for d in dirs if d not in ("out", "data"))
        for name in sorted(names):
            if name.endswith((".rt", ".antt", ".edit")):
                yield os.path.join(folder, name)


def main(root):
    texts = {}
    for path in files(root):
        with open(path, encoding="utf-8") as f:
            texts[path] = f.read()
    words = set()
    for path, text in texts.items():
        words |= set(TOKEN.findall(code_of(text, path)))
    turned = {w: respelled(w) for w in words if respelled(w) != w}
    for path, text in texts.items():
        inner = os.path.relpath(path, os.path.join(root, "crates"))

        def lemma(m):
            word = m.group(0)
            only = LEMMAS.get(word, set())
            if path.endswith(".antt") and (only is None or inner in only) and word in LEMMAS:
                return word + "_lem"
            return word

        # A lemma gives way before the definition takes its name. A field and a part of a module's path are not lemmas.
        new = re.sub(r"(?<![\w'₀-₉.-])[a-z][\w'₀-₉]*(?:-[\w'₀-₉]+)*(?!\.[{a-zA-Z])", lemma, text)
        new = TOKEN.sub(lambda m: turned.get(m.group(0), m.group(0)), new)
        if new != text:
            with open(path, "w", encoding="utf-8") as f:
                f.write(new)
    pages = [os.path.join(root, "README.md")]
    for folder, _, names in os.walk(os.path.join(root, "docs")):
        pages += [os.path.join(folder, n) for n in sorted(names) if n.endswith(".md") and n != "PORT.md"]
    for path in pages:
        with open(path, encoding="utf-8") as f:
            text = f.read()
        new = re.sub(r"`[^`\n]+`", lambda q: TOKEN.sub(lambda m: turned.get(m.group(0), m.group(0)), q.group(0)), text)
        if new != text:
            with open(path, "w", encoding="utf-8") as f:
                f.write(new)
    print(f"respell: {len(turned)} names")
    for a, b in sorted(turned.items()):
        print(f"  {a} -> {b}")


if __name__ == "__main__":
    main(sys.argv[1] if len(sys.argv) > 1 else ".")
