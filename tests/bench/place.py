#!/usr/bin/env python3
"""place.py GROUP FILE: puts the tables in FILE between the lines `<!-- GROUP -->` and `<!-- end GROUP -->` of the page that has them: docs/PERFORMANCE.md or one of
docs/measurements."""
import glob
import sys


def text(file):
    with open(file, encoding="utf-8") as f:
        return f.read()


def main():
    group, file = sys.argv[1:]
    first, last = f"<!-- {group} -->\n", f"<!-- end {group} -->\n"
    pages = [p for p in ["docs/PERFORMANCE.md"] + sorted(glob.glob("docs/measurements/*.md")) if first in text(p)]
    if len(pages) != 1 or text(pages[0]).count(first) != 1 or text(pages[0]).count(last) != 1:
        sys.exit(f"place.py: one page must have the lines of {group}, once")
    head, rest = text(pages[0]).split(first)
    tail = rest.split(last)[1]
    tables = text(file).strip()
    with open(pages[0], "w", encoding="utf-8") as f:
        f.write(f"{head}{first}\n{tables}\n\n{last}{tail}")


main()
