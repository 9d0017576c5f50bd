#!/usr/bin/env python3
"""samples.py: the samples are what their rule makes, games.vecq is what the command makes of them, and README shows the command's answer."""
import shutil
import subprocess
import sys

from command import ROOT, Checks, Folder

SAMPLES = ROOT / "samples"


def made_anew():
    """A folder with the rule's own files."""
    folder = Folder()
    shutil.copy(SAMPLES / "make.py", folder / "make.py")
    subprocess.run([sys.executable, folder / "make.py"], check=True)
    return folder


def main():
    checks = Checks("samples")
    folder = made_anew()
    for name in ("games.csv", "new_game.csv"):
        checks.equal(f"{name} by its rule", (folder / name).read_text(), (SAMPLES / name).read_text())
    folder.done("new", "games.vecq", "--dim", 12)
    folder.done("add", "games.vecq", "games.csv", "--year", 2036, "--keyed", "--present", 2026, "--header")
    checks.equal("games.vecq of games.csv", (folder / "games.vecq").read_bytes(), (SAMPLES / "games.vecq").read_bytes())
    found = folder.done("find", "games.vecq", "new_game.csv", "-k", 5, "--header")
    shown = "".join(f"    {line}\n" for line in found.out.splitlines())
    checks.that("README shows the answer", shown in (ROOT / "README.md").read_text(), found.out)
    checks.end()


if __name__ == "__main__":
    main()
