#!/usr/bin/env python3
"""examples.py [--write]: runs each line of `examples` by bash, and compares what it printed and its status with examples.expected. --write puts what was
printed there instead; whoever uses it holds each changed line against the documents. Then: every option of every command is among the lines, and the examples
that the help shows can be run."""
import difflib
import os
import pathlib
import re
import subprocess
import sys

from command import ROOT, VECQ, Checks, Folder

HERE = pathlib.Path(__file__).resolve().parent
EXPECTED = HERE / "examples.expected"


def run(line, folder):
    """A line's answer as text: standard output, standard error with a mark before each line, the status."""
    path = {"PATH": f"{ROOT}/target/client:{ROOT}/target/bin:{os.environ['PATH']}", "LC_ALL": "C"}
    done = subprocess.run(["bash", "-c", line], cwd=folder.path, stdin=subprocess.DEVNULL, capture_output=True, env=path)
    text = f"$ {line}\n{whole_lines(done.stdout)}" + "".join(f"! {said}\n" for said in whole_lines(done.stderr).splitlines())
    return text + (f"status {done.returncode}\n" if done.returncode else ""), done.returncode


def whole_lines(output):
    text = output.decode(errors="backslashreplace")
    return text if text.endswith("\n") or not text else f"{text}(no end of line)\n"


def check_lines(checks, write):
    """All lines, in one folder. Those that were done, for the check of options."""
    folder, text, done = Folder(), "", []
    for line in (HERE / "examples").read_text().splitlines():
        if not line or line.startswith("#"):
            text += f"{line}\n"
            continue
        answer, status = run(line, folder)
        text += answer
        done += [line] if status == 0 else []
        checks.that(f"a use that isn't done is told: {line}", status == 0 or status in range(1, 5), f"status {status}")
    if write:
        EXPECTED.write_text(text)
    expected = EXPECTED.read_text()
    checks.that("what the examples print", text == expected, "\n" + "".join(difflib.unified_diff(
        expected.splitlines(True), text.splitlines(True), "expected", "printed", n=1)))
    return done


def help_text(*name):
    return subprocess.run([VECQ, "help", *name], capture_output=True, text=True, check=True).stdout


def commands():
    """The commands that `vecq help` names."""
    return re.findall(r"^    vecq (\w+)", help_text().split("\n\n")[1], re.M)


def check_options(checks, done):
    """Each option that a command's first line of help has is in an example that is done."""
    script = " ".join(done)
    for name in commands():
        used = " ".join(line for line in done if f"vecq {name}" in line or f"printf '{name}" in line)
        checks.that(f"{name} is used", f"vecq {name}" in script)
        for option in re.findall(r"(?<=[ \[])--?\w+", help_text(name).splitlines()[0]):
            checks.that(f"{name} {option} is used", re.search(f"{option}(?= |$|[^-\\w])", used) is not None, used)


GAMES = "".join(f"{key},{key % 7},{key % 5}.25,-{key % 3},1\n" for key in range(1001, 1011))


def prepared(example):
    """A folder with the files that the help's examples name, the index too unless they make it."""
    folder = Folder()
    for name in ("games.csv", "more.csv"):
        (folder / name).write_text(GAMES)
    (folder / "new.csv").write_text("1,2,3,4\n")
    if not re.search(r"^ *vecq new ", example, re.M):
        folder.done("new", "games.vecq", "--dim", 4)
        folder.done("add", "games.vecq", "games.csv", "--year", 1, "--keyed", "--present", 1)
        for name in ("ours.list", "theirs.list"):
            folder.done("find", "games.vecq", "new.csv", "-o", name)
    return folder


def check_help_examples(checks):
    """What the help shows can be done as it stands."""
    for name in [(), *((command,) for command in commands())]:
        examples = re.findall(r"^Example[^\n]*\n((?:    [^\n]*\n?)+)", help_text(*name), re.M)
        checks.equal(f"help {name} has an example", len(examples), 1)
        for example in examples:
            text, status = run(example, prepared(example))
            checks.that(f"the example of help {name}", status == 0, text)


def main():
    checks = Checks("examples of every command and option")
    done = check_lines(checks, sys.argv[1:] == ["--write"])
    check_options(checks, done)
    check_help_examples(checks)
    checks.end()


if __name__ == "__main__":
    main()
