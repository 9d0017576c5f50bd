#!/usr/bin/env python3
"""saving.py: a file is the old one or the new one, whole, however its writer ends; the next writer goes on; no two write at once."""
import collections
import fcntl
import os
import random
import re
import resource
import shutil
import signal
import stat
import struct
import subprocess
import time

from command import VECQ, Checks, Folder, Ran, csv, drawn, fvecs

DIM = 32
# Each file has a block of years.
YEAR = "2036"
ADDING = ("--year", YEAR, "--multi")
SLOTS = 3000
DELAYS = 200
SAVING_CALLS = set("openat flock statx fstat newfstatat readlink unlink write fchmod fsync rename link linkat close read".split())


class House:
    """A folder with games.vecq, and what one more row (once.csv) and a second one (twice.csv) make of it."""

    def __init__(self):
        self.folder, draw = Folder(), random.Random(6)
        self.file = self.folder / "games.vecq"
        (self.folder / "rows.fvecs").write_bytes(fvecs([drawn(draw, DIM) for _ in range(SLOTS)]))
        (self.folder / "once.csv").write_bytes(csv([drawn(draw, DIM)], [1]))
        (self.folder / "twice.csv").write_bytes(csv([drawn(draw, DIM)], [2]))
        self.folder.done("new", "games.vecq", "--dim", DIM, "--bits", 6)
        self.folder.done("add", "games.vecq", "rows.fvecs", "--year", YEAR)
        self.old = self.file.read_bytes()
        self.once = self.after("once.csv")
        self.twice = self.after("once.csv", "twice.csv")
        self.twice_turned = self.after("twice.csv", "once.csv")
        self.reset()

    def after(self, *names):
        self.reset()
        for name in names:
            self.folder.done("add", "games.vecq", name, *ADDING)
        return self.file.read_bytes()

    def reset(self):
        """The old file, and whatever a killed writer left beside it."""
        self.file.write_bytes(self.old)

    def writer(self, name="once.csv"):
        return [VECQ, "add", self.file, self.folder / name, *ADDING]

    def started(self, name="once.csv", **more):
        return subprocess.Popen(self.writer(name), stdout=subprocess.PIPE, stderr=subprocess.PIPE, **more)

    def left(self):
        return [name for name in self.folder.names() if name.startswith("games.vecq.")]

    def which(self):
        held = {self.old: "old", self.once: "once", self.twice: "twice", self.twice_turned: "twice, turned"}
        return held.get(self.file.read_bytes(), "neither")


def check_after_a_kill(checks, house, what, right=("old", "once")):
    """Old or new, whole, and the next writer goes on, whatever was left."""
    which = house.which()
    checks.that(f"{what}: the file", which in right, which)
    ran = house.folder.vecq("add", "games.vecq", "once.csv" if which == "old" else "twice.csv", *ADDING)
    checks.that(f"{what}: the next writer", ran.status == 0, ran)
    checks.equal(f"{what}: the next file", house.which(), "once" if which == "old" else "twice")
    checks.equal(f"{what}: nothing is left", house.left(), [])
    return which


def killed_by_time(checks, house):
    """Killed after rising delays, up to past the end of an undisturbed run; further on until one run came to its end."""
    began = time.time()
    house.started().communicate()
    step, seen, number = 1.2 * (time.time() - began) / DELAYS, collections.Counter(), 0
    while number < DELAYS or ("once" not in seen and number < 10 * DELAYS):
        house.reset()
        writer = house.started()
        time.sleep(step * number)
        writer.kill()
        writer.communicate()
        seen[check_after_a_kill(checks, house, f"killed after {number} of {DELAYS} delays")] += 1
        number += 1
    checks.that("kills before and after the rename", len(seen) == 2, seen)


def can_trace():
    return shutil.which("strace") and subprocess.run(["strace", "-f", "-o", "/dev/null", "true"], capture_output=True).returncode == 0


def traced_calls(folder, words):
    """The calls of a command on files of its folder, each by its name and how many of that name there were up to it."""
    log = folder / "trace"
    subprocess.run(["strace", "-f", "-y", "-o", log, *words], capture_output=True, check=True, cwd=folder.path)
    counts, calls = collections.Counter(), []
    for line in log.read_text(errors="replace").splitlines():
        found = re.match(r"\d+ +(\w+)\(", line)
        if found:
            counts[found[1]] += 1
            if found[1] in SAVING_CALLS and str(folder.path) in line:
                calls.append((found[1], counts[found[1]]))
    log.unlink()
    return calls


def injected(folder, words, call, what):
    """The command, with something done to it at a call."""
    trace = ["strace", "-f", "-o", "/dev/null", "-e", f"inject={call[0]}:{what}:when={call[1]}"]
    return Ran(subprocess.run([*trace, *words], capture_output=True, cwd=folder.path))


def each_call(calls):
    """The calls, each with what the file is if the writer gets no further: the old one up to the rename."""
    renames = [place for place, (name, _) in enumerate(calls) if name == "rename"]
    return [(call, "old" if place <= renames[-1] else "once") for place, call in enumerate(calls)]


def killed_by_call(checks, house, calls):
    """Killed at each of the writer's calls on its folder."""
    for call, right in each_call(calls):
        house.reset()
        injected(house.folder, house.writer(), call, "signal=KILL")
        check_after_a_kill(checks, house, f"killed at {call[0]} {call[1]}", (right,))


def failing_calls(checks, house, calls):
    """Each of the writer's calls on its folder fails: the file stays, or the new one is in its place; nothing is left, unless removing fails."""
    for call, right in each_call(calls):
        for error in ("EIO", "ENOSPC") if call[0] not in ("close", "fstat") else ():
            house.reset()
            ran = injected(house.folder, house.writer(), call, f"error={error}")
            what, which = f"{call[0]} {call[1]} fails by {error}", house.which()
            checks.that(f"{what}: status", ran.status in (0, 4) and (ran.status == 0) == (ran.err == ""), ran)
            checks.equal(f"{what}: the file", which, "once" if ran.status == 0 else right)
            checks.that(f"{what}: said", ran.status == 0 or re.fullmatch(r"vecq: [^\n]+\n", ran.err), ran)
            checks.that(f"{what}: no new file is left", "games.vecq.new" not in house.left() or call[0] == "unlink", house.left())
            for name in house.left():
                (house.folder / name).unlink()


def killed_lists(checks, house):
    """A list is the old one or the new one, and the next command makes it, whatever a killed one left."""
    house.reset()
    folder, words = house.folder, [VECQ, "file", house.file, house.folder / "query.csv", "-k", "50", "-o", house.folder / "list"]
    (folder / "query.csv").write_bytes(csv([drawn(random.Random(3), DIM)]))
    (folder / "list").write_text("old\n")
    calls = traced_calls(folder, words)
    new = (folder / "list").read_text()
    for call, right in each_call(calls):
        for what in ("signal=KILL", "error=ENOSPC") if call[0] not in ("close", "fstat") else ("signal=KILL",):
            (folder / "list").write_text("old\n")
            ran = injected(folder, words, call, what)
            name = f"file, {call[0]} {call[1]}, {what}"
            checks.equal(f"{name}: the list", (folder / "list").read_text(), new if right == "once" or ran.status == 0 else "old\n")
            checks.that(f"{name}: no new list is left", what == "signal=KILL" or call[0] == "unlink" or "list.new" not in folder.names(), folder.names())
            checks.equal(f"{name}: the next one", (folder.vecq(*words[1:]).status, (folder / "list").read_text()), (0, new))
            checks.equal(f"{name}: left after it", [n for n in folder.names() if n.startswith("list.")], [])


def killed_makers(checks):
    """A file that is being made is there whole or not at all."""
    folder = Folder()
    words = [VECQ, "new", folder / "made.vecq", "--dim", "3"]
    calls = traced_calls(folder, words)
    whole = (folder / "made.vecq").read_bytes()
    checks.that("the maker's calls", {"link", "linkat"} & {name for name, _ in calls}, calls)
    for call in calls:
        (folder / "made.vecq").unlink(missing_ok=True)
        injected(folder, words, call, "signal=KILL")
        is_there = (folder / "made.vecq").exists()
        checks.that(f"new, killed at {call}", not is_there or (folder / "made.vecq").read_bytes() == whole, "neither none nor whole")
        ran = folder.vecq(*words[1:])
        right = (4 if is_there else 0, whole, ["made.vecq"])
        checks.equal(f"new, after a kill at {call}", (ran.status, (folder / "made.vecq").read_bytes(), folder.names()), right)


def two_at_once(checks, house):
    """Both are applied, or one is refused with status 4; never a lost or torn file."""
    seen, number = collections.Counter(), 0
    while number < 40 or (number < 400 and not any(4 in statuses for statuses in seen)):
        house.reset()
        writers = [house.started("once.csv"), house.started("twice.csv")]
        for writer in writers:
            writer.communicate()
        statuses, which = tuple(writer.returncode for writer in writers), house.which()
        right = {(0, 0): ("twice", "twice, turned"), (0, 4): ("once",)}.get(statuses)
        if statuses == (4, 0):
            # The second row alone: no file of that is kept, so it is told by the first row's absence.
            which = "alone" if house.folder.vecq("keys", "games.vecq", 1, 2).out == f"1\t-\n2\t{SLOTS}\n" else which
            right = ("alone",)
        checks.that(f"two writers, {number}: {statuses}", right is not None and which in right, which)
        checks.equal(f"two writers, {number}: nothing is left", house.left(), [])
        seen[statuses] += 1
        number += 1
    checks.that("two writers met", any(4 in statuses for statuses in seen), seen)


# Another refusal than that of a held lock ends it.
UNTIL_LET = """
until "$1" add sum.vecq "$2.csv" --year 2036 --multi >/dev/null 2>"$2.err"; do
    status=$?
    [ $status -eq 4 ] && grep -q 'another writer' "$2.err" || exit 9
    sleep 0.01
done
"""


def twenty_at_once(checks):
    """Twenty that try until they are let: each row is there, once."""
    folder, draw = Folder(), random.Random(9)
    folder.done("new", "sum.vecq", "--dim", 4)
    for key in range(20):
        (folder / f"{key}.csv").write_bytes(csv([drawn(draw, 4)], [key]))
    adders = [subprocess.Popen(["bash", "-c", UNTIL_LET, "bash", VECQ, str(key)], cwd=folder.path) for key in range(20)]
    checks.equal("twenty writers end well", [adder.wait(timeout=60) for adder in adders], [0] * 20)
    keys = [line.split("\t") for line in folder.done("keys", "sum.vecq").out.splitlines()]
    checks.equal("twenty rows, each once", [key for key, _ in keys], [str(key) for key in range(20)])
    checks.equal("twenty slots, each once", sorted(int(slot) for _, slot in keys), list(range(20)))
    checks.that("no lock is left", "sum.vecq.lock" not in folder.names() and "sum.vecq.new" not in folder.names(), folder.names())


def readers_meanwhile(checks, house):
    """Who reads while others write gets a whole file, the old one or the new one."""
    house.reset()
    stop, going = time.time() + 0.5, house.folder / "going"
    going.touch()
    writing = 'while [ -e going ]; do "$1" add games.vecq once.csv --year 2036 --keyed --present 2036 >/dev/null; done'
    writers = subprocess.Popen(["bash", "-c", writing, "bash", VECQ], cwd=house.folder.path)
    while time.time() < stop:
        ran = house.folder.vecq("info", "games.vecq")
        checks.that("a reader beside a writer", ran.status == 0 and re.search(f"^slots\t({SLOTS}|{SLOTS + 1})$", ran.out, re.M), ran)
    going.unlink()
    writers.wait()


def a_slow_pipe(checks, house):
    """Vectors and scripts that are slow to come keep no other writer out."""
    row = (house.folder / "twice.csv").read_bytes()
    for words, slow in ((["add", "games.vecq", "-", *ADDING], row), (["edit", "games.vecq"], b"add twice.csv --year 2036 --multi\n")):
        house.reset()
        waiting = subprocess.Popen([VECQ, *words], cwd=house.folder.path, stdin=subprocess.PIPE, stdout=subprocess.PIPE, stderr=subprocess.PIPE)
        waiting.stdin.write(slow[:1])
        waiting.stdin.flush()
        time.sleep(0.05)
        ran = house.folder.vecq("add", "games.vecq", "once.csv", *ADDING)
        checks.equal(f"a writer beside a waiting {words[0]}", (ran.status, house.which()), (0, "once"))
        waiting.communicate(slow[1:])
        checks.equal(f"the waiting {words[0]}", (waiting.returncode, house.which()), (0, "twice"))


def a_held_lock(checks, house):
    """Who holds the lock keeps writers out, and readers not."""
    house.reset()
    lock = house.folder / "games.vecq.lock"
    with open(lock, "w") as held:
        fcntl.flock(held, fcntl.LOCK_EX)
        ran = house.folder.vecq("add", "games.vecq", "once.csv", *ADDING)
        checks.equal("a held lock", (ran.status, ran.out, ran.err), (4, "", "vecq: games.vecq: another writer is at work on it\n"))
        checks.equal("a held lock: the file", house.which(), "old")
        checks.equal("a held lock, reading", house.folder.vecq("check", "games.vecq").status, 0)
    (house.folder / "games.vecq.new").write_bytes(b"left by a killed writer")
    ran = house.folder.vecq("add", "games.vecq", "once.csv", *ADDING)
    checks.equal("a lock and a new file that were left", (ran.status, house.which(), house.left()), (0, "once", []))


FULL = """
mount -t tmpfs -o size=$3 none "$1" || exit 90
cp "$2"/games.vecq "$2"/once.csv "$1" && cd "$1" || exit 91
echo old >list; dd if=/dev/zero of=filler bs=1k count=100000 2>/dev/null; truncate -s -8k filler
"$4" add games.vecq once.csv --year 2036 --multi 2>err; echo "add $?"; cat err; cmp games.vecq "$2/games.vecq" && echo same
"$4" find games.vecq once.csv --keyed -k 1000 -o list 2>err; echo "find $?"; cat err; cat list
rm err; ls
rm filler; "$4" add games.vecq once.csv --year 2036 --multi >/dev/null 2>&1; echo "again $?"; cmp games.vecq "$2/once.vecq" && echo done
"""


def a_full_disk(checks, house):
    """On a small file system of its own, where one can be mounted; whether it was."""
    house.reset()
    place = Folder()
    (house.folder / "once.vecq").write_bytes(house.once)
    if not shutil.which("unshare"):
        return False
    words = ["unshare", "-m", "sh", "-c", FULL, "sh", place.path, house.folder.path, f"{3 * len(house.old)}", VECQ]
    ran = Ran(subprocess.run(words, capture_output=True))
    if ran.status == 90 or "unshare" in ran.err:
        return False
    said = "No space left on device (os error 28)"
    right = f"add 4\nvecq: games.vecq.new: {said}\nsame\nfind 4\nvecq: list.new: {said}\nold\nfiller\ngames.vecq\nlist\nonce.csv\nagain 0\ndone\n"
    checks.equal("a full disk", ran.out, right)
    return True


def no_room_for_a_file(house, size):
    """The writer where no file may grow past a size."""
    def limit():
        resource.setrlimit(resource.RLIMIT_FSIZE, (size, size))
        signal.signal(signal.SIGXFSZ, signal.SIG_IGN)
    house.reset()
    return Ran(subprocess.run(house.writer(), capture_output=True, preexec_fn=limit, restore_signals=False))


def a_file_that_may_not_grow(checks, house):
    for size in (0, 1, 24, 1000, 4096, len(house.once) // 2, len(house.old), len(house.once) - 1):
        ran = no_room_for_a_file(house, size)
        checks.that(f"files of at most {size} bytes", ran.status == 4 and "File too large" in ran.err, ran)
        checks.equal(f"files of at most {size} bytes: the file, and nothing is left", (house.which(), house.left()), ("old", []))
    ran = no_room_for_a_file(house, len(house.once))
    checks.equal("files of at most the new one's bytes", (ran.status, house.which(), house.left()), (0, "once", []))


def outputs_that_fail(checks, house):
    """A full device or a closed pipe: status 4, a message, no panic."""
    house.reset()
    commands = ("info games.vecq", "info games.vecq --slots", "find games.vecq once.csv --keyed", "find games.vecq once.csv --keyed --format json -k 3000",
                "keys games.vecq", "score games.vecq once.csv --keyed --slot 0", "help", "version")
    house.folder.done("add", "games.vecq", "once.csv", *ADDING)
    for words in commands:
        for name, opened in (("a full device", lambda: open("/dev/full", "wb")), ("a closed pipe", closed_pipe)):
            with opened() as output:
                done = subprocess.run([VECQ, *words.split(" ")], stdout=output, stderr=subprocess.PIPE, cwd=house.folder.path)
            said = done.stderr.decode()
            checks.that(f"{words} into {name}", done.returncode == 4 and re.fullmatch(r"vecq: [^\n]+\n", said) and "panicked" not in said,
                        f"status {done.returncode}, {said!r}")


def closed_pipe():
    reading, writing = os.pipe()
    os.close(reading)
    return os.fdopen(writing, "wb")


def a_folder_that_is_read_only(checks, house):
    """Root may write anywhere, so then the command runs as another user."""
    folder = Folder()
    shelf = folder / "shelf"
    shelf.mkdir()
    (shelf / "games.vecq").write_bytes(house.old)
    shutil.copy(house.folder / "once.csv", folder / "once.csv")
    shutil.copy(VECQ, folder / "vecq")
    os.chmod(folder.path, 0o755)
    os.chmod(shelf, 0o555)
    user = {"user": 65534} if os.getuid() == 0 else {}
    ran = Ran(subprocess.run(["./vecq", "add", "shelf/games.vecq", "once.csv", *ADDING], capture_output=True, cwd=folder.path, **user))
    checks.that("a read-only folder", ran.status == 4 and ran.err.startswith("vecq: ") and "Permission denied (os error 13)" in ran.err, ran)
    checks.equal("a read-only folder: the file", ((shelf / "games.vecq").read_bytes() == house.old, os.listdir(shelf)), (True, ["games.vecq"]))
    ran = Ran(subprocess.run(["./vecq", "info", "shelf/games.vecq"], capture_output=True, cwd=folder.path, **user))
    checks.equal("a read-only folder is read from", ran.status, 0)
    os.chmod(shelf, 0o755)


def links_and_modes(checks, house):
    shelf, folder = house.folder / "shelf", house.folder
    shelf.mkdir()
    for mode in (0o600, 0o640, 0o664, 0o400):
        house.reset()
        os.chmod(house.file, mode)
        folder.done("add", "games.vecq", "once.csv", *ADDING)
        checks.equal(f"mode {mode:o}", (stat.S_IMODE(os.stat(house.file).st_mode), house.which()), (mode, "once"))
        os.chmod(house.file, 0o644)
    links = {"link.vecq": "games.vecq", "shelf/link.vecq": "../games.vecq", "shelf/far.vecq": str(house.file), "chain.vecq": "shelf/link.vecq"}
    for name, target in links.items():
        house.reset()
        os.symlink(target, folder / name)
        folder.done("add", name, "once.csv", *ADDING)
        pointed_to = os.readlink(folder / name) if os.path.islink(folder / name) else None
        checks.equal(f"a link {name}", (pointed_to, house.which(), house.left()), (target, "once", []))
    checks.equal("nothing is left beside links", sorted(os.listdir(shelf)), ["far.vecq", "link.vecq"])


def making(checks, house):
    """`new` takes no name that is there, and of several at once one makes the file."""
    house.reset()
    ran = house.folder.vecq("new", "games.vecq", "--dim", 3)
    checks.equal("new over a file", (ran.status, ran.out, ran.err, house.which()), (4, "", "vecq: games.vecq: File exists (os error 17)\n", "old"))
    os.symlink("nowhere.vecq", house.folder / "dangling.vecq")
    ran = house.folder.vecq("new", "dangling.vecq", "--dim", 3)
    checks.equal("new over a link to nothing", (ran.status, ran.err), (4, "vecq: dangling.vecq: File exists (os error 17)\n"))
    for number in range(10):
        name = f"made{number}.vecq"
        makers = [subprocess.Popen([VECQ, "new", name, "--dim", "3", "--seed", str(seed)], cwd=house.folder.path, stderr=subprocess.PIPE) for seed in range(4)]
        for maker in makers:
            maker.communicate()
        statuses = sorted(maker.returncode for maker in makers)
        checks.equal("four makers of one file", statuses, [0, 4, 4, 4])
        checks.equal("the file that they made", house.folder.vecq("check", name).status, 0)
    checks.equal("nothing is left of them", [name for name in house.folder.names() if re.search(r"made\d.vecq.", name)], [])
    for name in ("games.vecq", "folder", "missing"):
        (house.folder / "folder").mkdir(exist_ok=True)
        if name != "games.vecq":
            checks.equal(f"add to {name}", house.folder.vecq("add", name, "once.csv", *ADDING).status, 4)
            checks.that(f"add to {name}: nothing is left", not [n for n in house.folder.names() if n.startswith(f"{name}.")], house.folder.names())


def little_memory(checks, house):
    """Memory that can't be had is told, and ends no command by a signal."""
    def limit():
        resource.setrlimit(resource.RLIMIT_AS, (100 << 20, 100 << 20))
    huge = house.folder / "huge.vecq"
    # 65,536 slots of 4,096 entries at 6 bits, stated by a head that nothing follows.
    huge.write_bytes(b"VECQ" + struct.pack("<HHIQIB", 261, 0, 4096, 1, 65536, 6))
    ran = house.folder.vecq("check", "huge.vecq", preexec_fn=limit)
    checks.equal("no memory", (ran.status, ran.out, ran.err), (4, "", "vecq: out of memory: huge.vecq\n"))
    ran = house.folder.vecq("check", "huge.vecq")
    checks.equal("enough memory", (ran.status, ran.err), (3, "vecq: refused 14: file ends early: huge.vecq\n"))


def main():
    checks, house = Checks("saving"), House()
    checks.that("three different files", len({house.old, house.once, house.twice, house.twice_turned}) == 4)
    killed_by_time(checks, house)
    notes = []
    if can_trace():
        house.reset()
        calls = traced_calls(house.folder, house.writer())
        checks.that("the writer's calls", {"openat", "flock", "write", "fsync", "rename", "unlink"} <= {name for name, _ in calls}, calls)
        killed_by_call(checks, house, calls)
        failing_calls(checks, house, calls)
        killed_lists(checks, house)
        killed_makers(checks)
    else:
        notes.append("no strace that works: not killed at each call")
    two_at_once(checks, house)
    twenty_at_once(checks)
    readers_meanwhile(checks, house)
    a_slow_pipe(checks, house)
    a_held_lock(checks, house)
    if not a_full_disk(checks, house):
        notes.append("no file system can be mounted: no full disk but by limits")
    a_file_that_may_not_grow(checks, house)
    outputs_that_fail(checks, house)
    a_folder_that_is_read_only(checks, house)
    links_and_modes(checks, house)
    making(checks, house)
    little_memory(checks, house)
    checks.end("".join(f" ({note})" for note in notes))


if __name__ == "__main__":
    main()
