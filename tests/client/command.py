"""The command from outside: runs it in a folder, and counts what was checked."""
import pathlib
import struct
import subprocess
import sys
import tempfile
import time

ROOT = pathlib.Path(__file__).resolve().parents[2]
VECQ = ROOT / "target/client/vecq"
EXERCISE = ROOT / "target/bin/exercise"
LISTING = ROOT / "target/bin/listing"


class Checks:
    """Counts checks and says which failed; `end` prints the part's line and ends the program."""

    def __init__(self, part):
        self.part, self.count, self.failed, self.began = part, 0, 0, time.time()

    def that(self, what, holds, found=""):
        self.count += 1
        if not holds:
            self.failed += 1
            if self.failed <= 20:
                print(f"DIFFERENCE: {what}: {found}", file=sys.stderr)

    def equal(self, what, ours, right):
        self.that(what, ours == right, f"ours is {shown(ours)} and not {shown(right)}")

    def end(self, note=""):
        seconds = time.time() - self.began
        print(f"{self.part}: {self.count} checks, {self.failed} differences, {seconds:.1f} s{note}")
        sys.exit(self.failed > 0 or self.count == 0)


def shown(value):
    text = repr(value)
    return text if len(text) <= 400 else f"{text[:400]}.. ({len(text)} characters)"


class Ran:
    """How a command ended: status, standard output and standard error."""

    def __init__(self, done):
        self.status, self.out, self.err = done.returncode, done.stdout.decode(), done.stderr.decode()

    def __repr__(self):
        return f"status {self.status}, {self.out!r}, {self.err!r}"


class Folder:
    """A new folder, gone at the end."""

    def __init__(self):
        self.made = tempfile.TemporaryDirectory(prefix="vecq.")
        self.path = pathlib.Path(self.made.name)

    def __truediv__(self, name):
        return self.path / name

    def vecq(self, *words, stdin=b"", **more):
        return Ran(subprocess.run([VECQ, *map(str, words)], input=stdin, capture_output=True, cwd=self.path, **more))

    def done(self, *words, stdin=b""):
        """A command that prepares a test: it must be done."""
        ran = self.vecq(*words, stdin=stdin)
        if ran.status != 0:
            sys.exit(f"vecq {' '.join(map(str, words))}: {ran}")
        return ran

    def names(self):
        return sorted(path.name for path in self.path.iterdir())


def fvecs(vectors):
    """Document PRODUCT's .fvecs: each vector its count and its binary32 entries, little-endian."""
    return b"".join(struct.pack(f"<i{len(v)}f", len(v), *v) for v in vectors)


def drawn(random, dim):
    """Entries that are binary32 numbers and short in decimal."""
    vector = [random.randrange(-4096, 4097) / 1024 for _ in range(dim)]
    return vector if any(vector) else [1.0] * dim


def csv(vectors, keys=None):
    """A line for each vector, its key first where there are keys."""
    rows = [",".join(repr(x) for x in v) for v in vectors]
    return "".join(f"{row}\n" if keys is None else f"{'-' if keys[i] is None else keys[i]},{row}\n" for i, row in enumerate(rows)).encode()
