"""judge.py: counts what was checked, by the model and by the Rust, and says what differs."""
import struct
import subprocess
import sys
import tempfile
import time

import model


def shown(data):
    return f"{data[:60]!r}" + (f".. ({len(data):,} bytes)" if len(data) > 60 else "")


def difference(ran, right):
    """How a run differs from the model's answer, or None. Where it refuses, what it wrote is void."""
    if (ran.status, ran.err) != (right.status, right.err):
        return f"status {ran.status}, {shown(ran.err)}, and not {right.status}, {right.err!r}"
    if right.out is None or ran.out == right.out:
        return None
    if len(ran.out) != len(right.out):
        return f"{len(ran.out):,} bytes, and not {len(right.out):,}: {shown(ran.out)}"
    at = next(i for i, (ours, theirs) in enumerate(zip(ran.out, right.out)) if ours != theirs)
    return f"byte {at:,} is {ran.out[at]:02X} and not {right.out[at]:02X}"


class Judge:
    def __init__(self, rust):
        self.rust, self.pairs, self.awaited = rust, tempfile.TemporaryFile(prefix="convert."), []
        self.checks = self.differences = 0

    def that(self, what, holds, found=""):
        self.checks += 1
        if not holds:
            self.differences += 1
            if self.differences <= 20:
                print(f"DIFFERENCE: {what}: {found}", file=sys.stderr)

    def by_model(self, what, file, ran, number=None):
        """`number` is what the case says itself: the refusal, or 0. The model must say the same, or the test is wrong."""
        right = model.converted(file)
        if number is not None and right.err != b"refused %d\n" % number and (number, right.status) != (0, 0):
            sys.exit(f"convert: {what}: the model says {right.err!r}, and the case {number}")
        found = difference(ran, right)
        self.that(what, found is None, found)

    def keep(self, what, file, ran):
        """Keeps the pair for the Rust, with what it has to say of it. Number 20 is ours alone, and so is 16 at the versions that the Rust reads."""
        if ran.status == 0:
            line = "alike " + ran.err.decode("latin-1").rstrip("\n")
        elif ran.err == b"refused 17\n":
            line = "stops"
        elif ran.err == b"refused 16\n" and 257 <= int.from_bytes(file[4:6], "little") <= 261 or ran.err == b"refused 20\n":
            return
        else:
            line = ran.err.decode("latin-1").rstrip("\n")
        converted = ran.out if ran.status == 0 else b""
        for data in (file, converted):
            self.pairs.write(struct.pack("<I", len(data)) + data)
        self.awaited.append((what, line))

    def by_rust(self):
        """Puts the pairs that were kept to the Rust."""
        self.pairs.seek(0)
        said = subprocess.run([self.rust], stdin=self.pairs, capture_output=True, check=True).stdout.decode().splitlines()
        if len(said) != len(self.awaited):
            sys.exit(f"convert: the Rust answers {len(said)} of {len(self.awaited)} pairs")
        for (what, line), answer in zip(self.awaited, said):
            self.that(f"{what}, by the Rust", answer == line, f"the Rust says {answer!r}, and ours {line!r}")
        return said

    def part(self, name, run):
        """Runs a part and prints its line. What `run` returns is a note for it."""
        checks, differences, began = self.checks, self.differences, time.perf_counter()
        note = run()
        counts = f"{self.checks - checks:,} checks, {self.differences - differences:,} differences"
        print(f"{name}: {counts}, {time.perf_counter() - began:.1f} s" + (f"; {note}" if note else ""), flush=True)
