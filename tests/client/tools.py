"""Tools that judge the command and have no part in it: exact rounding of decimals, hashes, the proved programs `exercise` and `listing`, the byte form."""
import hashlib
import struct
import subprocess
import sys
from fractions import Fraction

from command import EXERCISE, LISTING, ROOT

sys.path.insert(0, str(ROOT / "tests/listing"))
from cases import drawn as drawn_files, given as given_files  # noqa: E402
from expected import listing as listing_by_01  # noqa: E402


def files_to_list():
    """The files of the listing's own test, less those that are over the listing's limits but within document 01's."""
    for name, file, _ in [*given_files(), *drawn_files(150)]:
        dim, count = struct.unpack_from("<I8xI", file.ljust(24), 8)
        if listing_by_01(file) != "20\n" or dim > 4096 or count > 65536:
            yield name, file


def value(pattern):
    """What a finite binary32 is."""
    return Fraction(struct.unpack("<f", struct.pack("<I", pattern))[0])


def binary32(text):
    """The pattern of the binary32 nearest to a decimal, ties to even, in one rounding. Python's two, by way of binary64, are at most one pattern off."""
    exact, sign = abs(Fraction(text)), 0x80000000 if text.startswith("-") else 0
    most = value(0x7F7FFFFF)
    if exact > most:
        # Infinity from halfway to what would be the next number on: 2^103, half a unit of the last place.
        return sign | (0x7F800000 if exact >= most + 2**103 else 0x7F7FFFFF)
    (guess,) = struct.unpack("<I", struct.pack("<f", float(exact)))
    near = [pattern for pattern in (guess - 1, guess, guess + 1) if 0 <= pattern <= 0x7F7FFFFF]
    return sign | min(near, key=lambda pattern: (abs(value(pattern) - exact), pattern % 2))


def digits_needed(pattern):
    """How many digits a rounded decimal needs to read back to the same binary32."""
    number = struct.unpack("<f", struct.pack("<I", pattern))[0]
    return next(digits for digits in range(1, 10) if binary32(f"{number:.{digits - 1}e}") == pattern)


def is_shortest(text, pattern):
    """Whether the decimal reads back to the pattern with no digit too many. Fewer than a rounded one needs are right too, as there may be at a power of two."""
    digits = len(text.split("e")[0].lstrip("-").replace(".", "").strip("0")) or 1
    return binary32(text) == pattern and digits <= digits_needed(pattern)


def sha256(data):
    return hashlib.sha256(data).hexdigest()


def packed(patterns):
    return struct.pack(f"<{len(patterns)}I", *patterns)


def exercise(lines):
    """What the program answers to each line."""
    done = subprocess.run([EXERCISE], input="".join(f"{line}\n" for line in lines).encode(), capture_output=True, check=True)
    answers = done.stdout.decode().splitlines()
    if len(answers) != len(lines):
        sys.exit(f"exercise: {len(answers)} answers to {len(lines)} lines")
    return answers


def listing(file):
    return subprocess.run([LISTING], input=file, capture_output=True, check=True).stdout.decode()


# All that `exercise` holds.
LEND = "lend 100000 1000 1000 1000 1000 40 100000 1000 1000"


def reading(file):
    """The lines that have `exercise` read a file."""
    return [LEND, f"read {file.hex()}"]


def vector(patterns):
    return "".join(f"{pattern:08x}" for pattern in patterns) or "-"


def without_years(file, version, live):
    """A file as it would be were its years all 1, and the years (Req 06: a version 3 above, and 16 bits a slot at the end)."""
    if version < 262:
        return file, (1,) * live
    block = len(file) - 2 * live
    return file[:4] + struct.pack("<H", version - 3) + file[6:block], struct.unpack(f"<{live}H", file[block:])


class Head:
    """What a file states of itself, by documents 01 and 02."""

    def __init__(self, file):
        self.version, working, self.dim, self.seed, self.live = struct.unpack_from("<HHIQI", file, 4)
        self.working = working or self.dim
        self.bits = file[24] if self.version in (261, 264) else 4
        self.residual = self.version in (260, 263)
        older, self.years = without_years(file, self.version, self.live)
        rows = [line.split(" ") for line in listing_by_01(older).splitlines()[1:]]
        self.keys = {int(slot): key for slot, key, _ in rows if key != "-"}


class Asked:
    """A search as the command is asked for it."""

    def __init__(self, k=10, by="slot", cascade=None):
        self.k, self.by, self.cascade = k, by, cascade

    def line(self, query):
        if self.cascade is not None:
            return f"search_cascade {self.k:x} {self.cascade:x} 1000 {vector(query)}"
        return f"{'search' if self.by == 'slot' else 'search_keyed'} {self.k:x} 1000 {vector(query)}"

    def kind(self):
        return "full" if self.cascade is None else f"cascade {self.cascade}"


def hits(file, queries, asked):
    """For each query its hits: slot or key as a number, and the score's pattern."""
    lines = reading(file) + (["enable"] if asked.cascade is not None else []) + [asked.line(query) for query in queries]
    answers = exercise(lines)[-len(queries):] if queries else []
    return [[tuple(int(part, 16) for part in hit.split(":")) for hit in answer.split(" ")[1:]] for answer in answers]
