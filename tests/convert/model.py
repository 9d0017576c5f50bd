"""model.py: what `convert` makes of a file, written from document 02 (Req 07) and document 01. The rounding is no work of ours: Python's struct, format e,
rounds to the nearest half, ties to even, and an OverflowError says where that is no finite one."""
import struct
from collections import namedtuple

MOST_DIM, MOST_COUNT = 4096, 65536
WORD, FLOAT, SHORT, HALF = (struct.Struct(f"<{letter}") for letter in "IfHe")
# What each half reads as.
VALUES = struct.unpack("<65536e", struct.pack("<65536H", *range(65536)))
# Status, standard output (None: void) and error output.
Answer = namedtuple("Answer", "status out err")


def refused(number):
    return Answer(3, None, b"refused %d\n" % number)


def half(pattern):
    """The half of a binary32 scale, and whether that changed it."""
    sign, size = pattern >> 16 & 0x8000, pattern & 0x7FFFFFFF
    if size > 0x7F800000:
        # A NaN keeps its sign alone. Read back, the fraction moves up 13 places: 0x7E00 is 0x7FC00000.
        return sign | 0x7E00, size != 0x7FC00000
    (value,) = FLOAT.unpack(WORD.pack(pattern))
    try:
        (nearest,) = SHORT.unpack(HALF.pack(value))
    except OverflowError:
        nearest = sign | 0x7C00
    return nearest, VALUES[nearest] != value


def halves(patterns):
    """The same of many scales: their halves, and for each whether it changed. Those that are no number up to the largest half, 65,504, are taken one by one."""
    values = struct.unpack(f"<{len(patterns)}f", struct.pack(f"<{len(patterns)}I", *patterns))
    plain = [value if -65504 <= value <= 65504 else 0.0 for value in values]
    nearest = list(struct.unpack(f"<{len(plain)}H", struct.pack(f"<{len(plain)}e", *plain)))
    changed = [VALUES[h] != value for h, value in zip(nearest, plain)]
    for i, value in enumerate(values):
        if not -65504 <= value <= 65504:
            nearest[i], changed[i] = half(patterns[i])
    return nearest, changed


def block_size(dim):
    padded = 1
    while padded < dim:
        padded *= 2
    return (padded * 4 + 7) // 8


def head(version, dim, seed, count):
    return b"VECQ" + struct.pack("<HHIQI", version, 0, dim, seed, count)


def converted(file):
    if len(file) < 24:
        return refused(14)
    if file[:4] != b"VECQ":
        return refused(15)
    version, _, dim, seed, count = struct.unpack_from("<HHIQI", file, 4)
    if version != 1:
        return refused(16)
    if dim > MOST_DIM or count > MOST_COUNT:
        return refused(20)
    codes = 24 + 4 * count
    end = codes + block_size(dim) * count
    if len(file) < end:
        return refused(14)
    if dim == 0:
        return refused(17)
    scales, changed = halves(struct.unpack_from(f"<{count}I", file, 24))
    out = head(259, dim, seed, count) + struct.pack(f"<{count}H", *scales) + file[codes:end] + bytes(4)
    return Answer(0, out, b"%d\n" % sum(changed))
