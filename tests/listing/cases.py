#!/usr/bin/env python3
"""cases.py PROGRAM [RANDOM]: has PROGRAM list the files below and RANDOM more (2,000 without it), made from a fixed seed, and compares each answer with
expected.py, and with the answer that is written here where there is one. It fails if there is a difference."""
import random
import struct
import subprocess
import sys

from expected import listing

# those that are read; those with a key table, with a width byte, with a residual, with years
VERSIONS = tuple(range(257, 265))
KEYED, WIDE, RESIDUAL, DATED = VERSIONS[2:], (261, 264), (260, 263), VERSIONS[5:]


def block_size(working, width):
    padded = 1
    while padded < working:
        padded *= 2
    return -(-padded * width // 8)


def table(entries):
    return struct.pack("<I", len(entries)) + b"".join(struct.pack("<IQ", slot, key) for slot, key in entries)


def make(version, dim=1, working=0, width=4, scales=(), entries=(), count=None, magic=b"VECQ", years=(2027, 1, 0, 65535)):
    """A file in the form that its version has, the scales as patterns, those of version 1 as binary32. `count` states another number of slots than there are scales;
    `years` come in turn."""
    n = len(scales)
    head = magic + struct.pack("<HHIQI", version, working, dim, 0x0123456789ABCDEF, n if count is None else count)
    if version in WIDE:
        head += bytes([width])
    used = dim if working == 0 or version in (1, 257) else working
    codes = bytes(i % 251 for i in range(n * block_size(used, width if version in WIDE else 4)))
    first = struct.pack(f"<{n}I" if version == 1 else f"<{n}H", *scales) + codes
    # the residual's scales are others: they aren't listed
    second = bytes(b ^ 0x55 for b in first) if version in RESIDUAL else b""
    dates = struct.pack(f"<{n}H", *(years[i % len(years)] for i in range(n))) if version in DATED else b""
    return head + first + second + (table(entries) if version >= 259 else b"") + dates


def given():
    """Names, files, and what is known of the answer: all of it, or the number of a refusal; None for what expected.py alone knows."""
    one = (0x3B9A,)
    # document 01's own
    yield "worked by hand", bytes.fromhex("56454351050100000100000001000000000000000100000005" "9A3B" "08" "00000000"), "261 1 1 5 1\n0 - 3B9A\n"

    # ---- a version of each kind
    halves = (0x3B9A, 0x7D01, 0xFE05, 0x0001, 0x8000, 0x7C00, 0xFC00, 0x7FFF, 0x03FF, 0xFFFF)
    lines = "".join(f"{i} - {h:04X}\n" for i, h in enumerate(halves))
    for version in VERSIONS:
        yield f"version {version}, halves as they stand", make(version, 5, scales=halves), f"{version} 5 5 4 {len(halves)}\n{lines}"
    for version in VERSIONS:
        yield f"version {version}, no slot", make(version, 4096), f"{version} 4096 4096 4 0\n"
        field = 5 if version == 257 else 3
        yield f"version {version}, working_dim 3", make(version, 5, 3, scales=halves[:2]), f"{version} 5 {field} 4 2\n" + lines[:18]
        yield f"version {version}, bytes after the end", make(version, 2, scales=one) + b"\xde\xad", None
    for version in WIDE:
        for width in (4, 5, 6):
            yield f"version {version}, width {width}", make(version, 7, width=width, scales=halves), f"{version} 7 7 {width} {len(halves)}\n{lines}"
    for version in DATED:
        for years in ((1,), (0,), (65535, 1)):
            yield f"version {version}, years {years}", make(version, 5, scales=halves, years=years), f"{version} 5 5 4 {len(halves)}\n{lines}"
    keys = ((4, 2**64 - 1), (0, 7), (3, 0), (1, 7))
    for version in KEYED:
        text = f"{version} 5 3 4 6\n0 7 3B9A\n1 7 7D01\n2 - FE05\n3 0 0001\n4 18446744073709551615 8000\n5 - 7C00\n"
        yield f"version {version}, keys that don't rise, one on two slots", make(version, 5, 3, scales=halves[:6], entries=keys) + b"\xde\xad", text

    # ---- refusals, in 01's order
    for size in range(24):
        yield f"{size} bytes", make(261, scales=one)[:size], 14
    yield "another name, 23 bytes", make(261, scales=one, magic=b"VECX")[:23], 14
    yield "another name", make(261, scales=one, magic=b"VECX"), 15
    yield "another name and version", make(2, scales=one, magic=b"vecq"), 15
    for version in (0, 1, 2, 256, 265, 266, 65535):
        yield f"version {version}", make(version, scales=one), 16
    yield "another version, working_dim over dim", make(265, 1, 2, scales=one), 16
    yield from version_1()
    for version in VERSIONS[1:]:
        yield f"version {version}, working_dim over dim", make(version, 1, 2, scales=one), 17
    for version in WIDE:
        yield f"version {version}, working_dim over dim, no width byte", make(version, 1, 2, scales=one)[:24], 17
        yield f"version {version}, no width byte", make(version, scales=one)[:24], 14
        for width in (0, 3, 7, 8, 255):
            yield f"version {version}, width {width}", make(version, width=width, scales=one), 18
        yield f"version {version}, width 7, dim 4,097", make(version, 4097, width=7), 18
    for version in VERSIONS:
        yield f"version {version}, dim 4,097", make(version, 4097), 20
        yield f"version {version}, a block short", make(version, 2, scales=one, count=2)[:24 + (version in WIDE) + 3], 14
        yield f"version {version}, dim 0", make(version, 0, scales=one), 17
        yield f"version {version}, dim 0, a block short", make(version, 0, scales=one)[:24], 14
    yield "65,537 slots", make(259, count=65537), 20
    for version in RESIDUAL:
        whole = make(version, 2, scales=one)
        for size in range(27, len(whole)):
            yield f"version {version}, {size} bytes", whole[:size], 14
    yield "dim 0, the rest missing", make(260, 0, scales=one)[:27], 17
    for version in (261, 262, 264):
        whole = make(version, scales=one, entries=((0, 1),))
        for size in range(28, len(whole)):
            yield f"version {version}, {size} bytes", whole[:size], 14
    for version in KEYED:
        yield f"version {version}, a key for a slot that isn't there", make(version, scales=one, entries=((1, 7),)), 19
        yield f"version {version}, two keys for a slot", make(version, scales=one * 2, entries=((1, 7), (0, 7), (1, 7))), 19
    yield "two keys for a slot, one of them missing", make(259, scales=one, entries=((0, 1), (0, 2)))[:-1], 14
    yield "2^32 - 1 key entries", make(259, scales=one)[:-4] + b"\xff" * 4, 14
    for version in DATED:
        whole = make(version, scales=one * 2, entries=((2, 7),))
        yield f"version {version}, 19 with all its years", whole, 19
        for missing in (1, 2, 3, 4):
            yield f"version {version}, 19 and {missing} bytes of years missing", whole[:-missing], 14

    # ---- limits: slots, code bytes, file bytes
    longest = [(i, 2**64 - 1 - i) for i in range(1024)]
    for version in VERSIONS:
        text = f"{version} 1 1 4 1024\n" + "".join(f"{i} - 0000\n" for i in range(1024))
        yield f"version {version}, 1,024 slots", make(version, scales=(0,) * 1024), text
        yield f"version {version}, 1,025 slots", make(version, scales=(0,) * 1025), 20
        yield f"version {version}, 1,025 slots that aren't there", make(version, count=1025), 20
    text = "261 1 1 6 1024\n" + "".join(f"{i} {2**64 - 1 - i} FFFF\n" for i in range(1024))
    yield "the longest lines", make(261, width=6, scales=(0xFFFF,) * 1024, entries=longest[::-1]), text
    yield "32,768 code bytes", make(259, 4096, scales=one * 16), None
    yield "a block more", make(259, 4096, scales=one * 17), 20
    yield "32,768 code bytes in 1,024 slots", make(257, 64, scales=one * 1024), None
    yield "36,864 code bytes in 1,024 slots", make(261, 64, width=5, scales=one * 1024), 20
    yield "32,768 code bytes at 6 bits", make(261, 4096, width=6, scales=one * 10), None
    yield "at 6 bits, a block more", make(261, 4096, width=6, scales=one * 11), 20
    yield "as many again for the residual", make(260, 64, scales=one * 900, entries=longest[:250]), None
    yield "a residual past its room", make(260, 4096, scales=one * 17), 20
    for version in VERSIONS:
        short = make(version, 3, scales=one)
        yield f"version {version}, 65,536 bytes", short.ljust(65536, b"\0"), f"{version} 3 3 4 1\n0 - 3B9A\n"
        yield f"version {version}, 65,537 bytes", short.ljust(65537, b"\0"), 20
        yield f"version {version}, 200,000 bytes", short.ljust(200000, b"\0"), 20
        yield f"version {version}, 65,537 bytes, dim 0", make(version, 0, scales=one).ljust(65537, b"\0"), 20
    yield "65,537 bytes, another name", make(261, magic=b"VECX").ljust(65537, b"\0"), 15
    yield "65,537 bytes, another version", make(265).ljust(65537, b"\0"), 16
    yield "65,537 bytes, working_dim over dim", make(258, 1, 2).ljust(65537, b"\0"), 17
    yield "65,537 bytes, width 7", make(261, width=7).ljust(65537, b"\0"), 18


def version_1():
    """Document 02, Req 07: version 1 is unknown, so what follows 16 doesn't come of it. These are whole files, and such as would be 14, 17 or 20 of another version."""
    patterns = (0x3F800000, 0x477FE000, 0x477FEFFF, 0x477FF000, 0x33000001, 0x33800000, 0x387FE000, 0x80000000, 0x7F800000, 0x7F800001, 0xFFC00000, 0x3F801000)
    yield "version 1, scales of every kind", make(1, 3, scales=patterns), 16
    yield "version 1, no slot", make(1, 4096), 16
    yield "version 1, working_dim 3", make(1, 5, 3, scales=patterns[:2]), 16
    yield "version 1, 1,024 slots", make(1, scales=(0,) * 1024), 16
    whole = make(1, 2, scales=patterns[:2])
    for size in range(len(whole)):
        yield f"version 1, {size} bytes", whole[:size], 14 if size < 24 else 16
    yield "version 1, bytes after the end", whole + b"\xde\xad", 16
    yield "version 1, another name", make(1, 2, scales=patterns[:2], magic=b"VECR"), 15
    yield "version 1, working_dim over dim", make(1, 1, 2, scales=patterns[:1]), 16
    yield "version 1, dim 0", make(1, 0, scales=patterns[:1]), 16
    yield "version 1, dim 4,097", make(1, 4097), 16
    yield "version 1, 1,025 slots", make(1, scales=(0,) * 1025), 16
    yield "version 1, 65,537 slots", make(1, count=65537), 16
    for size in (65536, 65537, 200000):
        yield f"version 1, {size:,} bytes", whole.ljust(size, b"\0"), 16


def drawn(count):
    """Files of all versions, seldom of version 1, with a mistake in some: a field changed, the end cut off, a byte changed."""
    draw = random.Random(1)
    for i in range(count):
        version = draw.choice((*VERSIONS, *VERSIONS, 1))
        n = draw.choice((0, 1, 2, 3, 7, 40))
        dim = draw.choice((1, 2, 3, 5, 8, 33))
        working = draw.choice((0, 0, 1, dim, draw.randrange(dim + 2)))
        scales = [draw.getrandbits(32 if version == 1 else 16) for _ in range(n)]
        slots = draw.sample(range(n), draw.randrange(n + 1))
        if slots and draw.random() < 0.1:
            slots.append(draw.choice(slots))
        entries = [(slot, draw.choice((0, 7, draw.getrandbits(64)))) for slot in slots]
        years = [draw.choice((0, 1, 1, 2027, draw.getrandbits(16))) for _ in range(n or 1)]
        file = bytearray(make(version, dim, working, draw.choice((4, 5, 6)), scales, entries, years=years))
        kind = draw.randrange(4)
        if kind == 1:
            del file[draw.randrange(len(file) + 1):]
        elif kind == 2:
            file[draw.randrange(len(file))] ^= 1 << draw.randrange(8)
        elif kind == 3:
            file += bytes(draw.randrange(30))
        yield f"drawn {i}", bytes(file), None


def main():
    program = sys.argv[1]
    count = int(sys.argv[2]) if len(sys.argv) > 2 else 2000
    files = numbers = differ = 0
    for name, file, answer in [*given(), *drawn(count)]:
        expected = listing(file)
        if answer is not None and expected != (f"{answer}\n" if isinstance(answer, int) else answer):
            sys.exit(f"listing: {name}: expected.py says {expected[:60]!r}, and cases.py {str(answer)[:60]!r}")
        got = subprocess.run([program], input=file, capture_output=True, check=True).stdout.decode("latin-1")
        files += 1
        numbers += expected.count("\n") == 1 and " " not in expected
        if got != expected:
            differ += 1
            if differ <= 10:
                print(f"listing: {name}: {got[:60]!r}, expected {expected[:60]!r}", file=sys.stderr)
    print(f"listing: {files:,} files, {count:,} of them drawn, {numbers:,} refused: {differ or 'no'} difference{'s' if differ > 1 else ''}")
    sys.exit(differ > 0)


if __name__ == "__main__":
    main()
