#!/usr/bin/env python3
"""check.py PROGRAM [RUST]: tests/convert/run's checks of PROGRAM, a built `convert`. RUST is what tests/convert/build leaves; without it the Rust is not asked."""
import itertools
import random
import struct
import sys
import time

import failing
import largest
import model
from files import BY_HAND, any_scales, boundaries, make
from judge import Judge
from model import MOST_COUNT, MOST_DIM, block_size
from program import Program

SEED, DRAWN = 7, 3000
ONE = 0x3F800001  # it changes


def by_hand(program, judge):
    """Files whose answer is written beside them, and each scale of files.py alone in a file."""
    def head(version, field, dim, count):
        return "56454351" f"{version} {field} {dim} EFCDAB8967452301 {count}"

    rows = (
        ("one slot", head("0100", "0500", "01000000", "01000000") + "0100803F 08", head("0301", "0000", "01000000", "01000000") + "003C 08 00000000", 1),
        ("no slot", head("0100", "0000", "07000000", "00000000"), head("0301", "0000", "07000000", "00000000") + "00000000", 0),
        # dim 3, padded 4: two bytes a slot; a tail of two bytes
        ("two slots", head("0100", "FFFF", "03000000", "02000000") + "00F07F47 010080FF 11223344 DEAD",
         head("0301", "0000", "03000000", "02000000") + "007C 00FE 11223344 00000000", 2),
        ("dim 0, its slot there", head("0100", "0000", "00000000", "01000000") + "0000803F 08", None, 17),
    )
    for what, file, out, number in rows:
        file = bytes.fromhex(file)
        right = model.refused(number) if out is None else model.Answer(0, bytes.fromhex(out), b"%d\n" % number)
        if model.converted(file) != right:
            sys.exit(f"convert: {what}: the model says {model.converted(file)}")
        judge.by_model(what, file, program.whole(file))
    for pattern, half, changed in BY_HAND:
        if model.half(pattern) != (half, changed) or model.halves([pattern]) != ([half], [changed]):
            sys.exit(f"convert: {pattern:08X}: the model says {model.half(pattern)}, and by hand it is {half:04X}, {changed}")
        file = make(1, [pattern])
        judge.by_model(f"scale {pattern:08X}", file, program.whole(file))


def scales(program, judge):
    """Files full of scales. Those that change and those that don't stand apart as well, so that no two wrong counts make up for one another."""
    draw, patterns = random.Random(SEED), boundaries()
    drawn = [draw.getrandbits(32) for _ in range(MOST_COUNT)]
    # within the range of halves
    drawn += [draw.getrandbits(1) << 31 | draw.randrange(0x32800000, 0x47800000) for _ in range(2 * MOST_COUNT)]
    changed = model.halves(patterns)[1]
    kept = [p for p, changes in zip(patterns, changed) if not changes]
    changing = [p for p, changes in zip(patterns, changed) if changes]
    mixed = patterns + drawn
    draw.shuffle(mixed)
    for kind, those in (("that stay", kept), ("that change", changing), ("of both kinds", mixed)):
        for start in range(0, len(those), MOST_COUNT):
            file = make(1, those[start : start + MOST_COUNT])
            ran = program.whole(file)
            judge.by_model(f"scales {kind}, from the {start:,}th", file, ran)
            judge.keep(f"scales {kind}, from the {start:,}th", file, ran)
    # Each length of the count. The order tells nothing, so those that change stand last.
    for count in (0, 1, 9, 10, 11, 99, 100, 999, 1000, 1001, 9999, 10000, 65535, 65536):
        file = make(2, [0x3F800000] * (MOST_COUNT - count) + [ONE] * count)
        judge.by_model(f"{count:,} scales of {MOST_COUNT:,} change", file, program.whole(file))
    return f"{len(patterns):,} scales at the bounds of rounding, {len(drawn):,} drawn"


def cuts(program, judge):
    """Files cut at every byte."""
    draw = random.Random(SEED)
    for dim, count in ((1, 7), (2, 5), (3, 6), (17, 5), (0, 4), (5, 0), (4096, 0)):
        file = make(dim, any_scales(draw, count))
        for size in range(len(file) + 1):
            number = 14 if size < len(file) else 17 if dim == 0 else 0
            judge.by_model(f"dim {dim}, {count} slots, {size} bytes of {len(file)}", file[:size], program.whole(file[:size]), number)
    # Larger ones near each end of a part.
    for dim, count in ((4096, 3), (1, 65536), (5, 8189)):
        file = make(dim, any_scales(draw, count))
        codes = 24 + 4 * count
        near = {codes - 4, codes - 1, codes, codes + 1, codes + block_size(dim), len(file) - block_size(dim), len(file) - 1}
        for size in sorted({0, 23, 24, 25, 27} | near):
            judge.by_model(f"dim {dim}, {count:,} slots, {size:,} bytes of {len(file):,}", file[:size], program.whole(file[:size]), 14)


def refusals(program, judge):
    def case(what, file, number):
        judge.by_model(what, file, program.whole(file), number)

    # Each byte and bit of the name and the version.
    good = make(3, [ONE] * 2)
    for at, value in itertools.product(range(4), range(256)):
        if value != good[at]:
            case(f"byte {at} is {value:02X}", good[:at] + bytes([value]) + good[at + 1:], 15)
    for name in (b"vecq", b"QCEV", b"\0\0\0\0", b"VECR"):
        case(f"name {name}", make(3, [ONE], magic=name), 15)
    versions = {*range(300), *range(512, 768), *(1 << bit for bit in range(16)), *(1 << bit | 1 for bit in range(1, 16)), 0xFFFE, 0xFFFF} - {1}
    for version in sorted(versions):
        case(f"version {version}", make(3, [ONE] * 2, version=version) + bytes(4), 16)

    # 20 by dim and count alone, whatever is there. The working_dim field is no test.
    large = {MOST_DIM + 1, 5000, 65536, 65537, 2**32 - 1, *(1 << bit for bit in range(13, 32)), *(1 << bit | 1 for bit in range(16, 32))}
    for dim in sorted(large):
        case(f"dim {dim}", make(dim, count=0), 20)
        case(f"dim {dim}, slots not there", make(dim, count=9), 20)
    for count in sorted({MOST_COUNT + 1, 2**32 - 1, *(1 << bit for bit in range(17, 32)), *(1 << bit | 1 for bit in range(17, 32))}):
        for dim in (0, 1, 3, MOST_DIM):
            case(f"dim {dim}, count {count}", make(dim, count=count), 20)
    case("count 65,537, all there", make(1, [ONE] * (MOST_COUNT + 1)), 20)
    case("dim 4,097, all there", make(4097, [ONE], codes=bytes(4096)), 20)
    for field in (1, 2, 3, 4, 255, 256, 4097, 65535):
        case(f"working_dim {field} over or under dim", make(3, [ONE] * 3, field=field), 0)
        case(f"working_dim {field}, dim 0", make(0, [ONE], field=field), 17)

    # Every set of faults: the first in order is said.
    for faults in itertools.product((False, True), repeat=6):
        for dim in (3, 0, 5000, 2**32 - 1):
            few, name, version, count, cut, tail = faults
            head = {"magic": b"VECX" if name else b"VECQ", "version": 2 if version else 1, "count": 65537 if count else None, "field": 4}
            file = make(dim, [ONE] * 3, codes=b"\x2a" * 3 * block_size(min(dim, 3)), **head)
            file = file[:23] if few else file[:-1] if cut else file + bytes(4) if tail else file
            number = 14 if few else 15 if name else 16 if version else 20 if count or dim > 4096 else 14 if cut else 17 if dim == 0 else 0
            named = zip(("23 bytes, ", "another name, ", "version 2, ", "count 65,537, ", "cut, ", "a tail, "), faults)
            case("".join(name for name, there in named if there) + f"dim {dim}", file, number)
    for size in range(24):
        case(f"{size} bytes of 255", b"\xff" * size, 14)
    case("dim 0, cut in the scales", make(0, [ONE] * 3)[:30], 14)
    case("dim 0, five bytes a slot needed", make(0, [ONE] * 3)[: 24 + 14], 14)
    case("dim 0, no slot", make(0), 17)
    case("dim 0, 65,536 slots", make(0, [ONE] * MOST_COUNT), 17)
    case("dim 0, 65,536 slots, a byte short", make(0, [ONE] * MOST_COUNT)[:-1], 14)
    case("its own output", model.converted(good).out, 16)


def tails(program, judge):
    """What follows the codes is dropped."""
    draw = random.Random(SEED)
    for dim, count in ((1, 3), (3, 2), (17, 0), (4096, 1), (1, 0)):
        file = make(dim, any_scales(draw, count))
        after = [draw.randbytes(n) for n in (*range(1, 14), 24, 100, 4095, 4096, 65536 - len(file), 65536, 100000)]
        after += [bytes(1), bytes(4), b"\n", b"\x01\0\0\0" + bytes(12), file, file[:10], model.converted(file).out, bytes(1 << 20)]
        for tail in after:
            judge.by_model(f"dim {dim}, {count} slots, a tail of {len(tail):,} bytes", file + tail, program.whole(file + tail), 0)
        judge.by_model(f"dim {dim}, {count} slots, read from the 1,000th byte on", file, program.whole(bytes(999) + file, 999), 0)


def sizes(program, judge):
    """Dims, counts, and lengths at which a buffer could end."""
    draw = random.Random(SEED)

    def sized(what, dim, count):
        codes = draw.randbytes(count * block_size(dim))
        file = make(dim, any_scales(draw, count), codes=codes, seed=draw.getrandbits(64), field=draw.getrandbits(16))
        for size in (len(file), len(file) - 1, len(file) + 1):
            given = (file + b"\x5a")[:size]
            ran = program.whole(given)
            judge.by_model(f"{what}, {size - len(file):+} bytes", given, ran, 14 if size < len(file) else 0)
            if size == len(file):
                judge.keep(what, given, ran)

    dims = {*range(1, 40), *(1 << bit for bit in range(13)), *((1 << bit) - 1 for bit in range(1, 13)), *((1 << bit) + 1 for bit in range(12)), 100, 1000, 3000}
    for dim in sorted(dims):
        sized(f"dim {dim}", dim, draw.choice((1, 2, 3, 5)))
    for dim, counts in ((1, (1, 255, 256, 257, 32767, 32768, 65535, 65536)), (3, (4095, 4096, 4097, 65536)), (33, (1000, 16384)), (2049, (33,)), (4096, (1, 2, 100))):
        for count in counts:
            sized(f"dim {dim}, {count:,} slots", dim, count)
    for bit in range(6, 19):
        end = 1 << bit
        for what, dim, head, each in (("the file ends", 5, 24, 8), ("its scales end", 1, 24, 4), ("the halves end", 1, 24, 2), ("the output ends", 3, 28, 4)):
            if (end - head) // each <= MOST_COUNT:
                assert (end - head) % each == 0
                sized(f"{what} at {end:,}", dim, (end - head) // each)
    for _ in range(30):
        sized("any dim, any count", draw.randrange(1, 300), draw.randrange(2000))


def pieces(program, judge):
    """The same file through a pipe, in pieces that no read joins."""
    draw = random.Random(SEED)

    def fed(what, file, cut_at, number=None, pause=lambda: None):
        places = [0, *cut_at, len(file)]
        judge.by_model(what, file, program.pieces([file[a:b] for a, b in zip(places, places[1:]) if a < b], pause), number)

    for dim, count in ((1, 9), (3, 6), (17, 3), (5, 0), (0, 3)):
        file = make(dim, any_scales(draw, count), field=9)
        number = 17 if dim == 0 else 0
        for tail in (b"", b"tail"):
            given = file + tail
            fed(f"dim {dim}, {count} slots, {len(tail)} bytes of tail, byte for byte", given, range(1, len(given)), number)
        fed(f"dim {dim}, {count} slots, byte for byte, one byte short", file[:-1], range(1, len(file) - 1), 14)
        for at in range(1, len(file)):
            fed(f"dim {dim}, {count} slots, in two pieces, cut at {at}", file, [at], number)
            fed(f"dim {dim}, {count} slots, {at} bytes through a pipe", file[:at], [], 14)
        for at in range(1, 22):
            fed(f"dim {dim}, {count} slots, three bytes alone from {at} on", file, [at, at + 3], number)
    for what, file, number in (
        ("nothing", b"", 14), ("another name", make(1, [ONE], magic=b"VECX"), 15), ("version 257", make(1, [ONE], version=257), 16),
        ("dim 4,097", make(4097), 20), ("23 bytes", make(1)[:23], 14),
    ):
        fed(f"{what}, byte for byte", file, range(1, len(file)), number)
    for i in range(60):
        file = make(draw.choice((1, 2, 3, 17, 100)), any_scales(draw, draw.randrange(60)), field=draw.getrandbits(16))
        given = file + draw.randbytes(draw.choice((0, 0, 5))) if i % 4 else file[: draw.randrange(len(file))]
        cut_at = sorted(draw.randrange(len(given) + 1) for _ in range(draw.randrange(1, 9)))
        fed(f"pieces drawn, {i}", given, cut_at, None, lambda: time.sleep(draw.choice((0, 0, 0.001))))
    # Scales and codes over many buffers, each piece ending where it will.
    for dim, count, most in ((1, 65536, 30000), (5, 50000, 100000), (4096, 200, 5000), (9, 3000, 700)):
        file = make(dim, any_scales(draw, count), codes=draw.randbytes(count * block_size(dim)))
        for tail in (b"", draw.randbytes(70000)):
            given, cut_at = file + tail, []
            while sum(cut_at[-1:]) < len(given):
                cut_at.append(sum(cut_at[-1:]) + draw.randrange(1, most))
            fed(f"dim {dim}, {count:,} slots in pieces of up to {most:,} bytes, {len(tail):,} bytes of tail", given, cut_at[:-1], 0)


def by_the_rust(program, judge):
    """Drawn files, some damaged, and those kept above."""
    draw = random.Random(SEED)
    dims = (1, 1, 2, 3, 4, 5, 7, 8, 9, 16, 17, 33, 64, 100)
    refused = 0
    for i in range(DRAWN):
        dim = draw.choice(dims) if draw.random() < 0.98 else draw.randrange(1, MOST_DIM + 1)
        count = draw.choice((0, 1, 2, 3, 7, 20, draw.randrange(200)))
        codes, field = draw.randbytes(count * block_size(dim)), draw.choice((0, dim, draw.getrandbits(16)))
        file = bytearray(make(dim, any_scales(draw, count), codes=codes, seed=draw.getrandbits(64), field=field))
        kind = draw.randrange(6)
        if kind == 0:
            del file[draw.randrange(len(file) + 1):]
        elif kind == 1:
            file[draw.randrange(min(len(file), 60))] ^= 1 << draw.randrange(8)
        elif kind == 2:
            file += draw.randbytes(draw.randrange(40))
        elif kind == 3 and i % 5 == 0:
            struct.pack_into("<I", file, 8, 0)
        file = bytes(file)
        ran = program.whole(file)
        refused += ran.status != 0
        judge.by_model(f"drawn {i}", file, ran)
        judge.keep(f"drawn {i}", file, ran)
    drawn = f"{DRAWN:,} files drawn (seed {SEED}), {refused:,} of them refused"
    if judge.rust is None:
        return f"{drawn}; the Rust is not asked"
    said = judge.by_rust()
    alike = sum(line.startswith("alike ") for line in said)
    return f"{drawn}; of {len(said):,} files the Rust reads {alike:,} alike and refuses {len(said) - alike:,}"


def main():
    program, judge = Program(sys.argv[1]), Judge(sys.argv[2] if len(sys.argv) > 2 else None)
    parts = (
        ("by hand", by_hand), ("scales", scales), ("cuts", cuts), ("refusals", refusals), ("tails", tails), ("sizes", sizes), ("pieces", pieces),
        ("drawn files", by_the_rust), ("failures", failing.failures), ("the largest file", largest.largest),
    )
    for name, part in parts:
        judge.part(name, lambda: part(program, judge))
    print(f"convert: {judge.checks} checks, {judge.differences} differences")
    sys.exit(judge.differences > 0)


if __name__ == "__main__":
    main()
