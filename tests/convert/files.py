"""files.py: version 1 files, damaged ones too, and the scales that stand in them."""
import struct

from model import FLOAT, VALUES, WORD, block_size

SEED = 0x0123456789ABCDEF
# Its parts are unlike at all distances but multiples of 64,256.
PATTERN = bytes(i * 150 + i // 251 & 255 for i in range(251 * 256))


def make(dim=1, scales=(), count=None, field=0, codes=None, version=1, magic=b"VECQ", seed=SEED):
    """A file whose scales are patterns. `count` states another number of slots than there are scales."""
    n = len(scales)
    if codes is None:
        size = n * block_size(dim)
        codes = (PATTERN * (size // len(PATTERN) + 1))[:size]
    return magic + struct.pack("<HHIQI", version, field, dim, seed, n if count is None else count) + struct.pack(f"<{n}I", *scales) + codes


def any_scales(draw, n):
    """Scales of every kind, since patterns drawn from all are nearly all out of a half's range."""
    if n > 4096:
        return draw.choices(any_scales(draw, 4096), k=n)
    kinds = (
        lambda: draw.getrandbits(32),
        lambda: pattern_of(draw.uniform(-2, 2)),
        # a half as it stands, and beside it
        lambda: widened(draw.getrandbits(16)),
        lambda: widened(draw.getrandbits(16)) + draw.choice((1, 0xFFF, 0x1000, 0x1001, 0x2FFF, 0x3000)) & 0xFFFFFFFF,
        # around the subnormal halves, and around the largest
        lambda: draw.getrandbits(1) << 31 | draw.randrange(0x32800000, 0x39000000),
        lambda: draw.getrandbits(1) << 31 | draw.randrange(0x477FD000, 0x47801000),
        lambda: draw.choice((0x7FC00000, 0xFFC00000, 0x80000000, 0, 0x7F800000, 0xFF800000, 0x7F800000 | draw.getrandbits(23))),
    )
    kind = draw.choice((None, *kinds))
    return [(kind or draw.choice(kinds))() for _ in range(n)]


def pattern_of(value):
    return WORD.unpack(FLOAT.pack(value))[0]


def widened(h):
    """The binary32 pattern of a half's value; a NaN's is of any kind."""
    value = VALUES[h]
    return pattern_of(value) if value == value else h >> 15 << 31 | 0x7F800000 | (h & 0x3FF) << 13


def boundaries():
    """Each finite half, the midpoint between it and the next (65,536 after the largest), and the patterns below and above these; infinities and NaNs; both signs."""
    values = (*VALUES[:0x7C00], 65536.0)
    patterns = {0, 1}
    for here, after in zip(values, values[1:]):
        for value in (here, (here + after) / 2):
            p = pattern_of(value)
            assert FLOAT.unpack(WORD.pack(p))[0] == value
            patterns |= {max(p, 1) - 1, p, p + 1}
    patterns |= {0x47800000, 0x47800001, 0x7F7FFFFF, 0x7F800000}
    patterns |= {exponent << 23 | fraction for exponent in range(255) for fraction in (0, 1, 0x1000, 0x400000, 0x7FFFFF)}
    # NaNs of one or two bits, and all but one or two
    fractions = {1 << a | 1 << b for a in range(23) for b in range(23)}
    fractions |= {0x7FFFFF ^ fraction for fraction in fractions} | {*range(1, 17)} | {*range(0x7FFFF0, 0x800000)}
    patterns |= {0x7F800000 | fraction for fraction in fractions}
    return sorted(patterns | {p | 0x80000000 for p in patterns})


# Scales, their halves and whether they changed, worked out by hand.
BY_HAND = (
    (0x00000000, 0x0000, 0), (0x80000000, 0x8000, 0),  # -0 stays
    (0x3F800000, 0x3C00, 0), (0x3F800001, 0x3C00, 1), (0x3F801000, 0x3C00, 1), (0x3F801001, 0x3C01, 1), (0x3F803000, 0x3C02, 1), (0xBF803000, 0xBC02, 1),
    # 65,504 is the largest; from 65,520 on it is infinity, which counts
    (0x477FE000, 0x7BFF, 0), (0x477FEFFF, 0x7BFF, 1), (0x477FF000, 0x7C00, 1), (0xC77FF000, 0xFC00, 1), (0x47800000, 0x7C00, 1), (0x7F7FFFFF, 0x7C00, 1),
    (0x7F800000, 0x7C00, 0), (0xFF800000, 0xFC00, 0),
    # of the NaNs these two survive
    (0x7FC00000, 0x7E00, 0), (0xFFC00000, 0xFE00, 0),
    (0x7FC00001, 0x7E00, 1), (0x7F800001, 0x7E00, 1), (0xFF800001, 0xFE00, 1), (0x7FFFFFFF, 0x7E00, 1), (0xFFFFFFFF, 0xFE00, 1), (0x7FA00000, 0x7E00, 1),
    (0x7FC02000, 0x7E00, 1), (0xFFE00000, 0xFE00, 1), (0x7F802000, 0x7E00, 1),
    # subnormal halves: 2^-25 is halfway between 0 and the least, 2^-24
    (0x33000000, 0x0000, 1), (0x33000001, 0x0001, 1), (0xB3000000, 0x8000, 1), (0x33800000, 0x0001, 0), (0x33C00000, 0x0002, 1), (0x34200000, 0x0002, 1),
    (0x387FC000, 0x03FF, 0), (0x387FDFFF, 0x03FF, 1), (0x387FE000, 0x0400, 1), (0x38800000, 0x0400, 0), (0x38801000, 0x0400, 1), (0x38803000, 0x0402, 1),
    (0x00000001, 0x0000, 1), (0x807FFFFF, 0x8000, 1),
)
