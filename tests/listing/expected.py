#!/usr/bin/env python3
"""expected.py <FILE: what the listing of a file is by documents 01 and 02, worked out by Python's struct."""
import struct
import sys


def listing(b):
    long = 65536 < len(b)
    if len(b) < 24:
        return "14\n"
    if b[:4] != b"VECQ":
        return "15\n"
    version, field, dim, seed, n = struct.unpack_from("<HHIQI", b, 4)
    if not 257 <= version <= 264:
        return "16\n"
    if version == 257:
        field = 0
    if field > dim:
        return "17\n"
    working, width, at = field or dim, 4, 24
    if version in (261, 264):
        if len(b) < 25:
            return "14\n"
        width, at = b[24], 25
        if width not in (4, 5, 6):
            return "18\n"
    padded = 1
    while padded < working:
        padded *= 2
    block = -(-padded * width // 8)
    if dim > 4096 or n > 1024 or n * block > 32768 or long:
        return "20\n"
    scales = at
    at += n * (2 + block)
    if len(b) < at:
        return "14\n"
    if dim == 0:
        return "17\n"
    if version in (260, 263):
        at += n * (2 + block)
    if len(b) < at:
        return "14\n"
    keys = {}
    if version >= 259:
        if len(b) < at + 4:
            return "14\n"
        (entries,) = struct.unpack_from("<I", b, at)
        # 02, Req 06: "one year per live slot, in slot order, after the key table"; "A year block cut short is 14, with the rest". It isn't listed.
        years = 2 * n if version >= 262 else 0
        if len(b) < at + 4 + entries * 12 + years:
            return "14\n"
        for slot, key in struct.iter_unpack("<IQ", b[at + 4 : at + 4 + entries * 12]):
            if slot >= n or slot in keys:
                return "19\n"
            keys[slot] = key
    out = f"{version} {dim} {working} {width} {n}\n"
    for i, half in enumerate(struct.unpack_from(f"<{n}H", b, scales)):
        out += f"{i} {keys.get(i, '-')} {half:04X}\n"
    return out


if __name__ == "__main__":
    sys.stdout.write(listing(sys.stdin.buffer.read()))
