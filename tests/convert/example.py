"""example.py FOLDER: writes stdin and stdout, the file that the gate has `convert` read and what must come of it, each byte worked out by hand from document 02
(Req 07): dim 3, so two code bytes a slot, seed 5, six slots, a working_dim field of 7 that version 1 ignores, and a tail. Three scales change."""
import sys

SCALES = (
    # binary32, the half, what it is
    ("39 30 C1 7F", "00 7E"),  # a NaN: its fraction is lost, so it counts
    ("00 00 80 47", "00 7C"),  # 65,536: infinity, so it counts
    ("00 00 C0 33", "02 00"),  # 1.5 times 2^-24: between two subnormal halves, to the even one, so it counts
    ("00 00 80 33", "01 00"),  # 2^-24: the least subnormal half
    ("00 00 80 3F", "00 3C"),  # 1
    ("00 00 00 80", "00 80"),  # -0
)
CODES = "01 23 45 67 89 AB CD EF 10 32 54 76"
FIELDS = "03 00 00 00  05 00 00 00 00 00 00 00  06 00 00 00"
OLD = "56 45 43 51  01 00  07 00 " + FIELDS + "".join(" " + old for old, _ in SCALES) + CODES + "74 61 69 6C"
NEW = "56 45 43 51  03 01  00 00 " + FIELDS + "".join(" " + new for _, new in SCALES) + CODES + "00 00 00 00"

for name, text in (("stdin", OLD), ("stdout", NEW)):
    with open(f"{sys.argv[1]}/{name}", "wb") as file:
        file.write(bytes.fromhex(text))
