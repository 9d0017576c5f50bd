#!/usr/bin/env python3
"""patch.py FOLDER [--published]: makes the copy of the Rust core in FOLDER the one that the oracle links. With --published its choice between scalar
and vector instructions stays as it is: the benchmark measures both.

Each row is a file, a whole line of it but for a comment at its end, and the line that takes its place. A line that is not there exactly once is an
error: then the sources are not those that this page was written for, and nothing may be compared with them."""
import os
import sys

# The vector-instruction branches are left out of the index (document 01), so the oracle takes the scalar ones.
SCALAR = [("store.rs", '        std::is_x86_feature_detected!("avx2")', "        false")]
ROWS = [
    # Private functions that the oracle calls.
    ("format.rs", "fn f32_to_f16_bits(x: f32) -> u16 {", "pub fn f32_to_f16_bits(x: f32) -> u16 {"),
    ("format.rs", "pub(crate) fn f16_bits_to_f32(h: u16) -> f32 {", "pub fn f16_bits_to_f32(h: u16) -> f32 {"),
    ("rhdh.rs", "struct SignStream {", "pub struct SignStream {"),
    ("rhdh.rs", "    fn new(seed: u64) -> Self {", "    pub fn new(seed: u64) -> Self {"),
    ("rhdh.rs", "    fn next_sign(&mut self) -> f32 {", "    pub fn next_sign(&mut self) -> f32 {"),
    # Fields that the oracle reads, and sets where no call leads there (spare bits, any scale, a residual index with fewer working dimensions,
    # an index that a script's `set` and `field` describe).
    ("store.rs", "    pub(crate) codes: Vec<u8>,", "    pub codes: Vec<u8>,"),
    ("store.rs", "    pub(crate) scales: Vec<f32>,", "    pub scales: Vec<f32>,"),
    ("store.rs", "    pub(crate) residual: bool,", "    pub residual: bool,"),
    ("store.rs", "    pub(crate) codes2: Vec<u8>,", "    pub codes2: Vec<u8>,"),
    ("store.rs", "    pub(crate) scales2: Vec<f32>,", "    pub scales2: Vec<f32>,"),
    ("store.rs", "    pub(crate) n: usize,", "    pub n: usize,"),
    ("store.rs", "    keys: Vec<Option<u64>>,", "    pub keys: Vec<Option<u64>>,"),
    ("store.rs", "    key_to_slot: HashMap<u64, usize>,", "    pub key_to_slot: HashMap<u64, usize>,"),
    ("store.rs", "    key_to_slots: HashMap<u64, Vec<usize>>,", "    pub key_to_slots: HashMap<u64, Vec<usize>>,"),
    ("store.rs", "    signature: Option<Vec<u8>>,", "    pub signature: Option<Vec<u8>>,"),
    ("store.rs", "    alive: Vec<bool>,", "    pub alive: Vec<bool>,"),
    ("store.rs", "    live: usize,", "    pub live: usize,"),
    ("store.rs", "    pub(crate) bits: u8,", "    pub bits: u8,"),
    ("store.rs", "    rotated: Vec<f32>,", "    pub rotated: Vec<f32>,"),
    ("store.rs", "    rnorm: f32,", "    pub rnorm: f32,"),
    # A call that may stop midway is made on a copy.
    ("store.rs", "pub struct VecqIndex {", "#[derive(Clone)] pub struct VecqIndex {"),
    ("rhdh.rs", "pub struct Rhdh {", "#[derive(Clone)] pub struct Rhdh {"),
]


def main():
    folder = sys.argv[1]
    rows = ROWS if sys.argv[2:] == ["--published"] else SCALAR + ROWS
    for name, old, new in rows:
        path = os.path.join(folder, name)
        with open(path, encoding="utf-8") as f:
            lines = f.read().split("\n")
        at = [i for i, line in enumerate(lines) if line.split(" //")[0].rstrip() == old]
        if len(at) != 1:
            sys.exit(f"patch.py: {name} has {len(at)} lines that read {old!r}, and must have one")
        lines[at[0]] = new
        with open(path, "w", encoding="utf-8") as f:
            f.write("\n".join(lines))
    print(f"patch.py: {len(rows)} lines patched in {folder}")


main()
