//! Indexes filled by a fixed random generator: any codes, plausible scales, several kinds of keys.
use crate::sys::{Arrays, Raw, Record, LIVE, N};
use crate::random::Random;
use std::collections::HashMap;

pub const SEED: u64 = 42;

/// No duty: the Rust has no years, and this one is that of every slot there.
pub const YEAR: u16 = 1;

#[derive(Clone, Copy, PartialEq, Eq)]
pub enum Width {
    Four,
    Five,
    Six,
    Residual,
}

pub const WIDTHS: [Width; 4] = [Width::Four, Width::Five, Width::Six, Width::Residual];

impl Width {
    pub fn bits(self) -> u8 {
        match self {
            Width::Four | Width::Residual => 4,
            Width::Five => 5,
            Width::Six => 6,
        }
    }

    pub fn is_residual(self) -> bool {
        self == Width::Residual
    }

    pub fn name(self) -> &'static str {
        match self {
            Width::Four => "4",
            Width::Five => "5",
            Width::Six => "6",
            Width::Residual => "residual",
        }
    }
}

/// How the slots are keyed.
#[derive(Clone, Copy, PartialEq, Eq)]
pub enum Keys {
    None,
    /// A key each, rising with the slots.
    Rising,
    /// A key each, in no order.
    Random,
    /// One key for all, held in slot order.
    One,
    /// One key for all, held in no order.
    Shuffled,
    /// A key each, all the same modulo 65,521.
    Apart,
    /// 256 keys in turn, which differ in their highest byte alone.
    Top,
}

pub const KEYS: [Keys; 4] = [Keys::None, Keys::Rising, Keys::Random, Keys::One];

/// As a partner who wants our calls to be slow might choose them, and others to compare with.
pub const CHOSEN: [Keys; 5] = [Keys::Rising, Keys::Random, Keys::One, Keys::Apart, Keys::Top];

impl Keys {
    pub fn name(self) -> &'static str {
        match self {
            Keys::None => "none",
            Keys::Rising => "rising",
            Keys::Random => "random",
            Keys::One => "one",
            Keys::Shuffled => "one, shuffled",
            Keys::Apart => "65,521 apart",
            Keys::Top => "top byte",
        }
    }

    /// The key of a slot. Random ones are different: the words of the generator's sequence never repeat.
    pub fn of(self, slot: usize) -> u64 {
        match self {
            Keys::None => 0,
            Keys::Rising => 7 + 3 * slot as u64,
            Keys::Random => Random::new(slot as u64).word(),
            Keys::One | Keys::Shuffled => 5,
            Keys::Apart => 65_521 * slot as u64,
            Keys::Top => 5 + ((slot as u64 % 256) << 56),
        }
    }
}

pub fn block_size(dim: usize, bits: u8) -> usize {
    (dim.next_power_of_two() * bits as usize).div_ceil(8)
}

pub fn bytes(random: &mut Random, length: usize) -> Vec<u8> {
    (0..length.div_ceil(8)).flat_map(|_| random.word().to_le_bytes()).take(length).collect()
}

/// Scales as those of vectors that were added: about one over the root of the padded size.
pub fn scales(random: &mut Random, dim: usize, length: usize) -> Vec<u32> {
    let middle = 1.0 / (dim.next_power_of_two() as f32).sqrt();
    (0..length).map(|_| (middle * (1.0 + 0.1 * random.unit())).to_bits()).collect()
}

pub fn vector(random: &mut Random, dim: usize) -> Vec<f32> {
    (0..dim).map(|_| random.unit()).collect()
}

/// So many live marks are in a word.
pub const MARKS: usize = 64;

/// "slot s at bit s modulo 64 of word s divided by 64" (document 02, Req 02)
pub fn mark(alive: &[u64], slot: usize) -> bool {
    alive[slot / MARKS] >> (slot % MARKS) & 1 == 1
}

pub fn set_mark(alive: &mut [u64], slot: usize, live: bool) {
    let bit = 1 << (slot % MARKS);
    alive[slot / MARKS] = if live { alive[slot / MARKS] | bit } else { alive[slot / MARKS] & !bit };
}

/// So many words, in which the first `n` slots are marked as live and no other bit is set.
pub fn first_marks(n: usize, words: usize) -> Vec<u64> {
    let mut alive = vec![0; words];
    (0..n).for_each(|slot| set_mark(&mut alive, slot, true));
    alive
}

/// An index of `n` live slots without keys or duties (year 1, as the Rust's), in arrays with places for `room`.
pub fn filled(dim: usize, width: Width, n: usize, room: usize) -> Raw {
    let mut random = Random::new((dim * 31 + n) as u64 * 8 + width.name().len() as u64 + width.bits() as u64);
    let bits = width.bits();
    let second = if width.is_residual() { room } else { 0 };
    let block = block_size(dim, bits);
    let arrays = Arrays {
        codes: bytes(&mut random, room * block),
        scales: scales(&mut random, dim, room),
        keys: vec![0; room],
        keyed: vec![false; room],
        held: vec![0; room],
        alive: first_marks(n, room.div_ceil(MARKS)),
        codes2: bytes(&mut random, second * block),
        scales2: scales(&mut random, dim * 100, second),
        years: vec![YEAR; room],
    };
    let record: Record = [dim as u64, dim as u64, SEED, bits as u64, width.is_residual() as u64, n as u64, n as u64, 0];
    Raw { record, arrays }
}

/// Keys the live slots below `n` in one of the ways.
pub fn key(arrays: &mut Arrays, kind: Keys, n: usize) {
    let live = (0..n).filter(|&slot| mark(&arrays.alive, slot)).count();
    let mut order: Vec<u32> = (0..live as u32).collect();
    if kind == Keys::Shuffled {
        let mut random = Random::new(99);
        (1..live).rev().for_each(|i| order.swap(i, random.below(i as u64 + 1) as usize));
    }
    let mut next: HashMap<u64, u32> = HashMap::new();
    for slot in 0..n {
        let on = kind != Keys::None && mark(&arrays.alive, slot);
        arrays.keys[slot] = if on { kind.of(slot) } else { 0 };
        arrays.keyed[slot] = on;
        arrays.held[slot] = 0;
        if on {
            let position = next.entry(arrays.keys[slot]).or_insert(0);
            arrays.held[slot] = if kind == Keys::Shuffled { order[*position as usize] } else { *position };
            *position += 1;
        }
    }
}

/// Makes each slot dead with the chance `share`.
pub fn kill(ours: &mut Raw, share: f64) {
    let mut random = Random::new(77);
    let n = ours.record[N] as usize;
    for slot in 0..n {
        set_mark(&mut ours.arrays.alive, slot, random.below(1 << 20) as f64 >= share * (1u64 << 20) as f64);
    }
    ours.record[LIVE] = (0..n).filter(|&slot| mark(&ours.arrays.alive, slot)).count() as u64;
}

/// Makes every third slot dead.
pub fn kill_thirds(ours: &mut Raw) {
    let n = ours.record[N] as usize;
    (0..n).for_each(|slot| set_mark(&mut ours.arrays.alive, slot, slot % 3 != 2));
    ours.record[LIVE] = (n - n / 3) as u64;
}

/// Leaves `count` live slots, spread evenly.
pub fn spare(ours: &mut Raw, count: usize) {
    let n = ours.record[N] as usize;
    ours.arrays.alive.fill(0);
    (0..count).for_each(|i| set_mark(&mut ours.arrays.alive, i * n / count, true));
    ours.record[LIVE] = count as u64;
}
