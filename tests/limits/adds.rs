//! Adding up to 65,536 slots and past them.
use crate::data::{self, Keys, Width, KEYS, WIDTHS, YEAR};
use crate::kept::{like, refused};
use crate::sys::{Arrays, Raw, LIVE, N};
use crate::random::Random;
use crate::rust::SCALAR;
use crate::{same, MOST_SLOTS};

/// The arrays are longer than any index may use.
const LONG: usize = MOST_SLOTS + 4;
const DIM: usize = 8;

fn name(width: Width, kind: Keys) -> String {
    format!("width {}, keys {}", width.name(), kind.name())
}

/// From an empty index to a full one by `add` alone.
pub fn one_after_another() {
    let mut ours = data::filled(2, Width::Four, 0, LONG);
    same::equal("new", ours.new(2, 9), Ok(()));
    same::equal("set_bits", ours.set_bits(4), Ok(()));
    let mut rust = (SCALAR.index_of)(&ours);
    let mut random = Random::new(21);
    for slot in 0..MOST_SLOTS {
        let vector = data::vector(&mut random, 2);
        same::equal("a slot that was added", ours.add(&vector, YEAR), Ok(slot));
        rust.add(&vector);
    }
    like("65,536 adds", &ours, rust.as_ref());
    refused("the 65,537th add", &mut ours, 8, |o| o.add(&[1.0, 0.0], YEAR));
}

/// The 65,536th add is accepted, the 65,537th is 8; overwriting goes on, and after a compaction there is room again.
pub fn the_last() {
    let vector = data::vector(&mut Random::new(22), DIM);
    for width in WIDTHS {
        for kind in KEYS {
            let what = name(width, kind);
            let mut ours = data::filled(DIM, width, MOST_SLOTS - 1, LONG);
            data::key(&mut ours.arrays, kind, MOST_SLOTS - 1);
            let mut rust = (SCALAR.index_of)(&ours);
            let last = MOST_SLOTS - 1;
            let key = kind.of(last);
            match kind {
                Keys::None => same::equal(&what, ours.add(&vector, YEAR), Ok(rust.add(&vector))),
                Keys::One => same::equal(&what, ours.add_keyed_multi(key, &vector, YEAR), Ok(rust.add_keyed_multi(key, &vector))),
                _ => same::equal(&what, ours.add_keyed(key, &vector, YEAR, YEAR), Ok(rust.add_keyed(key, &vector))),
            }
            same::equal(&what, ours.record[N], MOST_SLOTS as u64);
            like(&what, &ours, rust.as_ref());
            refused(&what, &mut ours, 8, |o| o.add(&vector, YEAR));
            refused(&what, &mut ours, 8, |o| o.add_keyed(2, &vector, YEAR, YEAR));
            refused(&what, &mut ours, 8, |o| o.add_keyed_multi(key, &vector, YEAR));
            if kind != Keys::None {
                let other = data::vector(&mut Random::new(23), DIM);
                same::equal(&what, ours.add_keyed(key, &other, YEAR, YEAR), Ok(rust.add_keyed(key, &other)));
                like(&what, &ours, rust.as_ref());
            }
            freed(&what, ours, kind, &vector);
        }
    }
}

/// Places freed by removal serve again after compaction.
fn freed(what: &str, mut ours: Raw, kind: Keys, vector: &[f32]) {
    data::kill(&mut ours, 0.001);
    data::key(&mut ours.arrays, kind, MOST_SLOTS);
    refused(what, &mut ours, 8, |o| o.add(vector, YEAR));
    let mut rust = (SCALAR.index_of)(&ours);
    same::equal(what, ours.compact(), Ok(()));
    rust.compact();
    if ours.record[crate::sys::RESIDUAL] == 0 {
        like(what, &ours, rust.as_ref());
    }
    let live = ours.record[LIVE] as usize;
    same::check(what, live < MOST_SLOTS, || "nothing was dead".to_string());
    same::equal(what, ours.add(vector, YEAR), Ok(live));
    if ours.record[crate::sys::RESIDUAL] == 0 {
        rust.add(vector);
        like(what, &ours, rust.as_ref());
    }
}

/// One slot more than there may be: every call that is lent the index refuses it.
pub fn past_the_most() {
    let vector = data::vector(&mut Random::new(24), DIM);
    let (mut slots, mut names, mut scores) = (vec![7; 10], vec![7; 10], vec![7.0; 10]);
    let mut file = vec![7; 1 << 20];
    for width in WIDTHS {
        for kind in [Keys::None, Keys::Rising] {
            let what = format!("65,537 slots, {}", name(width, kind));
            let mut ours = data::filled(DIM, width, MOST_SLOTS + 1, LONG);
            data::key(&mut ours.arrays, kind, MOST_SLOTS + 1);
            refused(&what, &mut ours, 13, |o| o.add(&vector, YEAR));
            refused(&what, &mut ours, 13, |o| o.add_keyed(7, &vector, YEAR, YEAR));
            refused(&what, &mut ours, 13, |o| o.add_keyed_multi(7, &vector, YEAR));
            refused(&what, &mut ours, 13, |o| o.search(&vector, 10, &mut slots, &mut scores));
            refused(&what, &mut ours, 13, |o| o.search_keyed(&vector, 10, &mut names, &mut scores));
            refused(&what, &mut ours, 13, |o| o.search_cascade(&vector, 10, 20, &mut slots, &mut scores));
            refused(&what, &mut ours, 13, |o| o.compact());
            refused(&what, &mut ours, 13, |o| o.to_bytes(&mut file));
            refused(&what, &mut ours, 13, |o| o.set_bits(4));
            refused(&what, &mut ours, 13, |o| o.enable_cascade());
            let kept = slots.iter().all(|&s| s == 7) && names.iter().all(|&s| s == 7) && scores.iter().all(|&s| s == 7.0) && file.iter().all(|&b| b == 7);
            same::check(&what, kept, || "a result or the file changed".to_string());
        }
    }
}

/// Cuts one of the arrays to `slots` places, or to `bytes` of codes, or to as many words of live marks as `slots` fill.
fn shorten(arrays: &mut Arrays, which: usize, slots: usize, bytes: usize) {
    match which {
        0 => arrays.codes.truncate(bytes),
        1 => arrays.scales.truncate(slots),
        2 => arrays.keys.truncate(slots),
        3 => arrays.keyed.truncate(slots),
        4 => arrays.held.truncate(slots),
        5 => arrays.alive.truncate(slots / data::MARKS),
        6 => arrays.years.truncate(slots),
        7 => arrays.codes2.truncate(bytes),
        _ => arrays.scales2.truncate(slots),
    }
}

/// Room is that of the shortest array, residual ones only if residual: full is 8, too short 13, and 20 in reading. Making is 13 where an array holds no slot at the width
/// that an index is made with, 5, or 4 if residual.
pub fn the_shortest() {
    // Sixteen words of live marks are full.
    const SLOTS: usize = 1024;
    let vector = data::vector(&mut Random::new(25), DIM);
    for width in WIDTHS {
        let block = data::block_size(DIM, width.bits());
        for which in 0..if width.is_residual() { 9 } else { 7 } {
            let what = format!("width {}, array {which} the shortest", width.name());
            let mut ours = data::filled(DIM, width, SLOTS, SLOTS + 5);
            shorten(&mut ours.arrays, which, SLOTS, SLOTS * block);
            refused(&what, &mut ours, 8, |o| o.add(&vector, YEAR));
            let file = (SCALAR.index_of)(&ours).to_bytes();
            shorten(&mut ours.arrays, which, SLOTS - 1, SLOTS * block - 1);
            refused(&what, &mut ours, 13, |o| o.add(&vector, YEAR));
            refused(&what, &mut ours, 20, |o| o.from_bytes(&file));
            if width.is_residual() {
                shorten(&mut ours.arrays, which, 0, data::block_size(DIM, 4) - 1);
                refused(&what, &mut ours, 13, |o| o.with_residual(DIM, 1));
            } else {
                shorten(&mut ours.arrays, which, 0, data::block_size(DIM, 5) - 1);
                refused(&what, &mut ours, 13, |o| o.new(DIM, 1));
            }
        }
    }
}
