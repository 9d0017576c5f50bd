//! As many entries as there may be.
use crate::data::{self, Keys, Width, WIDTHS, YEAR};
use crate::kept::{like, refused};
use crate::sys::{self, Raw, CASCADE};
use crate::random::Random;
use crate::rust::{Rust, SCALAR};
use crate::{same, MOST_DIM, MOST_SLOTS};

const SLOTS: usize = 24;

pub fn most_entries() {
    for width in WIDTHS {
        let mut ours = data::filled(MOST_DIM, width, 0, SLOTS);
        refused("4,097 entries", &mut ours, 4, |o| o.new(MOST_DIM + 1, 1));
        refused("4,097 entries, residual", &mut ours, 4, |o| o.with_residual(MOST_DIM + 1, 1));
        refused("4,097 working entries", &mut ours, 4, |o| o.with_working_dim(MOST_DIM, MOST_DIM + 1, 1));
        for working in if width.is_residual() { vec![MOST_DIM] } else { vec![MOST_DIM, MOST_DIM - 1, MOST_DIM / 2 + 1, MOST_DIM / 2] } {
            every_call(width, working);
        }
    }
    WIDTHS.iter().for_each(|&width| full(width));
    transforms();
}

/// The transform of every length up to 4,096 that is a power of two; other lengths stay as they are (ours).
fn transforms() {
    let mut random = Random::new(53);
    for length in (0..=12).map(|power| 1 << power).chain([0, 3, 4095]) {
        let mut v = data::vector(&mut random, length);
        let mut right = v.clone();
        sys::fwht(&mut v);
        if length.is_power_of_two() {
            (SCALAR.fwht)(&mut right);
        }
        let alike = v.iter().zip(&right).all(|(a, b)| a.to_bits() == b.to_bits());
        same::check(&format!("fwht of {length} entries"), alike, || "the bits differ".to_string());
    }
}

fn make(width: Width, working: usize) -> Raw {
    let mut ours = data::filled(MOST_DIM, width, 0, SLOTS);
    let made = if width.is_residual() { ours.with_residual(MOST_DIM, 77) } else { ours.with_working_dim(MOST_DIM, working, 77).and_then(|_| ours.set_bits(width.bits())) };
    same::equal("making", made, Ok(()));
    ours
}

/// An index filled by adds, searched, written, read, compacted, with the Rust beside it.
fn every_call(width: Width, working: usize) {
    let what = format!("width {}, {working} of 4,096 entries", width.name());
    let mut ours = make(width, working);
    let mut rust = (SCALAR.index_of)(&ours);
    let mut random = Random::new(51);
    // Entries past working_dim count for nothing, NaNs too.
    let mut vector = || {
        let mut v = data::vector(&mut random, MOST_DIM);
        v[working..].fill(f32::NAN);
        v
    };
    for i in 0..SLOTS as u64 {
        let v = vector();
        match i % 3 {
            0 => same::equal(&what, ours.add(&v, YEAR), Ok(rust.add(&v))),
            1 => same::equal(&what, ours.add_keyed(i % 8, &v, YEAR, YEAR), Ok(rust.add_keyed(i % 8, &v))),
            _ => same::equal(&what, ours.add_keyed_multi(1, &v, YEAR), Ok(rust.add_keyed_multi(1, &v))),
        }
        like(&what, &ours, rust.as_ref());
    }
    let query = vector();
    lists(&what, &ours, rust.as_ref(), &query);
    if width == Width::Four {
        same::equal(&what, ours.enable_cascade(), Ok(()));
        rust.enable_cascade();
        lists(&what, &ours, rust.as_ref(), &query);
    }
    refused(&what, &mut ours, 1, |o| o.search(&query[1..], 5, &mut [0; 9], &mut [0.0; 9]));
    let right = rust.to_bytes();
    let mut file = vec![0; right.len()];
    same::equal(&what, ours.to_bytes(&mut file), Ok(right.len()));
    same::check(&what, file == right, || "the bytes differ".to_string());
    let mut read = make(width, working);
    same::equal(&what, read.from_bytes(&file), Ok(()));
    like(&what, &read, (SCALAR.from_bytes)(&right).expect("the Rust reads what it wrote").as_ref());
}

/// Every search that the index has.
fn lists(what: &str, ours: &Raw, rust: &dyn Rust, query: &[f32]) {
    let (mut slots, mut names, mut scores) = ([0; SLOTS], [0; SLOTS], [0.0; SLOTS]);
    for k in [1, 5, SLOTS] {
        let right = rust.search(query, k);
        same::equal(what, ours.search(query, k, &mut slots, &mut scores), Ok(right.len()));
        same::lists(what, &(0..right.len()).map(|i| (slots[i] as usize, scores[i])).collect::<Vec<_>>(), &right);
        let right = rust.search_keyed(query, k);
        same::equal(what, ours.search_keyed(query, k, &mut names, &mut scores), Ok(right.len()));
        same::lists(what, &(0..right.len()).map(|i| (names[i], scores[i])).collect::<Vec<_>>(), &right);
        if ours.record[CASCADE] == 1 {
            for r in [1, 8, SLOTS] {
                let right = rust.search_cascade(query, k, r);
                same::equal(what, ours.search_cascade(query, k, r, &mut slots, &mut scores), Ok(right.len()));
                same::lists(what, &(0..right.len()).map(|i| (slots[i] as usize, scores[i])).collect::<Vec<_>>(), &right);
            }
        }
    }
}

/// The largest index that there can be: 65,536 slots of 4,096 entries.
fn full(width: Width) {
    let what = format!("width {}, 65,536 slots of 4,096 entries", width.name());
    let mut ours = data::filled(MOST_DIM, width, MOST_SLOTS, MOST_SLOTS);
    data::key(&mut ours.arrays, Keys::Rising, MOST_SLOTS);
    ours.record[CASCADE] = (width == Width::Four) as u64;
    let rust = (SCALAR.index_of)(&ours);
    let query = data::vector(&mut Random::new(52), MOST_DIM);
    let (mut slots, mut scores) = ([0; 50], [0.0; 50]);
    let right = rust.search(&query, 50);
    same::equal(&what, ours.search(&query, 50, &mut slots, &mut scores), Ok(right.len()));
    same::lists(&what, &slots.iter().zip(&scores).map(|(&s, &x)| (s as usize, x)).collect::<Vec<_>>(), &right);
    if width == Width::Four {
        let right = rust.search_cascade(&query, 50, 200);
        same::equal(&what, ours.search_cascade(&query, 50, 200, &mut slots, &mut scores), Ok(right.len()));
        same::lists(&what, &slots.iter().zip(&scores).map(|(&s, &x)| (s as usize, x)).collect::<Vec<_>>(), &right);
    }
}
