//! Retention years (document 02, Req 06) of 65,536 slots. The Rust has none: it judges all else, and the sentences of document 02 the years.
use crate::data::{self, mark, Keys, Width, WIDTHS};
use crate::kept::{like, refused};
use crate::random::Random;
use crate::rust::SCALAR;
use crate::sys::{Raw, LIVE, N};
use crate::{same, MOST_SLOTS};

const DIM: usize = 8;
const YEARS: [u16; 6] = [0, 1, 2, 0x0102, 2030, u16::MAX];
/// Past the slots.
const PAST: u16 = 7;

/// A full index, about a third of it dead, in arrays with places for four slots more; each slot has one of the years.
fn index(width: Width, kind: Keys) -> Raw {
    let mut ours = data::filled(DIM, width, MOST_SLOTS, MOST_SLOTS + 4);
    data::kill(&mut ours, 0.3);
    data::key(&mut ours.arrays, kind, MOST_SLOTS);
    let mut random = Random::new(71);
    ours.arrays.years.fill_with(|| YEARS[random.below(YEARS.len() as u64) as usize]);
    ours.arrays.years[MOST_SLOTS..].fill(PAST);
    ours
}

/// A full index of live slots of one key without duties.
fn one_key(kind: Keys) -> Raw {
    let mut ours = data::filled(DIM, Width::Four, MOST_SLOTS, MOST_SLOTS);
    data::key(&mut ours.arrays, kind, MOST_SLOTS);
    ours
}

fn live_years(ours: &Raw) -> Vec<u16> {
    let slots = 0..ours.record[N] as usize;
    slots.filter(|&slot| mark(&ours.arrays.alive, slot)).map(|slot| ours.arrays.years[slot]).collect()
}

fn years_are(what: &str, ours: &Raw, right: &[u16]) {
    let years = &ours.arrays.years;
    let at = (0..years.len().max(right.len())).find(|&i| years.get(i) != right.get(i));
    same::check(what, at.is_none(), || format!("the years part at place {at:?} of {} and {}", years.len(), right.len()));
}

/// "a version 3 above the old one, with one year per live slot, in slot order, after the key table"
fn with_years(file: &[u8], years: &[u16]) -> Vec<u8> {
    let version = u16::from_le_bytes([file[4], file[5]]) + 3;
    let block: Vec<u8> = years.iter().flat_map(|year| year.to_le_bytes()).collect();
    [&file[..4], &version.to_le_bytes(), &file[6..], &block].concat()
}

/// Adding writes the year at its slot and nowhere else; refused, nowhere.
pub fn added() {
    let vector = data::vector(&mut Random::new(72), DIM);
    for width in WIDTHS {
        let what = format!("width {}", width.name());
        let mut ours = data::filled(DIM, width, MOST_SLOTS - 3, MOST_SLOTS + 4);
        ours.arrays.years.fill(PAST);
        let mut right = ours.arrays.years.clone();
        same::equal(&what, ours.add(&vector, 0), Ok(MOST_SLOTS - 3));
        same::equal(&what, ours.add_keyed(3, &vector, 2030, 0), Ok(MOST_SLOTS - 2));
        same::equal(&what, ours.add_keyed_multi(3, &vector, 0x0102), Ok(MOST_SLOTS - 1));
        right[MOST_SLOTS - 3..MOST_SLOTS].copy_from_slice(&[0, 2030, 0x0102]);
        years_are(&what, &ours, &right);
        refused(&what, &mut ours, 8, |o| o.add(&vector, 1));
        refused(&what, &mut ours, 8, |o| o.add_keyed(2, &vector, 1, 1));
        refused(&what, &mut ours, 8, |o| o.add_keyed_multi(3, &vector, 1));
        refused(&what, &mut ours, 1, |o| o.add_keyed(3, &vector[1..], 1, 0));
        refused(&what, &mut ours, 21, |o| o.add_keyed(3, &vector, 1, 2029));
        same::equal(&what, ours.add_keyed(3, &vector, 9, 2030), Ok(MOST_SLOTS - 2));
        right[MOST_SLOTS - 2] = 9;
        years_are(&what, &ours, &right);
    }
}

/// One slot of 65,536 that is to be kept, wherever it stands, keeps all of its key; a slot that is taken leaves its year behind.
pub fn removed() {
    for kind in [Keys::One, Keys::Shuffled] {
        let key = kind.of(0);
        let mut ours = one_key(kind);
        for slot in [0, 1, 63, 64, MOST_SLOTS / 2, MOST_SLOTS - 1] {
            let what = format!("slot {slot} kept, keys {}", kind.name());
            for year in [0, 2030] {
                ours.arrays.years[slot] = year;
                refused(&what, &mut ours, 21, |o| o.remove_keyed(key, 2029));
                refused(&what, &mut ours, 21, |o| o.remove_keyed_at(key, slot, 2029));
            }
            same::equal(&what, ours.clone().remove_keyed_at(key, (slot + 1) % MOST_SLOTS, 0), Ok(true));
            ours.arrays.years[slot] = data::YEAR;
        }
        ours.arrays.years.fill(2030);
        same::equal("a slot in its year", ours.remove_keyed_at(key, 64, 2030), Ok(true));
        same::equal("the other slots", ours.remove_keyed(key, 2030), Ok(true));
        same::equal("live slots", ours.record[LIVE], 0);
        years_are("a removal", &ours, &vec![2030; MOST_SLOTS]);
    }
}

/// Of 65,536 slots of a key the first held one is tested and gets the new year.
pub fn overwritten() {
    let vector = data::vector(&mut Random::new(73), DIM);
    for kind in [Keys::One, Keys::Shuffled] {
        let what = format!("an overwrite, keys {}", kind.name());
        let mut ours = one_key(kind);
        let first = ours.arrays.held.iter().position(|&place| place == 0).expect("a slot is first");
        ours.arrays.years.fill(0);
        ours.arrays.years[first] = 2030;
        refused(&what, &mut ours, 21, |o| o.add_keyed(kind.of(0), &vector, 1, 2029));
        same::equal(&what, ours.add_keyed(kind.of(0), &vector, u16::MAX, 2030), Ok(first));
        let mut right = vec![0; MOST_SLOTS];
        right[first] = u16::MAX;
        years_are(&what, &ours, &right);
    }
}

/// Years go with their slots; what is past them stays.
pub fn compacted() {
    for width in WIDTHS {
        for kind in [Keys::None, Keys::Random, Keys::One] {
            let what = format!("a compaction, width {}, keys {}", width.name(), kind.name());
            let mut ours = index(width, kind);
            let (live, before) = (live_years(&ours), ours.arrays.years.clone());
            let mut rust = (SCALAR.index_of)(&ours);
            same::equal(&what, ours.compact(), Ok(()));
            // The Rust leaves the second stage of a residual index where it was.
            if !width.is_residual() {
                rust.compact();
                like(&what, &ours, rust.as_ref());
            }
            years_are(&what, &ours, &[&live[..], &before[live.len()..]].concat());
        }
    }
}

pub fn files() {
    for width in WIDTHS {
        for kind in [Keys::None, Keys::Random] {
            file(width, kind);
        }
    }
}

fn file(width: Width, kind: Keys) {
    let what = format!("a file with years, width {}, keys {}", width.name(), kind.name());
    let mut ours = index(width, kind);
    let (years, plain) = (live_years(&ours), (SCALAR.index_of)(&ours).to_bytes());
    let right = with_years(&plain, &years);
    same::equal(&what, ours.file_length(), Ok(right.len()));
    let mut file = vec![0xEE; right.len() + 9];
    same::equal(&what, ours.to_bytes(&mut file), Ok(right.len()));
    same::check(&what, file[..right.len()] == right, || "the bytes differ".to_string());
    same::check(&what, file[right.len()..].iter().all(|&b| b == 0xEE), || "bytes past the file changed".to_string());
    let mut short = vec![0xEE; right.len() - 1];
    refused(&what, &mut ours, 13, |o| o.to_bytes(&mut short));
    same::check(&what, short.iter().all(|&b| b == 0xEE), || "a refused writing wrote".to_string());
    // Dead slots' years count for nothing.
    (0..MOST_SLOTS).filter(|&slot| mark(&ours.arrays.alive, slot)).for_each(|slot| ours.arrays.years[slot] = 1);
    same::equal(&what, ours.file_length(), Ok(plain.len()));
    same::equal(&what, ours.to_bytes(&mut file), Ok(plain.len()));
    same::check(&what, file[..plain.len()] == plain, || "the bytes without years differ".to_string());
    read(&what, width, &plain, &years);
}

fn read(what: &str, width: Width, plain: &[u8], years: &[u16]) {
    let file = with_years(plain, years);
    let rust = (SCALAR.from_bytes)(plain).expect("the Rust reads what it wrote");
    let elsewhere = || {
        let mut ours = data::filled(DIM, width, 3, MOST_SLOTS);
        ours.arrays.years.fill(PAST);
        ours
    };
    for (file, years) in [(&file, years), (&plain.to_vec(), &vec![1; years.len()])] {
        let mut ours = elsewhere();
        same::equal(what, ours.from_bytes(file), Ok(()));
        like(what, &ours, rust.as_ref());
        years_are(what, &ours, &[years, &vec![PAST; MOST_SLOTS - years.len()]].concat());
        let mut again = vec![0; file.len()];
        same::equal(what, ours.to_bytes(&mut again), Ok(file.len()));
        same::check(what, again == *file, || "the file read and written again differs".to_string());
    }
    for length in [plain.len(), plain.len() + 1, file.len() / 2 + plain.len() / 2, file.len() - 1] {
        refused(what, &mut elsewhere(), 14, |o| o.from_bytes(&file[..length]));
    }
    let mut ours = elsewhere();
    ours.arrays.years.truncate(years.len() - 1);
    refused(what, &mut ours, 20, |o| o.from_bytes(&file));
    refused(what, &mut ours, 20, |o| o.from_bytes(plain));
    // A version with years whose years are all 1 is written as the one without.
    let mut ours = elsewhere();
    same::equal(what, ours.from_bytes(&with_years(plain, &vec![1; years.len()])), Ok(()));
    let mut again = vec![0; plain.len()];
    same::equal(what, ours.to_bytes(&mut again), Ok(plain.len()));
    same::check(what, again == plain, || "a file whose years are all 1 is written otherwise".to_string());
}
