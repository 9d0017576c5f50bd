//! Files of as many slots as there may be.
use crate::data::{self, Keys, Width, WIDTHS};
use crate::kept::{like, refused};
use crate::sys::Raw;
use crate::random::Random;
use crate::rust::SCALAR;
use crate::{same, MOST_SLOTS};

const DIM: usize = 32;
/// Where the file has its count of slots.
const COUNT: std::ops::Range<usize> = 20..24;

/// Arrays with places for `room` slots that hold other things.
fn elsewhere(width: Width, room: usize) -> Raw {
    let mut ours = data::filled(DIM, width, 3, room);
    ours.arrays.keyed[0] = true;
    ours.arrays.held.fill(9);
    ours.arrays.years.fill(9);
    // Bits at or above the slots in use too: reading clears them.
    ours.arrays.alive.fill(u64::MAX);
    ours
}

pub fn written_and_read() {
    for width in WIDTHS {
        for kind in [Keys::None, Keys::Random, Keys::One] {
            whole(width, kind);
        }
    }
}

fn whole(width: Width, kind: Keys) {
    let what = format!("a file of 65,536 slots, width {}, keys {}", width.name(), kind.name());
    let mut ours = data::filled(DIM, width, MOST_SLOTS, MOST_SLOTS + 3);
    data::key(&mut ours.arrays, kind, MOST_SLOTS);
    let right = (SCALAR.index_of)(&ours).to_bytes();
    let length = right.len();

    let mut file = vec![0xEE; length + 9];
    same::equal(&what, ours.to_bytes(&mut file), Ok(length));
    same::check(&what, file[..length] == right, || "the bytes differ".to_string());
    same::check(&what, file[length..].iter().all(|&b| b == 0xEE), || "bytes past the file changed".to_string());
    let mut short = vec![0xEE; length - 1];
    refused(&what, &mut ours, 13, |o| o.to_bytes(&mut short));
    same::check(&what, short.iter().all(|&b| b == 0xEE), || "a refused writing wrote".to_string());

    let rust = (SCALAR.from_bytes)(&right).expect("the Rust reads what it wrote");
    for room in [MOST_SLOTS, MOST_SLOTS + 3] {
        let mut read = elsewhere(width, room);
        let before = read.arrays.clone();
        same::equal(&what, read.from_bytes(&file), Ok(()));
        like(&what, &read, rust.as_ref());
        let block = data::block_size(DIM, width.bits());
        let kept = read.arrays.codes[MOST_SLOTS * block..] == before.codes[MOST_SLOTS * block..] && read.arrays.scales[MOST_SLOTS..] == before.scales[MOST_SLOTS..];
        same::check(&what, kept && read.arrays.years[MOST_SLOTS..] == before.years[MOST_SLOTS..], || "places past the slots changed".to_string());
        same::check(&what, read.arrays.years[..MOST_SLOTS].iter().all(|&year| year == 1), || "a file without years gave others than 1".to_string());
        let mut again = vec![0; length];
        same::equal(&what, read.to_bytes(&mut again), Ok(length));
        same::check(&what, again == right, || "the file read and written again differs".to_string());
        let query = data::vector(&mut Random::new(41), DIM);
        let (mut slots, mut scores) = (vec![0; 100], vec![0.0; 100]);
        let list = rust.search(&query, 100);
        same::equal(&what, read.search(&query, 100, &mut slots, &mut scores), Ok(list.len()));
        same::lists(&what, &slots.iter().zip(&scores).map(|(&s, &x)| (s as usize, x)).collect::<Vec<_>>(), &list);
    }
    refused(&what, &mut elsewhere(width, MOST_SLOTS), 14, |o| o.from_bytes(&right[..length - 1]));
    refused(&what, &mut elsewhere(width, MOST_SLOTS - 1), 20, |o| o.from_bytes(&right));
    let mut more = file.clone();
    more.resize(length + 4096, 0);
    more[COUNT].copy_from_slice(&(MOST_SLOTS as u32 + 1).to_le_bytes());
    refused(&what, &mut elsewhere(width, MOST_SLOTS + 3), 20, |o| o.from_bytes(&more));
}
