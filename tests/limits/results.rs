//! The places of results: how many are needed, and that those past the answer are kept.
use crate::data::{self, Keys, Width, WIDTHS};
use crate::kept::refused;
use crate::sys::{Answer, Raw, CASCADE};
use crate::random::Random;
use crate::rust::{Rust, SCALAR};
use crate::{same, MOST_SLOTS};

const DIM: usize = 16;
const MARK: u32 = 0xFFFF_0001;
const SCORE: f32 = -77.5;

/// One of the searches: it writes names and scores, and says how many.
type Search = fn(&Raw, &[f32], usize, &mut [u64], &mut [f32]) -> Answer<usize>;

/// The searches by slot write slots of 32 bits: they go through an array of their own, of the same length.
fn by_slot(names: &mut [u64], search: impl FnOnce(&mut [u32]) -> Answer<usize>) -> Answer<usize> {
    let mut slots: Vec<u32> = names.iter().map(|&name| name as u32).collect();
    let answer = search(&mut slots);
    names.iter_mut().zip(slots).for_each(|(name, slot)| *name = slot as u64);
    answer
}

fn search(ours: &Raw, query: &[f32], k: usize, names: &mut [u64], scores: &mut [f32]) -> Answer<usize> {
    by_slot(names, |slots| ours.search(query, k, slots, scores))
}

fn search_keyed(ours: &Raw, query: &[f32], k: usize, names: &mut [u64], scores: &mut [f32]) -> Answer<usize> {
    ours.search_keyed(query, k, names, scores)
}

fn search_cascade(ours: &Raw, query: &[f32], k: usize, names: &mut [u64], scores: &mut [f32]) -> Answer<usize> {
    by_slot(names, |slots| ours.search_cascade(query, k, 30, slots, scores))
}

fn right(rust: &dyn Rust, which: &str, query: &[f32], k: usize) -> Vec<(u64, f32)> {
    let by_slot = |list: Vec<(usize, f32)>| list.into_iter().map(|(slot, score)| (slot as u64, score)).collect();
    match which {
        "search" => by_slot(rust.search(query, k)),
        "search_keyed" => rust.search_keyed(query, k),
        _ => by_slot(rust.search_cascade(query, k, 30)),
    }
}

/// Every k with result slices around the length that is needed, each of the two the shorter.
pub fn unequal() {
    let searches: [(&str, Search); 3] = [("search", search), ("search_keyed", search_keyed), ("search_cascade", search_cascade)];
    let query = data::vector(&mut Random::new(31), DIM);
    for width in WIDTHS {
        for n in [1, 2, 100] {
            let mut ours = data::filled(DIM, width, n, n);
            data::key(&mut ours.arrays, Keys::Rising, n);
            ours.record[CASCADE] = (width.bits() == 4) as u64;
            let rust = (SCALAR.index_of)(&ours);
            for (which, call) in searches.iter().take(if width.bits() == 4 { 3 } else { 2 }) {
                for k in [0, 1, 10, 99, 100, 101, usize::MAX] {
                    places(&format!("{which}, width {}, {n} slots, k {k}", width.name()), &mut ours, *call, &query, k, &right(rust.as_ref(), which, &query, k));
                }
            }
        }
    }
}

fn places(what: &str, ours: &mut Raw, call: Search, query: &[f32], k: usize, right: &[(u64, f32)]) {
    let needed = k.clamp(1, ours.record[crate::sys::LIVE] as usize);
    for (names, scores) in [(needed, needed), (needed, needed + 3), (needed + 3, needed), (needed, 2 * needed + 50), (2 * needed + 50, needed)] {
        let (mut list, mut values) = (vec![MARK as u64; names], vec![SCORE; scores]);
        let before = ours.clone();
        let answer = call(ours, query, k, &mut list, &mut values);
        same::equal(what, answer, Ok(right.len()));
        let hits = answer.unwrap_or(0).min(right.len());
        let listed: Vec<(u64, f32)> = (0..hits).map(|i| (list[i], values[i])).collect();
        same::lists(what, &listed, right);
        let kept = list[hits..].iter().all(|&name| name == MARK as u64) && values[hits..].iter().all(|&score| score == SCORE);
        same::check(what, kept, || "places past the answer changed".to_string());
        same::check(what, ours.record == before.record && ours.arrays == before.arrays, || "the index changed".to_string());
    }
    for (names, scores) in [(needed - 1, needed), (needed, needed - 1), (needed - 1, needed + 50), (needed + 50, needed - 1), (0, needed), (needed, 0)] {
        let (mut list, mut values) = (vec![MARK as u64; names], vec![SCORE; scores]);
        refused(what, ours, 13, |o| call(o, query, k, &mut list, &mut values));
        let kept = list.iter().all(|&name| name == MARK as u64) && values.iter().all(|&score| score == SCORE);
        same::check(what, kept, || "a refused search wrote".to_string());
    }
}

/// A full index listed whole, and its last 16 places short.
pub fn every_slot() {
    let query = data::vector(&mut Random::new(32), DIM);
    for width in WIDTHS {
        let mut ours = data::filled(DIM, width, MOST_SLOTS, MOST_SLOTS);
        data::key(&mut ours.arrays, Keys::Random, MOST_SLOTS);
        ours.record[CASCADE] = (width == Width::Four) as u64;
        let rust = (SCALAR.index_of)(&ours);
        for k in [MOST_SLOTS - 1, MOST_SLOTS, MOST_SLOTS + 1] {
            let what = format!("width {}, k {k}", width.name());
            let (mut names, mut scores) = (vec![0; MOST_SLOTS], vec![0.0; MOST_SLOTS + 7]);
            let right = right(rust.as_ref(), "search", &query, k);
            same::equal(&what, search(&ours, &query, k, &mut names, &mut scores), Ok(right.len()));
            same::lists(&what, &(0..right.len()).map(|i| (names[i], scores[i])).collect::<Vec<_>>(), &right);
            let right = rust.search_keyed(&query, k);
            same::equal(&what, search_keyed(&ours, &query, k, &mut names, &mut scores), Ok(right.len()));
            same::lists(&what, &(0..right.len()).map(|i| (names[i], scores[i])).collect::<Vec<_>>(), &right);
        }
        let (mut names, mut scores) = (vec![0; MOST_SLOTS], vec![0.0; MOST_SLOTS]);
        refused("one place too few", &mut ours, 13, |o| search(o, &query, MOST_SLOTS, &mut names[1..], &mut scores));
        if width == Width::Four {
            let right = rust.search_cascade(&query, MOST_SLOTS, MOST_SLOTS);
            let mut slots = vec![0; MOST_SLOTS];
            same::equal("a cascade over all slots", ours.search_cascade(&query, MOST_SLOTS, MOST_SLOTS, &mut slots, &mut scores), Ok(right.len()));
            same::lists("a cascade over all slots", &slots.iter().zip(&scores).map(|(&s, &x)| (s as usize, x)).collect::<Vec<_>>(), &right);
        }
    }
}
