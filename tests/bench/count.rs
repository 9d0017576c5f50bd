//! One call of one case, for callgrind: it counts between entry and exit of `counted`.
use crate::data::{self, Keys, Width};
use crate::sys::{self, CASCADE};
use crate::random::Random;
use crate::rust::SCALAR;
use std::hint::black_box;
use std::mem::forget;

pub const SLOTS: usize = 2048;
pub const DIM: usize = 1024;
const K: usize = 10;

/// The name stays as it is, so that callgrind finds it.
#[no_mangle]
#[inline(never)]
pub fn counted(call: &mut dyn FnMut()) {
    call()
}

/// The cases: name, width, keys.
pub const CASES: [(&str, Width, Keys); 20] = [
    ("search-4", Width::Four, Keys::None),
    ("search-5", Width::Five, Keys::None),
    ("search-6", Width::Six, Keys::None),
    ("search-residual", Width::Residual, Keys::None),
    ("search_keyed", Width::Four, Keys::Random),
    ("search_cascade", Width::Four, Keys::None),
    ("add-4", Width::Four, Keys::None),
    ("add-5", Width::Five, Keys::None),
    ("add-6", Width::Six, Keys::None),
    ("add-residual", Width::Residual, Keys::None),
    ("add_keyed", Width::Four, Keys::Random),
    ("compact", Width::Four, Keys::None),
    ("to_bytes", Width::Four, Keys::Random),
    ("from_bytes", Width::Four, Keys::Random),
    ("fwht", Width::Four, Keys::None),
    ("13-rising", Width::Four, Keys::Rising),
    ("13-random", Width::Four, Keys::Random),
    ("13-one", Width::Four, Keys::One),
    ("13-rising-dead", Width::Four, Keys::Rising),
    ("13-random-dead", Width::Four, Keys::Random),
];

/// Makes the call once: ours, or the Rust's scalar path, whose answers are not dropped within the count. False where there is no such case, or where the Rust has no such call.
pub fn call(name: &str, ours: bool) -> bool {
    let Some(&(_, width, kind)) = CASES.iter().find(|case| case.0 == name) else {
        return false;
    };
    let mut index = data::filled(DIM, width, SLOTS, SLOTS + 1);
    if name == "compact" {
        data::kill(&mut index, 0.25);
    }
    if name.ends_with("-dead") {
        data::kill_thirds(&mut index);
    }
    data::key(&mut index.arrays, kind, SLOTS);
    index.record[CASCADE] = (name == "search_cascade") as u64;
    let mut rust = (SCALAR.index_of)(&index);
    let mut v = data::vector(&mut Random::new(3), DIM);
    let long = vec![1.0; DIM + 1];
    let (mut slots, mut names, mut scores) = (vec![0; K], vec![0; K], vec![0.0; K]);
    let right = rust.to_bytes();
    let mut file = vec![0; right.len()];
    let key = kind.of(SLOTS);
    let mut answer = Ok(0);
    match (name.split('-').next().unwrap_or(""), ours) {
        ("search", true) => counted(&mut || answer = index.search(&v, K, &mut slots, &mut scores)),
        ("search", false) => counted(&mut || forget(rust.search(&v, K))),
        ("search_keyed", true) => counted(&mut || answer = index.search_keyed(&v, K, &mut names, &mut scores)),
        ("search_keyed", false) => counted(&mut || forget(rust.search_keyed(&v, K))),
        ("search_cascade", true) => counted(&mut || answer = index.search_cascade(&v, K, 200, &mut slots, &mut scores)),
        ("search_cascade", false) => counted(&mut || forget(rust.search_cascade(&v, K, 200))),
        ("add", true) => counted(&mut || answer = index.add(&v, data::YEAR)),
        ("add", false) => counted(&mut || _ = black_box(rust.add(&v))),
        ("add_keyed", true) => counted(&mut || answer = index.add_keyed(key, &v, data::YEAR, data::YEAR)),
        ("add_keyed", false) => counted(&mut || _ = black_box(rust.add_keyed(key, &v))),
        ("compact", true) => counted(&mut || answer = index.compact().map(|()| 0)),
        ("compact", false) => counted(&mut || rust.compact()),
        ("to_bytes", true) => counted(&mut || answer = index.to_bytes(&mut file)),
        ("to_bytes", false) => counted(&mut || forget(rust.to_bytes())),
        ("from_bytes", true) => counted(&mut || answer = index.from_bytes(&right).map(|()| 0)),
        ("from_bytes", false) => counted(&mut || forget((SCALAR.from_bytes)(&right))),
        ("fwht", true) => counted(&mut || sys::fwht(&mut v)),
        ("fwht", false) => counted(&mut || (SCALAR.fwht)(&mut v)),
        ("13", true) => counted(&mut || answer = index.search(&long, K, &mut slots, &mut scores).map_or_else(|number| if number == 1 { Ok(0) } else { Err(number) }, |_| Err(0))),
        _ => return false,
    }
    answer.is_ok()
}
