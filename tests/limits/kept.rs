//! Calls that must be refused and leave record and arrays alone, and indexes that must be the Rust's.
use crate::rust::Rust;
use crate::same;
use crate::sys::{Answer, Raw};
use std::fmt::Debug;

/// The call is refused by this number, and changes neither the record nor a lent array.
pub fn refused<T: PartialEq + Debug>(what: &str, ours: &mut Raw, number: u8, call: impl FnOnce(&mut Raw) -> Answer<T>) {
    let before = ours.clone();
    same::equal(what, call(ours), Err(number));
    same::check(what, ours.record == before.record, || "the record changed".to_string());
    same::check(what, ours.arrays == before.arrays, || "a lent array changed".to_string());
}

pub fn like(what: &str, ours: &Raw, rust: &dyn Rust) {
    let difference = rust.difference(ours);
    same::check(what, difference.is_none(), || difference.clone().unwrap_or_default());
}
