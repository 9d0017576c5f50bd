//! Whether answers have equal bits. A difference is printed, and makes the program end with status 1.
use std::fmt::Debug;
use std::sync::atomic::{AtomicUsize, Ordering};

static CHECKS: AtomicUsize = AtomicUsize::new(0);
static DIFFERENCES: AtomicUsize = AtomicUsize::new(0);

pub fn checks() -> usize {
    CHECKS.load(Ordering::Relaxed)
}

pub fn differences() -> usize {
    DIFFERENCES.load(Ordering::Relaxed)
}

pub fn report(what: &str, difference: &str) {
    DIFFERENCES.fetch_add(1, Ordering::Relaxed);
    eprintln!("DIFFERENCE: {what}: {difference}");
}

pub fn check(what: &str, same: bool, difference: impl FnOnce() -> String) {
    CHECKS.fetch_add(1, Ordering::Relaxed);
    if !same {
        report(what, &difference());
    }
}

pub fn equal<T: PartialEq + Debug>(what: &str, ours: T, right: T) {
    check(what, ours == right, || format!("ours is {ours:?} and not {right:?}"));
}

/// A list as document 01 compares it: names and score bits as a set, then the order between unequal scores. Both say that the lists agree once
/// equal scores are put in the order of their names.
pub fn canonical<T: Ord + Copy>(list: &[(T, f32)]) -> Vec<(u32, T)> {
    let mut list: Vec<(u32, T)> = list.iter().map(|&(name, score)| (score.to_bits(), name)).collect();
    let mut at = 0;
    while at < list.len() {
        let end = at + list[at..].iter().take_while(|e| e.0 == list[at].0).count();
        list[at..end].sort_unstable();
        at = end;
    }
    list
}

pub fn lists<T: Ord + Copy + Debug>(what: &str, ours: &[(T, f32)], right: &[(T, f32)]) {
    let (a, b) = (canonical(ours), canonical(right));
    check(what, a == b, || {
        let at = (0..a.len().max(b.len())).find(|&i| a.get(i) != b.get(i)).unwrap_or(0);
        format!("lists of {} and {} entries part at place {at}: ours {:?}, right {:?}", a.len(), b.len(), ours.get(at), right.get(at))
    });
}
