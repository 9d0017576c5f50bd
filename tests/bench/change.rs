//! Register: adding, compaction, files; and the transform by itself.
use crate::clock::{race, timed_once};
use crate::data::{self, Keys, Width};
use crate::sys::{self, Raw, N};
use crate::look::Three;
use crate::random::Random;
use crate::rust::{Build, Rust, PUBLISHED, SCALAR};
use crate::same;

/// So many vectors are added in one measurement, and taken back after it.
const BATCH: usize = 16;
const MOST_SLOTS: usize = 65_536;

fn add_ours(ours: &mut Raw, kind: Keys, vectors: &[Vec<f32>]) -> f64 {
    let record = ours.record;
    let n = record[N] as usize;
    let (seconds, ()) = timed_once(|| {
        for (i, vector) in vectors.iter().enumerate() {
            let added = match kind {
                Keys::None => ours.add(vector, data::YEAR),
                Keys::Rising | Keys::Random | Keys::Apart => ours.add_keyed(kind.of(n + i), vector, data::YEAR, data::YEAR),
                Keys::One | Keys::Shuffled | Keys::Top => ours.add_keyed_multi(kind.of(n + i), vector, data::YEAR),
            };
            same::equal("a slot that was added", added, Ok(n + i));
        }
    });
    seconds / vectors.len() as f64
}

fn add_rust(rust: &mut dyn Rust, kind: Keys, n: usize, vectors: &[Vec<f32>]) -> f64 {
    let (seconds, ()) = timed_once(|| {
        for (i, vector) in vectors.iter().enumerate() {
            let slot = match kind {
                Keys::None => rust.add(vector),
                Keys::Rising | Keys::Random | Keys::Apart => rust.add_keyed(kind.of(n + i), vector),
                Keys::One | Keys::Shuffled | Keys::Top => rust.add_keyed_multi(kind.of(n + i), vector),
            };
            std::hint::black_box(slot);
        }
    });
    seconds / vectors.len() as f64
}

/// Adding to an index of `n` slots, or of as many as leave room for a batch.
pub fn add(dim: usize, width: Width, n: usize, kind: Keys) -> Three {
    let n = n.min(MOST_SLOTS - BATCH);
    let mut ours = data::filled(dim, width, n, n + BATCH);
    data::key(&mut ours.arrays, kind, n);
    // What is put back after a batch: no bit may be set at or above the slots in use.
    let (record, alive) = (ours.record, ours.arrays.alive.clone());
    let mut random = Random::new(8);
    let vectors: Vec<Vec<f32>> = (0..BATCH).map(|_| data::vector(&mut random, dim)).collect();
    let (mut scalar, mut published) = ((SCALAR.index_of)(&ours), (PUBLISHED.index_of)(&ours));
    add_ours(&mut ours, kind, &vectors);
    for rust in [&mut scalar, &mut published] {
        add_rust(rust.as_mut(), kind, n, &vectors);
        if let Some(difference) = rust.difference(&ours) {
            same::report(&format!("adding {BATCH} to {n} slots of {dim} entries, width {}, keys {}", width.name(), kind.name()), &difference);
        }
        rust.cut(n);
    }
    ours.record = record;
    ours.arrays.alive.copy_from_slice(&alive);
    let times = race(&mut [
        &mut || {
            let seconds = add_ours(&mut ours, kind, &vectors);
            ours.record = record;
            ours.arrays.alive.copy_from_slice(&alive);
            seconds
        },
        &mut || {
            let seconds = add_rust(scalar.as_mut(), kind, n, &vectors);
            scalar.cut(n);
            seconds
        },
        &mut || {
            let seconds = add_rust(published.as_mut(), kind, n, &vectors);
            published.cut(n);
            seconds
        },
    ]);
    Three { ours: times[0], scalar: times[1], published: times[2] }
}

/// Compaction of an index of which about a quarter is dead.
pub fn compact(dim: usize, width: Width, n: usize, kind: Keys) -> Three {
    let mut before = data::filled(dim, width, n, n);
    data::kill(&mut before, 0.25);
    data::key(&mut before.arrays, kind, n);
    let (scalar, published) = ((SCALAR.index_of)(&before), (PUBLISHED.index_of)(&before));
    let mut ours = before.clone();
    same::equal("a compaction", ours.compact(), Ok(()));
    let mut right = scalar.copy();
    right.compact();
    if let Some(difference) = right.difference(&ours) {
        same::report(&format!("compacting {n} slots of {dim} entries, width {}, keys {}", width.name(), kind.name()), &difference);
    }
    let rust = |index: &dyn Rust| {
        let mut copy = index.copy();
        timed_once(|| copy.compact()).0
    };
    let times = race(&mut [
        &mut || {
            ours.clone_from(&before);
            timed_once(|| ours.compact()).0
        },
        &mut || rust(scalar.as_ref()),
        &mut || rust(published.as_ref()),
    ]);
    Three { ours: times[0], scalar: times[1], published: times[2] }
}

pub struct Files {
    pub bytes: usize,
    pub written: Three,
    pub read: Three,
}

/// Writing an index to bytes, and reading it from them.
pub fn files(dim: usize, width: Width, n: usize, kind: Keys) -> Files {
    let what = format!("{n} slots of {dim} entries, width {}, keys {}", width.name(), kind.name());
    let mut ours = data::filled(dim, width, n, n);
    data::key(&mut ours.arrays, kind, n);
    let (scalar, published) = ((SCALAR.index_of)(&ours), (PUBLISHED.index_of)(&ours));
    let right = scalar.to_bytes();
    let mut file = vec![0; right.len()];
    same::equal(&format!("writing {what}"), ours.to_bytes(&mut file), Ok(right.len()));
    same::check(&format!("writing {what}"), file == right, || "the bytes differ".to_string());
    let times = race(&mut [
        &mut || timed_once(|| ours.to_bytes(&mut file)).0,
        &mut || timed_once(|| scalar.to_bytes()).0,
        &mut || timed_once(|| published.to_bytes()).0,
    ]);
    let written = Three { ours: times[0], scalar: times[1], published: times[2] };

    let mut read = ours.clone();
    same::equal(&format!("reading {what}"), read.from_bytes(&right), Ok(()));
    let difference = (SCALAR.from_bytes)(&right).map_or(Some("the Rust doesn't read it".to_string()), |index| index.difference(&read));
    if let Some(difference) = difference {
        same::report(&format!("reading {what}"), &difference);
    }
    let rust = |build: &Build| timed_once(|| (build.from_bytes)(&right)).0;
    let times = race(&mut [&mut || timed_once(|| read.from_bytes(&right)).0, &mut || rust(&SCALAR), &mut || rust(&PUBLISHED)]);
    Files { bytes: right.len(), written, read: Three { ours: times[0], scalar: times[1], published: times[2] } }
}

/// The transform of a vector of this length: eight vectors in turn, eight times each, so that they stay in the cache and no value leaves binary32.
pub fn fwht(length: usize) -> Three {
    const VECTORS: usize = 8;
    const TIMES: usize = 8;
    let mut random = Random::new(4);
    let start: Vec<Vec<f32>> = (0..VECTORS).map(|_| data::vector(&mut random, length)).collect();
    let run = |transform: fn(&mut [f32])| {
        let mut vectors = start.clone();
        let (seconds, ()) = timed_once(|| {
            for _ in 0..TIMES {
                vectors.iter_mut().for_each(|v| transform(v));
            }
        });
        (seconds / (VECTORS * TIMES) as f64, vectors)
    };
    let patterns = |vectors: Vec<Vec<f32>>| -> Vec<u32> { vectors.concat().iter().map(|x| x.to_bits()).collect() };
    same::check(&format!("fwht of {length} entries"), patterns(run(sys::fwht).1) == patterns(run(SCALAR.fwht).1), || "the bits differ".to_string());
    let times = race(&mut [&mut || run(sys::fwht).0, &mut || run(SCALAR.fwht).0, &mut || run(PUBLISHED.fwht).0]);
    Three { ours: times[0], scalar: times[1], published: times[2] }
}
