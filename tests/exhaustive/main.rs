//! Runs the leaves of the static library at every input against the Rust core, and prints what differs.
#[path = "../oracle/halves.rs"]
mod halves;

#[allow(dead_code)] // the client calls more of it
#[path = "../../client/src/sys.rs"]
mod sys;

use std::time::Instant;

const THREADS: u64 = 2;
const ALL: u64 = 1 << 32;

/// Runs every comparison, or those that the arguments name.
fn main() {
    let named: Vec<String> = std::env::args().skip(1).collect();
    let wanted = |name: &str| named.is_empty() || named.iter().any(|n| n == name);
    let mut differences = 0;
    if wanted("f16_bits_to_f32") {
        differences += compare("f16_bits_to_f32", 1 << 16, |h| {
            let (ours, right) = (sys::binary32(h as u16), halves::reading(h as u16));
            (ours == right, ours.into(), right.into())
        });
    }
    if wanted("f32_to_f16_bits") {
        differences += compare("f32_to_f16_bits", ALL, |p| {
            let (ours, theirs) = (sys::half(p), vecq::format::f32_to_f16_bits(f32::from_bits(p)));
            (ours == theirs, ours.into(), theirs.into())
        });
    }
    if wanted("sqrt") {
        differences += compare("sqrt", ALL, |p| {
            let x = f32::from_bits(p);
            let (ours, theirs) = (sys::sqrt(x).to_bits(), x.sqrt().to_bits());
            (ours == theirs || is_nan(ours) && is_nan(theirs), ours.into(), theirs.into())
        });
    }
    for (name, bits) in [("quantize-4", 4), ("quantize-5", 5), ("quantize-6", 6)] {
        if wanted(name) {
            differences += compare(name, ALL, |p| {
                let x = f32::from_bits(p);
                let (ours, theirs) = (sys::quantize(x, bits), vecq::lloyd::quantize(x, bits));
                (ours == theirs, ours.into(), theirs.into())
            });
        }
    }
    println!("{differences} differences in all");
    std::process::exit((differences > 0) as i32);
}

fn is_nan(p: u32) -> bool {
    p & 0x7FFF_FFFF > 0x7F80_0000
}

/// Asks about each pattern below `end`: whether the two answers agree, and what they are.
fn compare(what: &str, end: u64, ask: impl Fn(u32) -> (bool, u64, u64) + Sync) -> u64 {
    let began = Instant::now();
    let part = |k: u64| {
        let mut differences = 0;
        for p in end * k / THREADS..end * (k + 1) / THREADS {
            let (same, ours, right) = ask(p as u32);
            if !same {
                differences += 1;
                if differences <= 5 {
                    println!("{what}: at {p:08x} ours is {ours:x} and not {right:x}");
                }
            }
        }
        differences
    };
    let part = &part;
    let differences = std::thread::scope(|scope| {
        let threads: Vec<_> = (0..THREADS).map(|k| scope.spawn(move || part(k))).collect();
        threads.into_iter().map(|t| t.join().expect("a thread ends")).sum()
    });
    println!("{what}: {end} inputs, {differences} differences, {} s", began.elapsed().as_secs());
    differences
}
