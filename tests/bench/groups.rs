//! The tables of single calls.
use crate::change;
use crate::clock::Times;
use crate::data::{Keys, Width, CHOSEN, KEYS, WIDTHS};
use crate::look::{Look, Three};
use crate::table::{count, ms, ratio, us, Table};

const SLOTS: [usize; 4] = [64, 1024, 8192, 65_536];
const DIMS: [usize; 3] = [256, 1024, 4096];
const KS: [usize; 2] = [10, 1000];

fn both(unit: fn(f64) -> String, times: Times) -> String {
    format!("{} / {}", unit(times.min), unit(times.median))
}

/// Minimum and median of the three, then how many times faster ours is, by the minima.
fn cells(unit: fn(f64) -> String, t: &Three) -> Vec<String> {
    let mut cells: Vec<String> = [t.ours, t.scalar, t.published].iter().map(|&times| both(unit, times)).collect();
    cells.push(ratio(t.scalar.min / t.ours.min));
    cells.push(ratio(t.published.min / t.ours.min));
    cells
}

fn row(names: &[String], rest: Vec<String>) -> Vec<String> {
    names.iter().cloned().chain(rest).collect()
}

/// Every number of slots, width and k at one size, under each kind of keys.
fn search(dim: usize) {
    println!("Search over slots of {} entries, ms (minimum / median), then times faster than the Rust's scalar path for each kind of keys, and than its AVX2.\n", count(dim));
    let mut table = Table::new(&["slots", "width", "k", "ours, no keys", "Rust, scalar", "Rust, AVX2", "none", "rising", "random", "one", "× AVX2"]);
    for n in SLOTS {
        for width in WIDTHS {
            let look = Look::new(dim, width, n, 0.0);
            for k in KS {
                let t = look.search(k, &KEYS);
                let mut cells = vec![count(n), width.name().to_string(), count(k), both(ms, t.ours[0]), both(ms, t.scalar), both(ms, t.published)];
                cells.extend(t.ours.iter().map(|ours| ratio(t.scalar.min / ours.min)));
                cells.push(ratio(t.published.min / t.ours[0].min));
                table.row(cells);
            }
        }
    }
    table.print();
}

pub fn search_256() {
    search(256);
}

pub fn search_1024() {
    search(1024);
}

pub fn search_4096() {
    search(4096);
}

pub fn keyed() {
    println!("Keyed search, 4 bits, 1,024 entries, ms (minimum / median).\n");
    let mut table = Table::new(&["slots", "keys", "k", "ours", "Rust, scalar", "Rust, AVX2", "× scalar", "× AVX2"]);
    for n in SLOTS {
        for kind in KEYS {
            let look = Look::keyed(1024, Width::Four, n, kind);
            for k in KS {
                table.row(row(&[count(n), kind.name().to_string(), count(k)], cells(ms, &look.search_keyed(k))));
            }
        }
    }
    table.print();
}

/// The calls that look for the slots of each key, at as many slots as there can be.
pub fn chosen() {
    const N: usize = 65_536;
    println!("Calls whose time could go by the keys: {} slots of 16 entries, 4 bits, ms (minimum / median). About a quarter is dead where it is compacted.\n", count(N));
    let mut table = Table::new(&["call", "keys", "k", "ours", "Rust, scalar", "Rust, AVX2", "× scalar", "× AVX2"]);
    for kind in CHOSEN {
        let look = Look::keyed(16, Width::Four, N, kind);
        let mut line = |call: &str, k: &str, t: &Three| table.row(row(&[call.to_string(), kind.name().to_string(), k.to_string()], cells(ms, t)));
        for k in [10, N] {
            line("search_keyed", &count(k), &look.search_keyed(k));
        }
        line("compact", "", &change::compact(16, Width::Four, N, kind));
        line("from_bytes", "", &change::files(16, Width::Four, N, kind).read);
    }
    table.print();
}

pub fn cascade() {
    println!("Cascade, 4 bits, r = 200, k = 10, ms (minimum / median).\n");
    let mut table = Table::new(&["slots", "dim", "ours", "Rust, scalar", "Rust, AVX2", "× scalar", "× AVX2", "× our search"]);
    for dim in DIMS {
        for n in SLOTS {
            let (t, full) = Look::new(dim, Width::Four, n, 0.0).cascade(10, 200);
            let mut cells = row(&[count(n), count(dim)], cells(ms, &t));
            cells.push(ratio(full.min / t.ours.min));
            table.row(cells);
        }
    }
    table.print();
}

pub fn add() {
    println!("Add, µs a call (minimum / median): `add` without keys, `add_keyed` of a new key, `add_keyed_multi` where all slots have one key.\n");
    let mut table = Table::new(&["slots", "dim", "width", "keys", "ours", "Rust, scalar", "Rust, AVX2", "× scalar", "× AVX2"]);
    let mut line = |n: usize, dim: usize, width: Width, kind: Keys| {
        let names = [count(n), count(dim), width.name().to_string(), kind.name().to_string()];
        table.row(row(&names, cells(us, &change::add(dim, width, n, kind))));
    };
    for n in SLOTS {
        for width in WIDTHS {
            for kind in KEYS {
                line(n, 1024, width, kind);
            }
        }
    }
    for dim in [256, 4096] {
        for width in WIDTHS {
            line(64, dim, width, Keys::None);
        }
    }
    table.print();
}

pub fn compact() {
    println!("Compaction, about a quarter of the slots dead, 1,024 entries, ms (minimum / median). The Rust leaves the second codes where they are, so the residual is not compared.\n");
    let mut table = Table::new(&["slots", "width", "keys", "ours", "Rust, scalar", "Rust, AVX2", "× scalar", "× AVX2"]);
    for n in SLOTS {
        for width in [Width::Four, Width::Five, Width::Six] {
            for kind in KEYS {
                table.row(row(&[count(n), width.name().to_string(), kind.name().to_string()], cells(ms, &change::compact(1024, width, n, kind))));
            }
        }
    }
    table.print();
}

pub fn files() {
    println!("Files, 1,024 entries, ms (minimum / median).\n");
    let mut table = Table::new(&["call", "slots", "width", "keys", "bytes", "ours", "Rust, scalar", "Rust, AVX2", "× scalar", "× AVX2", "GB/s"]);
    for n in SLOTS {
        for width in WIDTHS {
            for kind in [Keys::None, Keys::Random] {
                let files = change::files(1024, width, n, kind);
                for (call, t) in [("to_bytes", &files.written), ("from_bytes", &files.read)] {
                    let mut cells = row(&[call.to_string(), count(n), width.name().to_string(), kind.name().to_string(), count(files.bytes)], cells(ms, t));
                    cells.push(ratio(files.bytes as f64 / t.ours.min * 1e-9));
                    table.row(cells);
                }
            }
        }
    }
    table.print();
}

pub fn fwht() {
    println!("The transform, µs (minimum / median).\n");
    let mut table = Table::new(&["entries", "ours", "Rust, scalar", "Rust, AVX2", "× scalar", "× AVX2"]);
    for length in [16, 64, 256, 1024, 4096] {
        table.row(row(&[count(length)], cells(us, &change::fwht(length))));
    }
    table.print();
}
