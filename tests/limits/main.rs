//! The static library at the limits of document 01, with the Rust as judge where the document has it compared, and a model of document 02's sentences where the
//! Rust stops at games with one trait or has no such marks or years. Any difference makes the status 1.
mod adds;
mod files;
mod kept;
mod marks;
mod results;
mod sizes;
mod traits;
mod years;

// The oracle's files have the Rust core under this name.
extern crate vecq_scalar as vecq;

#[allow(dead_code)] // the oracle uses more of it
#[path = "../oracle/choice.rs"]
mod choice;
#[allow(dead_code)] // the benchmark uses more of it
#[path = "../bench/data.rs"]
mod data;
#[allow(dead_code)] // the oracle uses more of it
#[path = "../oracle/one_trait.rs"]
mod one_trait;
#[allow(dead_code)] // the oracle uses more of it
#[path = "../oracle/random.rs"]
mod random;
#[allow(dead_code)]
#[path = "../bench/rust.rs"]
mod rust;
#[path = "../bench/same.rs"]
mod same;
#[allow(dead_code)] // the client calls more of it
#[path = "../../client/src/sys.rs"]
mod sys;

use std::process::ExitCode;
use std::time::Instant;

/// At most so many slots are in use.
pub const MOST_SLOTS: usize = 65_536;
pub const MOST_DIM: usize = 4096;

const PARTS: [(&str, fn()); 18] = [
    ("65,536 adds one after another, and one more", adds::one_after_another),
    ("the last two adds under each kind of keys, places freed by compaction", adds::the_last),
    ("a record of 65,537 slots over long arrays", adds::past_the_most),
    ("room: each lent array the shortest", adds::the_shortest),
    ("result slices of unequal length", results::unequal),
    ("65,536 slots listed", results::every_slot),
    ("files of 65,536 slots", files::written_and_read),
    ("4,096 entries at every width", sizes::most_entries),
    ("65,536 games with one trait at 4 bits", traits::most_slots),
    ("65,536 slots in 1,024 words of live marks, in more and in one fewer", marks::most_slots),
    ("bits at or above the slots in use, past the 1,024th word too", marks::stray),
    ("such bits cleared by making and reading", marks::cleared),
    ("live marks after a compaction, in more words than needed", marks::compacted),
    ("years of the last slots that are added", years::added),
    ("65,536 slots of a key, one to be kept", years::removed),
    ("65,536 slots of a key, the first one overwritten", years::overwritten),
    ("years after a compaction", years::compacted),
    ("files of 65,536 slots with years", years::files),
];

fn main() -> ExitCode {
    for (what, run) in PARTS {
        let (began, before) = (Instant::now(), same::checks());
        run();
        println!("{what}: {} checks, {:.1} s", same::checks() - before, began.elapsed().as_secs_f64());
    }
    println!("limits: {} checks, {} differences", same::checks(), same::differences());
    if same::differences() > 0 { ExitCode::FAILURE } else { ExitCode::SUCCESS }
}
