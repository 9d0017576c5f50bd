//! The crate `vecq` from outside, a part at a time: `crate_checks PART`. Any difference makes the status 1.
mod boundary;
mod calls;
mod files;
mod refusals;
mod scripts;
mod snapshot;
mod stack;
mod threads;
mod years;

#[allow(dead_code)] // the oracle uses more of it
#[path = "../oracle/random.rs"]
mod random;
#[allow(dead_code)] // the benchmark uses more of it
#[path = "../bench/same.rs"]
mod same;
#[allow(dead_code)]
#[path = "../oracle/text.rs"]
mod text;

use std::path::Path;
use std::process::ExitCode;
use std::time::Instant;

const USAGE: &str = "usage: crate_checks refusals | years | stack | threads | boundary | scripts EXERCISE FOLDER";

fn main() -> ExitCode {
    let words: Vec<String> = std::env::args().skip(1).collect();
    let words: Vec<&str> = words.iter().map(String::as_str).collect();
    let began = Instant::now();
    let part = match words.as_slice() {
        ["refusals"] => {
            refusals::check();
            "each refusal through the crate"
        }
        ["years"] => {
            years::check();
            "retention years through the crate"
        }
        ["stack"] => {
            stack::check();
            "every call in a thread of 2 MB of stack, 65,536 slots"
        }
        ["threads"] => {
            threads::check();
            "two threads searching one index"
        }
        ["boundary"] => {
            boundary::check();
            "every call over memory of just its size"
        }
        ["scripts", exercise, folder] => {
            scripts::check(Path::new(exercise), Path::new(folder));
            "random calls, answered by the crate and by exercise"
        }
        _ => {
            eprintln!("{USAGE}");
            return ExitCode::from(2);
        }
    };
    println!("{part}: {} checks, {} differences, {:.1} s", same::checks(), same::differences(), began.elapsed().as_secs_f64());
    if same::differences() > 0 || same::checks() == 0 { ExitCode::FAILURE } else { ExitCode::SUCCESS }
}
