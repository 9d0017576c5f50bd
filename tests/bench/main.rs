//! The benchmark: the static library beside two builds of the Rust. tests/bench/run builds and runs it.
mod change;
mod clock;
mod count;
mod data;
mod goals;
mod groups;
mod look;
mod parts;
#[allow(dead_code)] // the oracle uses more of it
#[path = "../oracle/random.rs"]
mod random;
#[allow(dead_code)]
mod rust;
mod same;
mod slopes;
mod stack;
#[allow(dead_code)] // the client calls more of it
#[path = "../../client/src/sys.rs"]
mod sys;
mod table;

use std::process::ExitCode;

const GROUPS: [(&str, fn(), &str); 15] = [
    ("goals", goals::print, "the goals"),
    ("search-256", groups::search_256, "searches over slots of 256 entries: every number of slots, width, k and kind of keys"),
    ("search-1024", groups::search_1024, "the same of 1,024 entries"),
    ("search-4096", groups::search_4096, "the same of 4,096 entries"),
    ("keyed", groups::keyed, "keyed searches"),
    ("chosen", groups::chosen, "keyed searches, compaction and reading under chosen keys"),
    ("cascade", groups::cascade, "cascades"),
    ("add", groups::add, "adding"),
    ("compact", groups::compact, "compaction"),
    ("files", groups::files, "writing and reading"),
    ("fwht", groups::fwht, "the transform"),
    ("parts", parts::print, "refusal 13 and the choice of slots"),
    ("13", slopes::refusal_13, "refusal 13 against slots, all of them live and every third one dead"),
    ("slopes", slopes::print, "growth with slots, size and dead slots"),
    ("stack", stack::print, "stack of each call"),
];

fn usage() -> ExitCode {
    eprintln!("usage: bench GROUP..");
    GROUPS.iter().for_each(|(name, _, what)| eprintln!("  {name:12} {what}"));
    eprintln!("usage: bench groups                prints the groups' names");
    eprintln!("       bench cases                 prints the names of the cases that can be counted");
    eprintln!("       bench count CASE ours|rust  makes one call, for callgrind");
    ExitCode::from(2)
}

fn main() -> ExitCode {
    let words: Vec<String> = std::env::args().skip(1).collect();
    let words: Vec<&str> = words.iter().map(String::as_str).collect();
    match words.as_slice() {
        ["groups"] => {
            GROUPS.iter().for_each(|group| println!("{}", group.0));
            return ExitCode::SUCCESS;
        }
        ["cases"] => {
            count::CASES.iter().for_each(|case| println!("{}", case.0));
            return ExitCode::SUCCESS;
        }
        ["count", case, side @ ("ours" | "rust")] => return if count::call(case, *side == "ours") { ExitCode::SUCCESS } else { ExitCode::FAILURE },
        _ => {}
    }
    let groups: Vec<_> = words.iter().map(|word| GROUPS.iter().find(|(name, _, _)| *name == *word)).collect();
    if words.is_empty() || groups.contains(&None) {
        return usage();
    }
    groups.iter().flatten().for_each(|(_, print, _)| print());
    eprintln!("bench: {} checks, {} differences", same::checks(), same::differences());
    if same::differences() > 0 { ExitCode::FAILURE } else { ExitCode::SUCCESS }
}
