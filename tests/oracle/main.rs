//! The oracle: what the Rust core answers, written as the fixed lists that the gate holds our programs to, and set beside what our programs answer.
mod choice;
mod compare;
mod driver;
mod encodings;
mod exercise;
mod halves;
mod head;
mod language;
mod leaves;
mod list;
mod model;
mod one_trait;
mod random;
mod scripts;
mod text;
mod twin;
mod years;

use std::io::{stdin, stdout, BufRead, BufWriter, Write};
use std::path::Path;
use std::process::ExitCode;

const USAGE: &str = "usage: oracle leaves-list DIR             writes DIR/stdin and DIR/stdout, the list of the program leaves
       oracle encodings-list DIR [COUNT]  the same of the program encodings: the fixed list, or COUNT random lines
       oracle exercise-list DIR           the same of the program exercise
       oracle scripts SEED COUNT [--register]  a random script for the program exercise, of about COUNT calls; --register leaves look-up and files out;
                                          --large: about COUNT searches over indexes of 4,096 slots
       oracle answers                     what the Rust answers to the script on standard input
       oracle compare SCRIPT OURS RUST    compares the answers of the program exercise with those of `oracle answers`";

fn number<T: std::str::FromStr>(word: &str) -> T {
    word.parse().unwrap_or_else(|_| panic!("{word} is no number"))
}

fn answers() {
    let mut driver = driver::Driver::new();
    let mut out = BufWriter::new(stdout().lock());
    for line in stdin().lock().split(b'\n') {
        writeln!(out, "{}", driver.answer(&line.expect("a line is read"))).expect("an answer is written");
    }
    out.flush().expect("the answers are written");
}

fn main() -> ExitCode {
    let words: Vec<String> = std::env::args().skip(1).collect();
    let words: Vec<&str> = words.iter().map(String::as_str).collect();
    driver::hush();
    match words.as_slice() {
        ["leaves-list", dir] => leaves::list().write(Path::new(dir)),
        ["encodings-list", dir] => encodings::list().write(Path::new(dir)),
        ["encodings-list", dir, count] => encodings::random_list(number(count)).write(Path::new(dir)),
        ["exercise-list", dir] => exercise::list().write(Path::new(dir)),
        ["scripts", seed, count] => scripts::write(BufWriter::new(stdout().lock()), number(seed), number(count), false),
        ["scripts", seed, count, "--register"] => scripts::write(BufWriter::new(stdout().lock()), number(seed), number(count), true),
        ["scripts", seed, count, "--large"] => scripts::write_large(BufWriter::new(stdout().lock()), number(seed), number(count)),
        ["answers"] => answers(),
        ["compare", script, ours, rust] => return if compare::compare(script, ours, rust) { ExitCode::SUCCESS } else { ExitCode::FAILURE },
        _ => {
            eprintln!("{USAGE}");
            return ExitCode::from(2);
        }
    }
    ExitCode::SUCCESS
}
