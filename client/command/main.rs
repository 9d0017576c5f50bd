//! vecq: a keyed vector index in a file. The proved library answers; the command owns memory, text, files and exit status, and adds no arithmetic of its own.
#![forbid(unsafe_code)]
mod arguments;
mod changes;
mod commands;
mod fault;
mod find;
mod help;
mod lists;
mod looks;
mod numbers;
mod output;
mod progress;
mod same;
mod save;
mod script;
mod sha256;
mod stored;
mod text;
mod vectors;

use crate::fault::{Done, Fault};
use std::env;
use std::ffi::{OsStr, OsString};
use std::process::ExitCode;

fn main() -> ExitCode {
    let mut words = env::args_os().skip(1);
    let name = words.next().unwrap_or_default();
    match run(&name, words.collect()) {
        Ok(()) => ExitCode::SUCCESS,
        Err(fault) => {
            say_fault(&name, &fault);
            ExitCode::from(fault.status())
        }
    }
}

fn run(name: &OsStr, words: Vec<OsString>) -> Done<()> {
    if name.is_empty() {
        return Err(Fault::Usage(String::from("a command is missing")));
    }
    commands::named(name)?.run(words)
}

fn say_fault(name: &OsStr, fault: &Fault) {
    let mut text = fault.to_string();
    if fault.is_usage() {
        let command = commands::named(name).map_or("", |command| command.name);
        text.push_str(&format!("\ntry: vecq help {command}"));
    }
    // The answer no of `keys` and `same` was given on standard output.
    if !text.is_empty() {
        output::say(text.trim_end());
    }
}
