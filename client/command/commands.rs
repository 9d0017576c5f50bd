//! The commands: what each takes, what it does, and its help.
use crate::arguments::{Arguments, Form};
use crate::changes::{self, ADD, RELABEL, REMOVE};
use crate::fault::{Done, Fault};
use crate::find;
use crate::help;
use crate::looks;
use crate::numbers::quoted;
use crate::output::print;
use crate::same::same;
use crate::script;
use std::ffi::{OsStr, OsString};

pub struct Command {
    pub name: &'static str,
    form: Form,
    run: fn(&Arguments) -> Done<()>,
    help: &'static str,
}

/// Cargo.toml's version, which cargo and `client/build` hand over.
const VERSION: &str = env!("CARGO_PKG_VERSION");

const FILE: &[&str] = &["FILE"];
const FILE_AND_QUERIES: &[&str] = &["FILE", "QUERIES"];

const COMMANDS: &[Command] = &[
    Command {
        name: "new",
        form: Form { words: FILE, more: false, flags: &["--residual"], values: &["--dim", "--working", "--seed", "--bits"] },
        run: changes::new,
        help: help::NEW,
    },
    Command { name: "info", form: Form { words: FILE, more: false, flags: &["--slots"], values: &[] }, run: looks::info, help: help::INFO },
    Command { name: "check", form: Form { words: FILE, more: false, flags: &[], values: &[] }, run: looks::check, help: help::CHECK },
    Command {
        name: "find",
        form: Form { words: FILE_AND_QUERIES, more: false, flags: &["--keyed", "--header"], values: &["-k", "--by", "--cascade", "--format", "-o"] },
        run: find::find,
        help: help::FIND,
    },
    Command {
        name: "file",
        form: Form { words: FILE_AND_QUERIES, more: false, flags: &["--keyed", "--header"], values: &["-k", "-o"] },
        run: find::file,
        help: help::FILE,
    },
    Command {
        name: "score",
        form: Form { words: FILE_AND_QUERIES, more: false, flags: &["--keyed", "--header"], values: &["--slot"] },
        run: find::score,
        help: help::SCORE,
    },
    Command { name: "keys", form: Form { words: FILE, more: true, flags: &[], values: &[] }, run: looks::keys, help: help::KEYS },
    Command { name: ADD.name, form: ADD.form, run: changes::add_command, help: help::ADD },
    Command { name: RELABEL.name, form: RELABEL.form, run: changes::relabel_command, help: help::RELABEL },
    Command { name: REMOVE.name, form: REMOVE.form, run: changes::remove_command, help: help::REMOVE },
    Command { name: "edit", form: Form { words: FILE, more: false, flags: &[], values: &[] }, run: script::edit, help: help::EDIT },
    Command { name: "same", form: Form { words: &["LIST", "OTHER"], more: false, flags: &[], values: &[] }, run: same, help: help::SAME },
    Command { name: "help", form: Form { words: &[], more: true, flags: &[], values: &[] }, run: show_help, help: help::HELP },
    Command { name: "version", form: Form { words: &[], more: false, flags: &[], values: &[] }, run: show_version, help: help::VERSION },
];

pub fn named(name: &OsStr) -> Done<&'static Command> {
    let name = if name == "--help" {
        OsStr::new("help")
    } else if name == "--version" {
        OsStr::new("version")
    } else {
        name
    };
    COMMANDS.iter().find(|command| name == command.name).ok_or_else(|| Fault::Usage(format!("no command {}", quoted(name.as_encoded_bytes()))))
}

impl Command {
    /// Runs the command with the words after its name.
    pub fn run(&self, words: Vec<OsString>) -> Done<()> {
        if words.iter().take_while(|word| *word != "--").any(|word| word == "--help") {
            return print(self.help);
        }
        (self.run)(&Arguments::read(&self.form, self.form.words, words)?)
    }
}

fn show_help(arguments: &Arguments) -> Done<()> {
    match arguments.more() {
        [] => print(help::ALL),
        [name] => print(named(name)?.help),
        [_, second, ..] => Err(Fault::Usage(format!("{} is a word too many", quoted(second.as_encoded_bytes())))),
    }
}

fn show_version(_: &Arguments) -> Done<()> {
    print(&format!("vecq\t{VERSION}\nabi\t{}\n", vecq::abi()))
}
