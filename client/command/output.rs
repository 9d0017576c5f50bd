//! Where answers go: standard output, or a file that is put into its place when it is whole.
use crate::fault::{Done, Fault};
use crate::save::{Draft, Writer};
use std::fmt::Display;
use std::io::{self, Write};
use std::path::Path;

pub enum Output {
    Standard,
    File(Draft),
}

impl Output {
    /// The file, or standard output without one.
    pub fn to(file: Option<&Path>) -> Done<Output> {
        match file {
            Some(path) => Ok(Output::File(Writer::new(path)?.draft()?)),
            None => Ok(Output::Standard),
        }
    }

    pub fn write(&mut self, text: &str) -> Done<()> {
        match self {
            Output::Standard => print(text),
            Output::File(draft) => draft.write(text.as_bytes()),
        }
    }

    /// The answer is whole.
    pub fn end(self) -> Done<()> {
        match self {
            Output::Standard => Ok(()),
            Output::File(draft) => draft.replace(),
        }
    }
}

/// Writes to standard output. What can't be written, as into a closed pipe, is a fault and no panic.
pub fn print(text: &str) -> Done<()> {
    let mut output = io::stdout().lock();
    output.write_all(text.as_bytes()).and_then(|()| output.flush()).map_err(|error| Fault::System(String::from("standard output"), error))
}

/// Says something on standard error. Where nobody listens nothing is lost that a status wouldn't tell.
pub fn say(text: impl Display) {
    let _ = writeln!(io::stderr(), "vecq: {text}");
}
