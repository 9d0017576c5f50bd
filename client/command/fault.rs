//! Why a command ends without its answer: what is said on standard error, and the status.
use std::fmt;
use std::io;
use std::path::Path;
use vecq::Error;

#[derive(Debug)]
pub enum Fault {
    /// The answer is no, or two lists differ: status 1. The text was the answer, so nothing more is said where it is empty.
    No(String),
    /// The words of the command line, with a hint at its help: status 2.
    Usage(String),
    /// An input that can't be read as what it should be: status 2.
    Input(String),
    /// The library turned a call down, and on what: status 3.
    Refused(Error, String),
    /// The system failed, and at what: status 4.
    System(String, io::Error),
    /// A line of a script wasn't done: the status is that of its own fault.
    Line(usize, Box<Fault>),
}

pub type Done<T> = Result<T, Fault>;

impl Fault {
    pub fn status(&self) -> u8 {
        match self {
            Fault::No(_) => 1,
            Fault::Usage(_) | Fault::Input(_) => 2,
            Fault::Refused(Error::Refused(_), _) => 3,
            Fault::Refused(Error::Memory | Error::OtherLibrary, _) | Fault::System(..) => 4,
            Fault::Line(_, fault) => fault.status(),
        }
    }

    /// Whether the help says how it is done.
    pub fn is_usage(&self) -> bool {
        match self {
            Fault::Usage(_) => true,
            Fault::Line(_, fault) => fault.is_usage(),
            _ => false,
        }
    }

    /// A failure of the system at a file.
    pub fn at(path: &Path) -> impl Fn(io::Error) -> Fault + '_ {
        move |error| Fault::System(path.display().to_string(), error)
    }

    /// A call that gave no answer, on what it was called.
    pub fn on(what: impl fmt::Display) -> impl Fn(Error) -> Fault {
        move |error| Fault::Refused(error, what.to_string())
    }

    /// The same fault, met in a line of a script.
    pub fn in_line(number: usize) -> impl Fn(Fault) -> Fault {
        move |fault| Fault::Line(number, Box::new(fault))
    }
}

impl fmt::Display for Fault {
    fn fmt(&self, f: &mut fmt::Formatter<'_>) -> fmt::Result {
        match self {
            Fault::No(text) | Fault::Usage(text) | Fault::Input(text) => f.write_str(text),
            Fault::Refused(error, what) => write!(f, "{error}: {what}"),
            Fault::System(what, error) => write!(f, "{what}: {error}"),
            Fault::Line(number, fault) => write!(f, "line {number}: {fault}"),
        }
    }
}
