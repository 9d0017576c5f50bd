//! The library's refusals.
use std::fmt;

/// A call that was turned down, by the number of documents 01 and 02.
#[derive(Clone, Copy, Debug, PartialEq, Eq)]
pub struct Refusal(pub u8);

impl Refusal {
    /// The condition, in words.
    pub fn words(self) -> &'static str {
        match self.0 {
            1 => "the vector's length is not dim",
            2 => "the vector's sum of squares is zero or NaN",
            3 => "the vector's sum of squares is infinite",
            4 => "dim is outside 1 to 4096, or working_dim outside 1 to dim",
            5 => "the width is not 4, 5 or 6",
            6 => "the width is set while slots are in use",
            7 => "a residual index has 4 bits",
            8 => "no room: 65536 slots are in use",
            9 => "there is no such slot",
            11 => "the cascade needs 4 bits, and is to be enabled first",
            12 => "a score is NaN",
            13 => "record and lent arrays misfit",
            14 => "file ends early",
            15 => "file doesn't begin with VECQ",
            16 => "file's version is unknown",
            17 => "file's working_dim is over its dim, or its dim is 0",
            18 => "file's width is not 4, 5 or 6",
            19 => "file's key entries name a slot twice or past the count",
            20 => "file is over the limits: dim 4096, 65536 slots",
            21 => "a slot of the key is to be kept: for good, or until its retention year",
            _ => "no words for this number",
        }
    }
}

impl fmt::Display for Refusal {
    fn fmt(&self, f: &mut fmt::Formatter<'_>) -> fmt::Result {
        write!(f, "refused {}: {}", self.0, self.words())
    }
}

/// Why a call gave no answer.
#[derive(Clone, Copy, Debug, PartialEq, Eq)]
pub enum Error {
    /// The library turned the call down; the index is as it was.
    Refused(Refusal),
    /// There is no memory for what the call needs; the index is as it was.
    Memory,
    /// The linked library has other signatures than this crate declares.
    OtherLibrary,
}

impl Error {
    /// The number, if the library turned the call down.
    pub fn number(self) -> Option<u8> {
        match self {
            Error::Refused(refusal) => Some(refusal.0),
            Error::Memory | Error::OtherLibrary => None,
        }
    }
}

impl fmt::Display for Error {
    fn fmt(&self, f: &mut fmt::Formatter<'_>) -> fmt::Result {
        match self {
            Error::Refused(refusal) => refusal.fmt(f),
            Error::Memory => f.write_str("out of memory"),
            Error::OtherLibrary => f.write_str("the linked library is of another version than this program"),
        }
    }
}

impl std::error::Error for Error {}

impl From<u8> for Error {
    fn from(number: u8) -> Error {
        Error::Refused(Refusal(number))
    }
}

impl From<std::collections::TryReserveError> for Error {
    fn from(_: std::collections::TryReserveError) -> Error {
        Error::Memory
    }
}
