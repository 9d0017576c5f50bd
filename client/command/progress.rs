//! How far a long command is: one line on standard error, rewritten in place, if a person sees it.
use std::io::{self, IsTerminal, Write};
use std::time::{Duration, Instant};

/// A command that is done within this time says nothing.
const PATIENCE: Duration = Duration::from_millis(500);
const BETWEEN: Duration = Duration::from_millis(100);

pub struct Progress {
    what: &'static str,
    total: Option<usize>,
    /// When the line is written next; never if nobody sees it.
    next: Option<Instant>,
    written: bool,
}

impl Progress {
    /// Of what, and how many there are if that is known.
    pub fn new(what: &'static str, total: Option<usize>) -> Progress {
        let next = io::stderr().is_terminal().then(|| Instant::now() + PATIENCE);
        Progress { what, total, next, written: false }
    }

    pub fn reached(&mut self, count: usize) {
        let Some(next) = self.next else { return };
        let now = Instant::now();
        if now >= next {
            self.next = Some(now + BETWEEN);
            self.written = true;
            let of = self.total.map_or(String::new(), |total| format!(" of {total}"));
            rewrite(&format!("{count}{of} {}", self.what));
        }
    }
}

impl Drop for Progress {
    fn drop(&mut self) {
        if self.written {
            rewrite("");
        }
    }
}

/// Puts a text in the place of the line: to the line's start, clear it, the text.
fn rewrite(text: &str) {
    // It is no part of the answer, so a failure changes nothing.
    let _ = write!(io::stderr(), "\r\x1b[K{text}");
}
