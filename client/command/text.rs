//! Text, line by line.
use std::io::{self, BufRead};

/// The lines of a text, each without its end (LF or CR LF).
pub struct Lines<R> {
    source: R,
    line: Vec<u8>,
    number: usize,
}

impl<R: BufRead> Lines<R> {
    pub fn new(source: R) -> Lines<R> {
        Lines { source, line: Vec::new(), number: 0 }
    }

    /// The next line, with its number from 1.
    pub fn read(&mut self) -> io::Result<Option<(usize, &[u8])>> {
        read_line(&mut self.source, &mut self.line)?;
        if self.line.is_empty() {
            return Ok(None);
        }
        self.number += 1;
        let line = without_end(&self.line);
        Ok(Some((self.number, if self.number == 1 { without_mark(line) } else { line })))
    }
}

/// Puts the next line into `line`, with its end; nothing where the source has ended. What std has ends the process where there is no memory for a line, and
/// a file that is no text can be one long line.
pub fn read_line(source: &mut impl BufRead, line: &mut Vec<u8>) -> io::Result<()> {
    line.clear();
    loop {
        let part = match source.fill_buf() {
            Ok(bytes) => bytes.split_inclusive(|byte| *byte == b'\n').next().unwrap_or_default(),
            Err(error) if error.kind() == io::ErrorKind::Interrupted => continue,
            Err(error) => return Err(error),
        };
        line.try_reserve(part.len())?;
        line.extend_from_slice(part);
        let count = part.len();
        source.consume(count);
        if count == 0 || line.ends_with(b"\n") {
            return Ok(());
        }
    }
}

fn without_end(line: &[u8]) -> &[u8] {
    let line = line.strip_suffix(b"\n").unwrap_or(line);
    line.strip_suffix(b"\r").unwrap_or(line)
}

/// Some editors put a mark of UTF-8 before the first line.
fn without_mark(line: &[u8]) -> &[u8] {
    line.strip_prefix(b"\xEF\xBB\xBF").unwrap_or(line)
}
