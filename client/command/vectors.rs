//! Vectors of a file: NAME.fvecs with its keys in NAME.keys, or text with a vector a line.
use crate::fault::{Done, Fault};
use crate::numbers::{decimal, quoted, whole};
use crate::progress::Progress;
use crate::text::Lines;
use std::fmt;
use std::fs::File;
use std::io::{self, BufRead, BufReader, Read};
use std::path::{Path, PathBuf};
use vecq::Error;

/// All rows, their entries in one array.
pub struct Vectors {
    path: PathBuf,
    entries: Vec<f32>,
    /// Where each row's entries end.
    ends: Vec<usize>,
    /// The key of each row, if keys were asked for.
    keys: Vec<Option<u64>>,
    /// The line of each row, if it is text.
    lines: Vec<usize>,
}

/// A row, and where it stands for a message.
pub struct Row<'a> {
    pub key: Option<u64>,
    pub entries: &'a [f32],
    pub place: Place<'a>,
}

pub enum Place<'a> {
    Line(&'a Path, usize),
    Vector(&'a Path, usize),
}

impl fmt::Display for Place<'_> {
    fn fmt(&self, f: &mut fmt::Formatter<'_>) -> fmt::Result {
        match self {
            Place::Line(path, line) => write!(f, "{}:{line}", path.display()),
            Place::Vector(path, number) => write!(f, "vector {number} of {}", path.display()),
        }
    }
}

/// How the rows are to be read.
#[derive(Clone, Copy)]
pub struct Reading {
    /// Whether rows have keys.
    pub keyed: bool,
    /// Whether the first line of a text names its columns.
    pub header: bool,
}

/// Bytes that are asked of the system at once.
const AT_ONCE: usize = 1 << 18;

impl Vectors {
    /// Reads a file, or standard input where it is named -.
    pub fn read(path: &Path, reading: Reading) -> Done<Vectors> {
        let mut vectors = Vectors { path: path.to_path_buf(), entries: Vec::new(), ends: Vec::new(), keys: Vec::new(), lines: Vec::new() };
        if path.as_os_str() == "-" {
            vectors.read_text(io::stdin().lock(), reading)?;
        } else if path.as_os_str().as_encoded_bytes().ends_with(b".fvecs") {
            vectors.read_fvecs(reading)?;
        } else {
            vectors.read_text(opened(path)?, reading)?;
        }
        Ok(vectors)
    }

    pub fn count(&self) -> usize {
        self.ends.len()
    }

    pub fn rows(&self) -> impl Iterator<Item = Row<'_>> {
        let starts = [0].into_iter().chain(self.ends.iter().copied());
        starts.zip(&self.ends).enumerate().map(|(row, (start, &end))| Row {
            key: self.keys.get(row).copied().flatten(),
            entries: self.entries.get(start..end).unwrap_or_default(),
            place: self.place(row),
        })
    }

    fn place(&self, row: usize) -> Place<'_> {
        match self.lines.get(row) {
            Some(&line) => Place::Line(&self.path, line),
            None => Place::Vector(&self.path, row + 1),
        }
    }

    /// The entries since the last row are a row.
    fn end_row(&mut self) -> Done<()> {
        push(&mut self.ends, self.entries.len()).map_err(Fault::on(self.path.display()))
    }
}

fn opened(path: &Path) -> Done<BufReader<File>> {
    Ok(BufReader::with_capacity(AT_ONCE, File::open(path).map_err(Fault::at(path))?))
}

/// A push that fails where there is no memory.
fn push<T>(array: &mut Vec<T>, item: T) -> Result<(), Error> {
    array.try_reserve(1)?;
    array.push(item);
    Ok(())
}

// ---- .fvecs: for each vector the count of its entries, 32 bits, and the entries as binary32, all little-endian

/// Entries that are read at once: a count is only believed as far as the file goes.
const ENTRIES_AT_ONCE: usize = 4096;

impl Vectors {
    fn read_fvecs(&mut self, reading: Reading) -> Done<()> {
        if reading.header {
            return Err(Fault::Usage(format!("--header is for text: {}", self.path.display())));
        }
        let mut source = opened(&self.path)?;
        let mut buffer = [0; 4 * ENTRIES_AT_ONCE];
        let mut progress = Progress::new("vectors read", None);
        while let Some(count) = self.read_count(&mut source)? {
            self.read_entries(&mut source, count, &mut buffer)?;
            self.end_row()?;
            progress.reached(self.count());
        }
        if reading.keyed {
            self.read_keys()?;
        }
        Ok(())
    }

    /// The count before the next vector; none at the end of the file.
    fn read_count(&self, source: &mut impl Read) -> Done<Option<usize>> {
        let mut bytes = [0; 4];
        match filled(source, &mut bytes).map_err(Fault::at(&self.path))? {
            0 => return Ok(None),
            4 => {}
            _ => return Err(self.cut_short()),
        }
        let count = i32::from_le_bytes(bytes);
        usize::try_from(count).map(Some).map_err(|_| Fault::Input(format!("{}: vector {} states {count} entries", self.path.display(), self.count() + 1)))
    }

    /// Entries go through the buffer, as many at once as fit it.
    fn read_entries(&mut self, source: &mut impl Read, count: usize, buffer: &mut [u8; 4 * ENTRIES_AT_ONCE]) -> Done<()> {
        let mut left = count;
        while left > 0 {
            let now = left.min(ENTRIES_AT_ONCE);
            let bytes = &mut buffer[..4 * now];
            if filled(source, bytes).map_err(Fault::at(&self.path))? < bytes.len() {
                return Err(self.cut_short());
            }
            self.take_entries(bytes).map_err(Fault::on(self.path.display()))?;
            left -= now;
        }
        Ok(())
    }

    fn take_entries(&mut self, bytes: &[u8]) -> Result<(), Error> {
        let (entries, _) = bytes.as_chunks::<4>();
        self.entries.try_reserve(entries.len())?;
        self.entries.extend(entries.iter().map(|entry| f32::from_le_bytes(*entry)));
        Ok(())
    }

    fn cut_short(&self) -> Fault {
        Fault::Input(format!("{}: vector {} is cut short", self.path.display(), self.count() + 1))
    }

    /// A key or - a line, as many as there are vectors.
    fn read_keys(&mut self) -> Done<()> {
        let path = self.path.with_extension("keys");
        let mut lines = Lines::new(opened(&path)?);
        while let Some((number, line)) = lines.read().map_err(Fault::at(&path))? {
            let key = key_or_none(line.trim_ascii()).map_err(|text| at_line(&path, number, text))?;
            push(&mut self.keys, key).map_err(Fault::on(path.display()))?;
        }
        if self.keys.len() != self.count() {
            return Err(Fault::Input(format!("{}: {} keys for {} vectors", path.display(), self.keys.len(), self.count())));
        }
        Ok(())
    }
}

/// Fills the places as far as the source goes. How many bytes came.
fn filled(source: &mut impl Read, places: &mut [u8]) -> io::Result<usize> {
    let mut count = 0;
    while count < places.len() {
        match source.read(&mut places[count..]) {
            Ok(0) => break,
            Ok(more) => count += more,
            Err(error) if error.kind() == io::ErrorKind::Interrupted => {}
            Err(error) => return Err(error),
        }
    }
    Ok(count)
}

// ---- text

impl Vectors {
    fn read_text(&mut self, source: impl BufRead, reading: Reading) -> Done<()> {
        let path = self.path.clone();
        let mut lines = Lines::new(source);
        let mut progress = Progress::new("lines read", None);
        while let Some((number, line)) = lines.read().map_err(Fault::at(&path))? {
            let line = without_comment(line);
            if line.is_empty() || (reading.header && number == 1) {
                continue;
            }
            self.make_room(line).map_err(Fault::on(path.display()))?;
            self.take_line(line, reading.keyed).map_err(|text| at_line(&path, number, text))?;
            self.end_row()?;
            push(&mut self.lines, number).map_err(Fault::on(path.display()))?;
            progress.reached(number);
        }
        Ok(())
    }

    /// Room for all that a line can hold: every field but the last takes two bytes or more.
    fn make_room(&mut self, line: &[u8]) -> Result<(), Error> {
        self.keys.try_reserve(1)?;
        Ok(self.entries.try_reserve(line.len().div_ceil(2))?)
    }

    /// Takes the fields of a line as a row's key and entries. A fault is told in words.
    fn take_line(&mut self, line: &[u8], keyed: bool) -> Result<(), String> {
        let mut fields = Fields { rest: Some(line) };
        if keyed {
            let key = fields.next().transpose()?.unwrap_or_default();
            self.keys.push(key_or_none(key)?);
        }
        for field in fields {
            let field = field?;
            self.entries.push(decimal(field).ok_or_else(|| format!("{} is no number", quoted(field)))?);
        }
        Ok(())
    }
}

fn at_line(path: &Path, number: usize, text: String) -> Fault {
    Fault::Input(format!("{}:{number}: {text}", path.display()))
}

fn without_comment(line: &[u8]) -> &[u8] {
    let end = line.iter().position(|byte| *byte == b'#').unwrap_or(line.len());
    line.split_at(end).0.trim_ascii()
}

fn key_or_none(text: &[u8]) -> Result<Option<u64>, String> {
    if text == b"-" {
        return Ok(None);
    }
    whole(text).map(Some).ok_or_else(|| format!("{} is no key (0 to {}, or -)", quoted(text), u64::MAX))
}

/// The fields of a line, parted by blanks, or by one comma or semicolon with blanks around it.
struct Fields<'a> {
    /// What is still to be parted; none after the last field.
    rest: Option<&'a [u8]>,
}

fn is_mark(byte: u8) -> bool {
    matches!(byte, b',' | b';')
}

impl<'a> Iterator for Fields<'a> {
    type Item = Result<&'a [u8], String>;

    fn next(&mut self) -> Option<Self::Item> {
        let rest = self.rest.take()?;
        let end = rest.iter().position(|byte| is_mark(*byte) || byte.is_ascii_whitespace()).unwrap_or(rest.len());
        let (field, after) = rest.split_at(end);
        let after = after.trim_ascii_start();
        self.rest = match after.split_first() {
            Some((mark, more)) if is_mark(*mark) => Some(more.trim_ascii_start()),
            Some(_) => Some(after),
            None => None,
        };
        // A value that wasn't measured leaves a gap between two commas, or before the first or after the last: never a row that is shorter by one.
        Some(if field.is_empty() { Err(String::from("an empty field")) } else { Ok(field) })
    }
}
