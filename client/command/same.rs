//! Whether two lists are the same, to the byte.
use crate::arguments::Arguments;
use crate::fault::{Done, Fault};
use crate::output::print;
use crate::text::read_line;
use std::fs::File;
use std::io::{BufRead, BufReader};
use std::path::Path;

pub fn same(arguments: &Arguments) -> Done<()> {
    match first_difference(arguments.path("LIST")?, arguments.path("OTHER")?)? {
        None => Ok(()),
        Some(text) => {
            print(&text)?;
            Err(Fault::No(String::new()))
        }
    }
}

/// The first line at which two files part, as text; none where they are the same.
fn first_difference(one: &Path, other: &Path) -> Done<Option<String>> {
    let (mut ours, mut theirs) = (opened(one)?, opened(other)?);
    for number in 1_usize.. {
        let (our, their) = (line(&mut ours, one)?, line(&mut theirs, other)?);
        if our != their {
            return Ok(Some(format!("line {number}\n< {}\n> {}\n", shown(&our), shown(&their))));
        }
        if our.is_empty() {
            break;
        }
    }
    Ok(None)
}

fn opened(path: &Path) -> Done<BufReader<File>> {
    Ok(BufReader::new(File::open(path).map_err(Fault::at(path))?))
}

/// The next line with its end; empty where the file has ended.
fn line(source: &mut impl BufRead, path: &Path) -> Done<Vec<u8>> {
    let mut line = Vec::new();
    read_line(source, &mut line).map_err(Fault::at(path))?;
    Ok(line)
}

/// A line for people. Where its end isn't LF alone they couldn't see what differs, so it is said.
fn shown(line: &[u8]) -> String {
    let text = |bytes| String::from_utf8_lossy(bytes);
    match (line, line.strip_suffix(b"\r\n"), line.strip_suffix(b"\n")) {
        ([], _, _) => String::from("(ended)"),
        (_, Some(start), _) => format!("{} (CR LF)", text(start)),
        (_, _, Some(start)) => text(start).into_owned(),
        _ => format!("{} (no end of line)", text(line)),
    }
}
