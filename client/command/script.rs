//! `edit`: the changes of a script, a line each, saved once.
use crate::arguments::Arguments;
use crate::changes::{rewritten, tell, Change, Kind, Outcome, ADD, RELABEL, REMOVE};
use crate::fault::{Done, Fault};
use crate::numbers::quoted;
use crate::output::print;
use crate::text::Lines;
use std::ffi::{OsStr, OsString};
use std::io;
use std::os::unix::ffi::OsStrExt;
use std::path::Path;
use vecq::Index;

/// The words of a line, and its number.
type Line = (usize, Vec<OsString>);

pub fn edit(arguments: &Arguments) -> Done<()> {
    let path = arguments.path("FILE")?;
    let lines = read_lines()?;
    let (outcome, live, bytes) = rewritten(path, |index| make_all(&lines, index, path))?;
    tell(path, &outcome);
    print(&format!("lines\t{}\nlive\t{live}\nbytes\t{bytes}\n", outcome.count))
}

/// The lines of standard input that say something.
fn read_lines() -> Done<Vec<Line>> {
    let mut source = Lines::new(io::stdin().lock());
    let mut lines = Vec::new();
    while let Some((number, line)) = source.read().map_err(Fault::at(Path::new("standard input")))? {
        let words = words(line);
        if words.first().is_some_and(|word| !word.as_bytes().starts_with(b"#")) {
            lines.push((number, words));
        }
    }
    Ok(lines)
}

fn words(line: &[u8]) -> Vec<OsString> {
    let words = line.split(u8::is_ascii_whitespace).filter(|word| !word.is_empty());
    words.map(|word| OsStr::from_bytes(word).to_os_string()).collect()
}

fn make_all(lines: &[Line], index: &mut Index, path: &Path) -> Done<Outcome> {
    let mut all = Outcome { count: lines.len(), renumbered: false };
    for (number, words) in lines {
        let change = change(words).map_err(Fault::in_line(*number))?;
        all.renumbered |= change.make(index, path).map_err(Fault::in_line(*number))?.renumbered;
    }
    Ok(all)
}

fn change(words: &[OsString]) -> Done<Change> {
    let (name, rest) = words.split_first().ok_or_else(|| Fault::Usage(String::from("an empty line")))?;
    let kind = kind(name)?;
    let names = kind.form.words.split_first().map(|(_file, names)| names).unwrap_or_default();
    let arguments = Arguments::read(&kind.form, names, rest.iter().cloned())?;
    if kind.name == ADD.name && arguments.path("VECTORS")? == Path::new("-") {
        return Err(Fault::Usage(String::from("standard input is the script, so no vectors come from there")));
    }
    (kind.read)(&arguments)
}

fn kind(name: &OsStr) -> Done<&'static Kind> {
    let kinds: [&'static Kind; 3] = [&ADD, &RELABEL, &REMOVE];
    kinds.into_iter().find(|kind| name == kind.name).ok_or_else(|| Fault::Usage(format!("{} is no change", quoted(name.as_bytes()))))
}
