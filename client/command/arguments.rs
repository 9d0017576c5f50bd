//! The words and options of a command line, or of a line of a script.
use crate::fault::{Done, Fault};
use crate::numbers::{quoted, whole};
use std::ffi::{OsStr, OsString};
use std::path::Path;

/// What a command takes.
pub struct Form {
    /// The words it needs, by the names that its help gives them.
    pub words: &'static [&'static str],
    /// Whether more words may follow.
    pub more: bool,
    /// Options that stand alone.
    pub flags: &'static [&'static str],
    /// Options with a value after them.
    pub values: &'static [&'static str],
}

/// What a command was given, by the names of its form.
#[derive(Default)]
pub struct Arguments {
    words: Vec<(&'static str, OsString)>,
    more: Vec<OsString>,
    options: Vec<(&'static str, OsString)>,
}

// ---- reading

impl Arguments {
    /// Words in the order of `names`, which are the form's or those that stay once FILE is known; options anywhere between them. After -- all are words.
    pub fn read(form: &Form, names: &[&'static str], given: impl IntoIterator<Item = OsString>) -> Done<Arguments> {
        let mut arguments = Arguments::default();
        let mut given = given.into_iter();
        while let Some(word) = given.next() {
            if word == "--" {
                arguments.more.extend(given.by_ref());
            } else if is_option(&word) {
                arguments.take_option(form, &word, &mut given)?;
            } else {
                arguments.more.push(word);
            }
        }
        arguments.name_words(names)?;
        match arguments.more.first() {
            Some(word) if !form.more => Err(Fault::Usage(format!("{} is a word too many", quoted(word.as_encoded_bytes())))),
            _ => Ok(arguments),
        }
    }

    fn take_option(&mut self, form: &Form, word: &OsStr, rest: &mut impl Iterator<Item = OsString>) -> Done<()> {
        let named = |names: &'static [&'static str]| names.iter().copied().find(|name| word == *name);
        let (name, value) = match (named(form.flags), named(form.values)) {
            (Some(name), _) => (name, OsString::new()),
            (None, Some(name)) => (name, rest.next().ok_or_else(|| Fault::Usage(format!("{name} needs a value")))?),
            (None, None) => return Err(Fault::Usage(format!("unknown option {}", quoted(word.as_encoded_bytes())))),
        };
        if self.has(name) {
            return Err(Fault::Usage(format!("{name} is given twice")));
        }
        self.options.push((name, value));
        Ok(())
    }

    fn name_words(&mut self, names: &[&'static str]) -> Done<()> {
        if let Some(name) = names.get(self.more.len()) {
            return Err(missing(name));
        }
        self.words = names.iter().copied().zip(self.more.drain(..names.len())).collect();
        Ok(())
    }
}

/// A lone - is a word: it names standard input.
fn is_option(word: &OsStr) -> bool {
    let bytes = word.as_encoded_bytes();
    bytes.starts_with(b"-") && bytes.len() > 1
}

pub fn missing(name: &str) -> Fault {
    Fault::Usage(format!("{name} is missing"))
}

fn found<'a>(named: &'a [(&'static str, OsString)], name: &str) -> Option<&'a OsStr> {
    named.iter().find(|(other, _)| *other == name).map(|(_, value)| value.as_os_str())
}

fn number(name: &str, text: &OsStr) -> Done<u64> {
    whole(text.as_encoded_bytes()).ok_or_else(|| Fault::Usage(format!("{name}: {} is no number", quoted(text.as_encoded_bytes()))))
}

fn year(name: &str, text: &OsStr) -> Done<u16> {
    let year = whole(text.as_encoded_bytes()).and_then(|number| u16::try_from(number).ok());
    year.ok_or_else(|| Fault::Usage(format!("{name}: {} is no year (0 to {})", quoted(text.as_encoded_bytes()), u16::MAX)))
}

// ---- asking

impl Arguments {
    pub fn path(&self, name: &str) -> Done<&Path> {
        found(&self.words, name).map(Path::new).ok_or_else(|| missing(name))
    }

    pub fn key(&self, name: &str) -> Done<u64> {
        key(name, found(&self.words, name).ok_or_else(|| missing(name))?)
    }

    /// The words after those of the form.
    pub fn more(&self) -> &[OsString] {
        &self.more
    }

    pub fn has(&self, option: &str) -> bool {
        found(&self.options, option).is_some()
    }

    pub fn value(&self, option: &str) -> Option<&OsStr> {
        found(&self.options, option)
    }

    pub fn number(&self, option: &str) -> Done<Option<u64>> {
        self.value(option).map(|text| number(option, text)).transpose()
    }

    pub fn count(&self, option: &str) -> Done<Option<usize>> {
        // No count of anything reaches past the machine's words, so the largest one stands for all beyond.
        Ok(self.number(option)?.map(|number| usize::try_from(number).unwrap_or(usize::MAX)))
    }

    pub fn year(&self, option: &str) -> Done<Option<u16>> {
        self.value(option).map(|text| year(option, text)).transpose()
    }

    /// The one of `choices` that an option names; the first without the option.
    pub fn choice<T: Copy>(&self, option: &str, choices: [(&str, T); 2]) -> Done<T> {
        let [(_, first), _] = choices;
        let Some(text) = self.value(option) else { return Ok(first) };
        let chosen = choices.iter().find(|(name, _)| text == *name).map(|(_, choice)| *choice);
        let [(one, _), (other, _)] = choices;
        chosen.ok_or_else(|| Fault::Usage(format!("{option}: {} is neither {one} nor {other}", quoted(text.as_encoded_bytes()))))
    }

    /// Two options that exclude each other.
    pub fn not_both(&self, one: &str, other: &str) -> Done<()> {
        if self.has(one) && self.has(other) {
            return Err(Fault::Usage(format!("{one} and {other} exclude each other")));
        }
        Ok(())
    }
}

pub fn key(name: &str, text: &OsStr) -> Done<u64> {
    whole(text.as_encoded_bytes()).ok_or_else(|| Fault::Usage(format!("{name}: {} is no key (0 to {})", quoted(text.as_encoded_bytes()), u64::MAX)))
}
