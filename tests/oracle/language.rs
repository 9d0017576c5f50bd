//! The language of the program `exercise`, in which scripts and fixed lists are written: what a line asks for.

/// "a line of over 140,000 bytes, its newline not counted" can't be read.
const LONGEST_LINE: usize = 140_000;
pub const MOST_SLOTS: usize = 4096;
/// "64 marks to a word": the program holds 64.
pub const MOST_WORDS: usize = 64;
pub const MOST_CODE_BYTES: usize = 1 << 20;
pub const MOST_PLACES: usize = 4096;
pub const MOST_FILE_BYTES: usize = 65_536;

/// The lent arrays, in the order of the page.
#[derive(Clone, Copy, PartialEq, Debug)]
pub enum Array {
    Codes,
    Scales,
    Keys,
    Keyed,
    Held,
    Alive,
    Codes2,
    Scales2,
    Years,
}

pub const ARRAYS: [(&str, Array); 9] = [
    ("codes", Array::Codes),
    ("scales", Array::Scales),
    ("keys", Array::Keys),
    ("keyed", Array::Keyed),
    ("held", Array::Held),
    ("alive", Array::Alive),
    ("codes2", Array::Codes2),
    ("scales2", Array::Scales2),
    ("years", Array::Years),
];

impl Array {
    /// How many elements the program holds.
    pub fn most(self) -> usize {
        match self {
            Array::Codes | Array::Codes2 => MOST_CODE_BYTES,
            Array::Alive => MOST_WORDS,
            _ => MOST_SLOTS,
        }
    }

    fn largest(self) -> u64 {
        match self {
            Array::Codes | Array::Codes2 => u8::MAX as u64,
            Array::Scales | Array::Scales2 | Array::Held => u32::MAX as u64,
            Array::Keys | Array::Alive => u64::MAX,
            Array::Keyed => 1,
            Array::Years => u16::MAX as u64,
        }
    }
}

/// The fields of the record, in the order of the page.
#[derive(Clone, Copy, PartialEq, Debug)]
pub enum Field {
    Dim,
    WorkingDim,
    Seed,
    Bits,
    Residual,
    N,
    Live,
    Cascade,
}

pub const FIELDS: [(&str, Field); 8] = [
    ("dim", Field::Dim),
    ("working_dim", Field::WorkingDim),
    ("seed", Field::Seed),
    ("bits", Field::Bits),
    ("residual", Field::Residual),
    ("n", Field::N),
    ("live", Field::Live),
    ("cascade", Field::Cascade),
];

impl Field {
    fn largest(self) -> u64 {
        match self {
            Field::Bits => u8::MAX as u64,
            Field::Residual | Field::Cascade => 1,
            _ => u64::MAX,
        }
    }
}

pub enum Line {
    /// an empty line or a comment
    Blank,
    Unreadable,
    Lend([usize; 9]),
    /// The place may be past the lent part: then the line can't be read.
    Set(Array, usize, u64),
    Field(Field, u64),
    Dump,
    Making { dim: usize, working: usize, seed: u64, residual: bool },
    Read(Vec<u8>),
    Call(Call),
}

/// The calls of an index that is there.
pub enum Call {
    Bits(u8),
    Add { vector: Vec<f32>, year: u16 },
    AddKeyed { key: u64, vector: Vec<f32>, year: u16, present: u16 },
    AddMulti { key: u64, vector: Vec<f32>, year: u16 },
    Relabel(u64, u64),
    Remove { key: u64, present: u16 },
    RemoveAt { key: u64, slot: usize, present: u16 },
    KeyOf(usize),
    Contains(u64),
    SlotAt(u64, usize),
    Enable,
    Score(usize, Vec<f32>),
    Search { k: usize, places: usize, query: Vec<f32> },
    SearchKeyed { k: usize, places: usize, query: Vec<f32> },
    SearchCascade { k: usize, r: usize, places: usize, query: Vec<f32> },
    Compact,
    Length,
    Write(usize),
}

pub fn read(line: &[u8]) -> Line {
    if line.len() > LONGEST_LINE {
        return Line::Unreadable;
    }
    if line.is_empty() || line[0] == b'#' {
        return Line::Blank;
    }
    let Ok(text) = std::str::from_utf8(line) else {
        return Line::Unreadable;
    };
    let fields: Vec<&str> = text.split(' ').collect();
    words(&fields).unwrap_or(Line::Unreadable)
}

fn words(fields: &[&str]) -> Option<Line> {
    let making = |dim, working, seed, residual| Some(Line::Making { dim, working, seed, residual });
    let call = match *fields {
        ["lend", ref lengths @ ..] => return lend(lengths),
        ["set", array, at, value] => {
            let array = named(&ARRAYS, array)?;
            return Some(Line::Set(array, size(at)?, up_to(array.largest(), value)?));
        }
        ["field", name, value] => {
            let name = named(&FIELDS, name)?;
            return Some(Line::Field(name, up_to(name.largest(), value)?));
        }
        ["dump"] => return Some(Line::Dump),
        ["new", dim, seed] => return making(size(dim)?, size(dim)?, number(seed)?, false),
        ["working", dim, working, seed] => return making(size(dim)?, size(working)?, number(seed)?, false),
        ["residual", dim, seed] => return making(size(dim)?, size(dim)?, number(seed)?, true),
        ["read", file] => return Some(Line::Read(bytes(file).filter(|b| b.len() <= MOST_FILE_BYTES)?)),
        ["bits", width] => Call::Bits(up_to(u8::MAX as u64, width)? as u8),
        ["add", v, year] => Call::Add { vector: vector(v)?, year: short(year)? },
        ["add_keyed", key, v, year, present] => {
            Call::AddKeyed { key: number(key)?, vector: vector(v)?, year: short(year)?, present: short(present)? }
        }
        ["add_multi", key, v, year] => Call::AddMulti { key: number(key)?, vector: vector(v)?, year: short(year)? },
        ["relabel", old, new] => Call::Relabel(number(old)?, number(new)?),
        ["remove", key, present] => Call::Remove { key: number(key)?, present: short(present)? },
        ["remove_at", key, slot, present] => Call::RemoveAt { key: number(key)?, slot: size(slot)?, present: short(present)? },
        ["key_of", slot] => Call::KeyOf(size(slot)?),
        ["contains", key] => Call::Contains(number(key)?),
        ["slot_at", key, position] => Call::SlotAt(number(key)?, size(position)?),
        ["enable"] => Call::Enable,
        ["score", slot, v] => Call::Score(size(slot)?, vector(v)?),
        ["search", k, places, v] => Call::Search { k: size(k)?, places: result(places)?, query: vector(v)? },
        ["search_keyed", k, places, v] => Call::SearchKeyed { k: size(k)?, places: result(places)?, query: vector(v)? },
        ["search_cascade", k, r, places, v] => Call::SearchCascade { k: size(k)?, r: size(r)?, places: result(places)?, query: vector(v)? },
        ["compact"] => Call::Compact,
        ["length"] => Call::Length,
        ["write", places] => Call::Write(up_to(MOST_FILE_BYTES as u64, places)? as usize),
        _ => return None,
    };
    Some(Line::Call(call))
}

fn lend(fields: &[&str]) -> Option<Line> {
    if fields.len() != ARRAYS.len() {
        return None;
    }
    let mut lengths = [0; 9];
    for (i, (_, array)) in ARRAYS.iter().enumerate() {
        lengths[i] = up_to(array.most() as u64, fields[i])? as usize;
    }
    Some(Line::Lend(lengths))
}

fn named<T: Copy>(table: &[(&str, T)], name: &str) -> Option<T> {
    table.iter().find(|row| row.0 == name).map(|row| row.1)
}

fn digit(d: u8) -> Option<u64> {
    match d {
        b'0'..=b'9' => Some((d - b'0') as u64),
        b'a'..=b'f' => Some((d - b'a') as u64 + 10),
        _ => None,
    }
}

/// Digits run together, any number of them up to 16.
fn digits(text: &[u8]) -> Option<u64> {
    text.iter().try_fold(0, |value, &d| Some(value << 4 | digit(d)?))
}

fn number(field: &str) -> Option<u64> {
    let text = field.as_bytes();
    if text.is_empty() || text.len() > 16 || (text[0] == b'0' && text.len() > 1) {
        return None;
    }
    digits(text)
}

fn up_to(most: u64, field: &str) -> Option<u64> {
    number(field).filter(|&value| value <= most)
}

fn size(field: &str) -> Option<usize> {
    up_to(usize::MAX as u64, field).map(|value| value as usize)
}

/// "YEAR and PRESENT are u16."
fn short(field: &str) -> Option<u16> {
    up_to(u16::MAX as u64, field).map(|value| value as u16)
}

fn result(field: &str) -> Option<usize> {
    up_to(MOST_PLACES as u64, field).map(|value| value as usize)
}

/// Elements of `width` digits each, or `-` for none.
fn run(field: &str, width: usize) -> Option<Vec<u64>> {
    match field {
        "-" => Some(Vec::new()),
        "" => None,
        _ if field.len() % width != 0 => None,
        _ => field.as_bytes().chunks(width).map(digits).collect(),
    }
}

pub fn vector(field: &str) -> Option<Vec<f32>> {
    Some(run(field, 8)?.into_iter().map(|p| f32::from_bits(p as u32)).collect())
}

pub fn bytes(field: &str) -> Option<Vec<u8>> {
    Some(run(field, 2)?.into_iter().map(|b| b as u8).collect())
}
