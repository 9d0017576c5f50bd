//! Retention years as document 02 (Req 06) says them; the Rust has none. Which slots are to be kept, and what a file has of years. Where years are set
//! and moved is the driver's.
use crate::head::Head;

/// "0 is kept for good, 1 is no duty, any other the first year in which it may go". 21 is of a slot that "has year 0, or a year above 1 that is past the
/// present one".
pub fn is_kept(year: u16, present: u16) -> bool {
    match year {
        0 => true,
        1 => false,
        first => present < first,
    }
}

/// The file of an index: the Rust's, which ends with the key table, and the years of the live slots. "Files whose live slots all have year 1 are written as
/// before. Others use a version 3 above the old one (262, 263, 264), with one year per live slot, in slot order, after the key table."
pub fn with_years(mut file: Vec<u8>, years: &[u16]) -> Vec<u8> {
    if years.iter().all(|&year| year == 1) {
        return file;
    }
    raise(&mut file, 3);
    file.extend(years.iter().flat_map(|year| year.to_le_bytes()));
    file
}

/// A file of 262 to 264 with the version 3 below, none of another. The Rust reads it, since to it the year block is bytes after the end.
pub fn without_years(file: &[u8]) -> Option<Vec<u8>> {
    let version = u16::from_le_bytes(file.get(4..6)?.try_into().ok()?);
    (262..=264).contains(&version).then(|| {
        let mut before = file.to_vec();
        raise(&mut before, -3);
        before
    })
}

fn raise(file: &mut [u8], by: i16) {
    let version = u16::from_le_bytes([file[4], file[5]]).wrapping_add_signed(by);
    file[4..6].copy_from_slice(&version.to_le_bytes());
}

/// The years behind the key table of a file that `without_years` gave. None if a block is cut short.
pub fn years_in(file: &[u8]) -> Option<Vec<u16>> {
    let head = Head::of(file)?;
    let keys = head.keys();
    let entries = u32::from_le_bytes(file.get(keys..keys + 4)?.try_into().ok()?) as usize;
    let start = keys + 4 + 12 * entries;
    let block = file.get(start..start + 2 * head.count)?;
    Some(block.chunks(2).map(|year| u16::from_le_bytes([year[0], year[1]])).collect())
}
