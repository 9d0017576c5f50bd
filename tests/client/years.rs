//! Retention years (document 02, Req 06) through the crate: which slots may go when, 21 and what comes before it, years that travel with their slots, and
//! files with years.
use crate::files::Stated;
use crate::random::Random;
use crate::refusals::{accepted, refused, turned_down};
use crate::same;
use vecq::{Error, Index};

const VECTOR: [f32; 4] = [1.0, -2.0, 3.0, 0.5];
const OTHER: [f32; 4] = [-1.0, 2.0, 3.0, 4.0];

/// A year, a present year, and whether a slot of that year may go then.
const MAY_GO: [(u16, u16, bool); 18] = [
    (0, 0, false),
    (0, 1, false),
    (0, 2026, false),
    (0, 65_535, false),
    (1, 0, true),
    (1, 1, true),
    (1, 65_535, true),
    (2, 0, false),
    (2, 1, false),
    (2, 2, true),
    (2030, 2029, false),
    (2030, 2030, true),
    (2030, 2031, true),
    (65_535, 65_534, false),
    (65_535, 65_535, true),
    // Neither bytes the other way round nor a sign.
    (0x0102, 0x0201, true),
    (0x8000, 0x7FFF, false),
    (0x7FFF, 0x8000, true),
];

pub fn check() {
    for (kind, make) in KINDS {
        may_go(kind, make);
        whole_keys(kind, make);
        single_slots(kind, make);
        overwrites(kind, make);
        others_first(kind, make);
        travel(kind, make);
        written(kind, make);
    }
    growth();
    read();
    cut_blocks();
}

// ---- indexes

type Make = fn() -> Index;

const KINDS: [(&str, Make); 4] = [("4 bits", || of_width(4)), ("5 bits", || of_width(5)), ("6 bits", || of_width(6)), ("residual", residual)];

fn of_width(bits: u8) -> Index {
    let mut index = Index::new(4, 3).expect("an index is made");
    index.set_bits(bits).expect("a width is set");
    index
}

fn residual() -> Index {
    Index::with_residual(4, 3).expect("an index is made")
}

/// Slots of key 5 with these years, and one of key 6 without a duty behind them.
fn with_years(make: Make, years: &[u16]) -> Index {
    let mut index = make();
    for &year in years {
        index.add_keyed_multi(5, &VECTOR, year).expect("a slot is added");
    }
    index.add_keyed(6, &OTHER, 1, 0).expect("a slot is added");
    index
}

fn years(index: &Index) -> Vec<u16> {
    index.years().collect()
}

// ---- 21

/// The calls that a slot's year may turn down, each of the one slot of key 5.
fn may_go(kind: &str, make: Make) {
    type Call = fn(&mut Index, u16) -> Result<(), Error>;
    let calls: [(&str, Call); 3] = [
        ("remove_keyed", |index, present| index.remove_keyed(5, present).map(|yes| assert!(yes))),
        ("remove_keyed_at", |index, present| index.remove_keyed_at(5, 0, present).map(|yes| assert!(yes))),
        ("add_keyed", |index, present| index.add_keyed(5, &OTHER, 1, present).map(|slot| assert_eq!(slot, 0))),
    ];
    for (year, present, may) in MAY_GO {
        for (name, call) in calls {
            let (what, mut index) = (format!("{name}, year {year}, present {present}, {kind}"), with_years(make, &[year]));
            if may {
                accepted(&what, call(&mut index, present));
                same::equal(&format!("{what}: it is done"), index.live(), if name == "add_keyed" { 2 } else { 1 });
            } else {
                refused(&what, &mut index, 21, |index| call(index, present));
            }
        }
    }
}

/// All slots of the key are tested before one is touched.
fn whole_keys(kind: &str, make: Make) {
    for kept in [[2030, 1, 1], [1, 2030, 1], [1, 1, 2030]] {
        let mut index = with_years(make, &kept);
        refused(&format!("a key of years {kept:?}, {kind}"), &mut index, 21, |index| index.remove_keyed(5, 2029));
        same::equal("the key when all its slots may go", index.remove_keyed(5, 2030), Ok(true));
        same::equal("what is left", (index.live(), index.contains_key(5), index.contains_key(6)), (1, Ok(false), Ok(true)));
    }
    let mut index = with_years(make, &[1, 0]);
    refused("a slot for good", &mut index, 21, |index| index.remove_keyed(5, u16::MAX));
}

/// The slot that is taken is tested, and neither the others of its key nor the one that comes into its place.
fn single_slots(kind: &str, make: Make) {
    let mut index = with_years(make, &[1, 2030, 0]);
    refused(&format!("slot 1 too early, {kind}"), &mut index, 21, |index| index.remove_keyed_at(5, 1, 2029));
    refused("slot 2, for good", &mut index, 21, |index| index.remove_keyed_at(5, 2, u16::MAX));
    same::equal("slot 0", index.remove_keyed_at(5, 0, 0), Ok(true));
    same::equal("slot 1 in its year", index.remove_keyed_at(5, 1, 2030), Ok(true));
    refused("the last one, for good", &mut index, 21, |index| index.remove_keyed_at(5, 2, u16::MAX));
    // The year of a dead slot counts for nothing.
    let mut index = with_years(make, &[2030, 1]);
    same::equal("slot 0 in its year", index.remove_keyed_at(5, 0, 2030), Ok(true));
    same::equal("the key without it", index.remove_keyed(5, 0), Ok(true));
}

/// The first held slot is tested, and gets the new year.
fn overwrites(kind: &str, make: Make) {
    let mut index = with_years(make, &[1, 0]);
    same::equal(&format!("a slot of year 1, {kind}"), index.add_keyed(5, &OTHER, 2030, 0), Ok(0));
    same::equal("the new year", years(&index), vec![2030, 0, 1]);
    refused("too early", &mut index, 21, |index| index.add_keyed(5, &VECTOR, 1, 2029));
    same::equal("in its year", index.add_keyed(5, &VECTOR, 2, 2030), Ok(0));
    same::equal("an earlier year", index.add_keyed(5, &VECTOR, 0, 2), Ok(0));
    same::equal("for good", years(&index), vec![0, 0, 1]);
    refused("ever after", &mut index, 21, |index| index.add_keyed(5, &VECTOR, 1, u16::MAX));
    // After a removal another slot is the first one.
    let mut index = with_years(make, &[1, 2030, 0]);
    index.remove_keyed_at(5, 0, 0).expect("a slot is removed");
    let first = index.slot_at(5, 0).expect("slot_at answers").expect("a slot is first");
    let year = years(&index)[first as usize];
    refused(&format!("slot {first} of year {year}"), &mut index, 21, |index| index.add_keyed(5, &OTHER, 1, 2029));
}

/// What comes before 21, and calls that look at no year.
fn others_first(kind: &str, make: Make) {
    let mut index = with_years(make, &[0, 2030]);
    for (vector, number) in [(&[1.0, 2.0, 3.0][..], 1), (&[0.0; 4], 2), (&[1e30, 0.0, 0.0, 0.0], 3), (&VECTOR, 21)] {
        refused(&format!("an overwrite by {vector:?}, {kind}"), &mut index, number, |index| index.add_keyed(5, vector, 1, 0));
    }
    same::equal("no such key", index.remove_keyed(7, 0), Ok(false));
    for (key, slot) in [(7, 0), (6, 0), (5, 2), (5, 3), (5, usize::MAX)] {
        same::equal("not the key's slot", index.remove_keyed_at(key, slot, 0), Ok(false));
    }
    same::equal("a new key", index.add_keyed(7, &VECTOR, 0, 0), Ok(3));
    same::equal("one more slot of the key", index.add_keyed_multi(5, &VECTOR, 0), Ok(4));
    same::equal("a relabelling", index.relabel(5, 8), Ok(true));
    same::equal("a relabelling to a key that has slots", index.relabel(8, 6), Ok(false));
    refused("a relabelled key", &mut index, 21, |index| index.remove_keyed(8, u16::MAX));
    same::equal("the years", years(&index), vec![0, 2030, 1, 0, 0]);
}

// ---- years and their slots

/// A compaction moves years with their slots.
fn travel(kind: &str, make: Make) {
    let mut index = make();
    let given = [1, 2030, 0, 1, 2031, 1, 7];
    for (key, year) in (0..).zip(given) {
        index.add_keyed(key, &VECTOR, year, 0).expect("a slot is added");
    }
    for key in [0, 3, 5] {
        same::equal("a slot without a duty", index.remove_keyed(key, 0), Ok(true));
    }
    index.compact().expect("an index is compacted");
    same::equal(&format!("years after a compaction, {kind}"), years(&index), vec![2030, 0, 2031, 7]);
    refused("key 1, slot 0 now", &mut index, 21, |index| index.remove_keyed(1, 2029));
    refused("key 2, slot 1 now", &mut index, 21, |index| index.remove_keyed(2, u16::MAX));
    same::equal("key 6, slot 3 now", index.remove_keyed(6, 7), Ok(true));
}

/// More slots than there was room for.
fn growth() {
    let mut index = of_width(4);
    for year in 0..100 {
        index.add(&VECTOR, year).expect("a slot is added");
    }
    same::equal("years of a hundred adds", years(&index), (0..100).collect());
}

// ---- files

/// The same index with year 1 throughout gives the same bytes, but for the version and the block of years.
fn written(kind: &str, make: Make) {
    let mut index = with_years(make, &[2030, 0x0102]);
    let plain = with_years(make, &[1, 1]).to_bytes().expect("a file is written");
    let version = Index::version(&plain).expect("a version is stated");
    same::check("a version without years", (259..=261).contains(&version), || version.to_string());
    let block = [2030u16, 0x0102, 1].map(u16::to_le_bytes).concat();
    let file = [&plain[..4], &(version + 3).to_le_bytes(), &plain[6..], &block].concat();
    same::equal(&format!("a file with years, {kind}"), index.to_bytes(), Ok(file.clone()));
    same::equal("its length", index.file_length(), Ok(file.len()));
    let mut read = Index::from_bytes(&file, 0).expect("a file is read");
    same::equal("the years that were read", years(&read), vec![2030, 0x0102, 1]);
    refused("a key that was read", &mut read, 21, |index| index.remove_keyed(5, 2029));
    same::equal("a file without years", Index::from_bytes(&plain, 0).map(|index| years(&index)), Ok(vec![1, 1, 1]));
    // Dead slots' years count for nothing.
    for slot in [0, 1] {
        same::equal("a slot in its year", index.remove_keyed_at(5, slot, 2030), Ok(true));
    }
    let left = with_years(make, &[]).to_bytes();
    same::equal(&format!("a file whose live slots have year 1, {kind}"), index.to_bytes(), left);
}

/// Files that the library didn't write.
fn read() {
    for (version, width) in [(262, 4), (263, 4), (264, 4), (264, 5), (264, 6)] {
        let what = format!("version {version}, width {width}");
        let mut stated = Stated::new(version, 8, width, 5);
        stated.keys = vec![(0, 5), (1, 6), (3, 5)];
        stated.years = vec![2030, 0, 1, 65_535, 0x0102];
        let file = stated.bytes(&mut Random::new(6));
        same::equal(&format!("{what}: stated"), Index::version(&file), Ok(version));
        let index = Index::from_bytes(&file, 0).expect("a file with years is read");
        same::equal(&format!("{what}: years"), years(&index), stated.years.clone());
        // At 4 bits the library writes 262.
        let written = if (version, width) == (264, 4) { 262 } else { version };
        let stated = Stated { version: written, ..stated };
        same::equal(&format!("{what}: written again"), index.to_bytes(), Ok(stated.bytes(&mut Random::new(6))));
        // Where all years are 1, the version is the older one, and the block goes.
        let plain = Stated { years: vec![1; 5], ..stated };
        let index = Index::from_bytes(&plain.bytes(&mut Random::new(6)), 0).expect("a file with years is read");
        same::equal(&format!("{what}: all years 1"), years(&index), vec![1; 5]);
        let older = Stated { version: written - 3, ..plain };
        same::equal(&format!("{what}: all years 1, written"), index.to_bytes(), Ok(older.bytes(&mut Random::new(6))));
    }
    // The block stands behind the end of an older version, and bytes there are passed over.
    let file = [Stated::new(259, 8, 4, 2).bytes(&mut Random::new(6)), vec![0; 4]].concat();
    same::equal("an older version", Index::from_bytes(&file, 0).map(|index| years(&index)), Ok(vec![1, 1]));
    same::equal("no slot", Index::from_bytes(&Stated::new(262, 8, 4, 0).bytes(&mut Random::new(6)), 0).map(|index| years(&index)), Ok(vec![]));
}

/// A block that ends early is 14, as all the rest of a file, and 14 comes before 19.
fn cut_blocks() {
    for (version, width) in [(262, 4), (263, 4), (264, 6)] {
        for twice in [false, true] {
            let mut stated = Stated::new(version, 8, width, 3);
            stated.keys = vec![(0, 5), (if twice { 0 } else { 1 }, 6)];
            let file = stated.bytes(&mut Random::new(6));
            for length in 24..file.len() {
                let what = format!("version {version}, {length} bytes of {}", file.len());
                turned_down(&what, 14, Index::from_bytes(&file[..length], 0).map(drop));
            }
            match twice {
                true => turned_down(&format!("version {version}, a slot twice"), 19, Index::from_bytes(&file, 0).map(drop)),
                false => accepted(&format!("version {version}, whole"), Index::from_bytes(&file, 0).map(drop)),
            }
        }
    }
}
