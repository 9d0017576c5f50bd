//! Each number of documents 01 and 02 that can come through the crate, by the table's example or its smallest input; and after each the index is what it
//! was. 13 can't come: `Index` keeps the record that the library gave it, lengthens all arrays together, and lends a search min(max(k,1), live) places and a
//! writing the file's length, so nothing that 13 names can be brought about from outside. Padded size 1 at 4 bits is accepted (document 02, Req 05).
use crate::files::Stated;
use crate::random::Random;
use crate::same;
use crate::snapshot::Snapshot;
use std::fmt::Debug;
use vecq::{Error, Hit, Index, KeyHit, MOST_SLOTS};

type Call = fn(&mut Index, &[f32]) -> Result<(), Error>;

/// The calls that take a vector.
const ADDS: [(&str, Call); 3] = [
    ("add", |index, v| index.add(v, 1).map(drop)),
    ("add_keyed", |index, v| index.add_keyed(77, v, 1, 1).map(drop)),
    ("add_keyed_multi", |index, v| index.add_keyed_multi(5, v, 1).map(drop)),
];
const SCORE: (&str, Call) = ("score", |index, v| index.score(0, v).map(drop));
const SEARCHES: [(&str, Call); 3] = [
    ("search", |index, v| index.search(v, 2).map(drop)),
    ("search_keyed", |index, v| index.search_keyed(v, 2).map(drop)),
    ("search_cascade", |index, v| index.search_cascade(v, 2, 3).map(drop)),
];

pub fn check() {
    vectors();
    making();
    widths();
    no_room();
    no_slot();
    one_trait();
    cascade();
    not_a_number();
    files();
    words();
}

/// The number, and that the index is what it was.
pub fn refused<T: Debug>(what: &str, index: &mut Index, number: u8, call: impl FnOnce(&mut Index) -> Result<T, Error>) {
    let before = Snapshot::of(index);
    turned_down(what, number, call(index));
    same::equal(&format!("{what}: the index afterwards"), Snapshot::of(index), before);
}

pub fn turned_down<T: Debug>(what: &str, number: u8, answer: Result<T, Error>) {
    same::check(what, answer.as_ref().err().and_then(|error| error.number()) == Some(number), || format!("{answer:?}, and 01 has {number}"));
}

pub fn accepted<T: Debug>(what: &str, answer: Result<T, Error>) {
    same::check(what, answer.is_ok(), || format!("{answer:?}"));
}

/// Keys with one slot and with several, slots without a key and a dead one, years of every kind; at 4 bits the cascade is enabled.
fn index(bits: u8, residual: bool, dim: usize) -> Index {
    let mut index = if residual { Index::with_residual(dim, 3) } else { Index::new(dim, 3) }.expect("an index is made");
    index.set_bits(bits).expect("a width is set");
    let mut random = Random::new(dim as u64);
    let mut vector = || (0..dim).map(|_| random.unit()).collect::<Vec<f32>>();
    for (key, year) in [(5, 2030), (6, 1), (7, 0), (5, 0), (8, 1), (5, 2040)] {
        index.add_keyed_multi(key, &vector(), year).expect("a slot is added");
    }
    index.add(&vector(), 1).expect("a slot is added");
    assert_eq!(index.remove_keyed_at(5, 0, 2030), Ok(true));
    if bits == 4 {
        index.enable_cascade().expect("the cascade is enabled");
    }
    index
}

fn each_kind(dim: usize) -> [(&'static str, Index); 4] {
    [("4 bits", index(4, false, dim)), ("5 bits", index(5, false, dim)), ("6 bits", index(6, false, dim)), ("residual", index(4, true, dim))]
}

/// 1, 2, 3.
fn vectors() {
    let faults: [(&[f32], u8); 9] = [
        (&[1.0, 2.0, 3.0], 1),
        (&[1.0, 2.0, 3.0, 4.0, 5.0], 1),
        (&[], 1),
        (&[0.0, 0.0, 0.0, 0.0], 2),
        (&[0.0, -0.0, 0.0, 0.0], 2),
        (&[1.0, f32::NAN, 0.0, 0.0], 2),
        (&[1e-30, 0.0, 0.0, 0.0], 2), // its square is 0
        (&[1e30, 0.0, 0.0, 0.0], 3),
        (&[f32::INFINITY, 0.0, 0.0, 0.0], 3),
    ];
    for (kind, mut index) in each_kind(4) {
        for (vector, number) in faults {
            for (name, call) in ADDS.iter().chain([&SCORE]).chain(&SEARCHES[..if index.bits() == 4 { 3 } else { 2 }]) {
                refused(&format!("{name} of {vector:?}, {kind}"), &mut index, number, |index| call(index, vector));
            }
        }
    }
    // The table's own example of 3.
    let mut two = Index::new(2, 1).expect("an index is made");
    refused("add of 1e30, 0", &mut two, 3, |index| index.add(&[1e30, 0.0], 1));
    // Entries past working_dim aren't read.
    let mut first = Index::with_working_dim(2, 1, 1).expect("an index is made");
    accepted("a NaN past working_dim", first.add(&[1.0, f32::NAN], 1));
    refused("a NaN within working_dim", &mut first, 2, |index| index.add(&[f32::NAN, 1.0], 1));
}

/// 4.
fn making() {
    for dim in [0, 4097, usize::MAX] {
        turned_down("new", 4, Index::new(dim, 1).map(drop));
        turned_down("with_residual", 4, Index::with_residual(dim, 1).map(drop));
        turned_down("with_working_dim", 4, Index::with_working_dim(dim, 1, 1).map(drop));
    }
    for working in [0, 5, usize::MAX] {
        turned_down("working_dim outside 1 to dim", 4, Index::with_working_dim(4, working, 1).map(drop));
    }
    for dim in [1, 4096] {
        accepted("new", Index::new(dim, 1).map(drop));
        accepted("with_residual", Index::with_residual(dim, 1).map(drop));
        accepted("with_working_dim", Index::with_working_dim(4096, dim, 1).map(drop));
    }
}

/// 5, 6, 7, in this order.
fn widths() {
    let mut empty = Index::new(4, 1).expect("an index is made");
    for width in [7, 3, 0, 255] {
        refused("a width", &mut empty, 5, |index| index.set_bits(width));
        for (kind, mut index) in each_kind(4) {
            refused(&format!("5 before 6 and 7, {kind}"), &mut index, 5, |index| index.set_bits(width));
        }
    }
    for (kind, mut index) in each_kind(4) {
        for width in [4, 5, 6] {
            refused(&format!("width {width} while slots are in use, {kind}"), &mut index, 6, |index| index.set_bits(width));
        }
    }
    empty.add_keyed(1, &[1.0; 4], 1, 1).expect("a slot is added");
    refused("one slot", &mut empty, 6, |index| index.set_bits(4));
    assert_eq!(empty.remove_keyed(1, 1), Ok(true));
    refused("one dead slot", &mut empty, 6, |index| index.set_bits(4));
    empty.compact().expect("an index is compacted");
    accepted("no slot after a compaction", empty.set_bits(4));
    let mut residual = Index::with_residual(4, 1).expect("an index is made");
    for width in [5, 6] {
        refused("residual", &mut residual, 7, |index| index.set_bits(width));
    }
}

/// 8. The table's example, a capacity of 2, can't come: the crate makes room up to the most slots that there may be.
fn no_room() {
    for (version, width) in [(259, 4), (260, 4), (261, 5), (261, 6)] {
        let mut stated = Stated::new(version, 1, width, MOST_SLOTS as u32);
        stated.keys = vec![(3, 5), (4, 6)];
        let mut full = Index::from_bytes(&stated.bytes(&mut Random::new(8)), 0).expect("a file of 65,536 slots is read");
        for (name, call) in ADDS {
            turned_down(&format!("{name}, 65,536 slots"), 8, call(&mut full, &[1.0]));
        }
        turned_down("2 before 8", 2, full.add(&[0.0], 1));
        let before = full.to_bytes();
        same::equal("65,536 slots in use", (full.slots(), full.live()), (MOST_SLOTS, MOST_SLOTS));
        same::equal("an overwrite needs no room", full.add_keyed(6, &[1.0], 1, 1), Ok(4));
        same::check("an overwrite is stored", full.to_bytes() != before, || "the file is the old one".to_string());
        same::equal("a removal", full.remove_keyed(5, 1), Ok(true));
        turned_down("a place freed by removal", 8, full.add(&[1.0], 1));
        accepted("a compaction", full.compact());
        same::equal("serves again after it", full.add(&[1.0], 1), Ok(MOST_SLOTS as u32 - 1));
        turned_down("the next add", 8, full.add(&[1.0], 1));
    }
    let mut grown = Index::new(1, 1).expect("an index is made");
    for slot in 0..100 {
        same::equal("a slot where room was made", grown.add(&[1.0], 1), Ok(slot));
    }
}

/// 9.
fn no_slot() {
    let mut three = Index::new(4, 1).expect("an index is made");
    for slot in 0..3 {
        same::equal("a slot that is added", three.add(&[1.0, 2.0, 3.0, 4.0], 1), Ok(slot));
    }
    for slot in [3, 4, MOST_SLOTS, usize::MAX] {
        refused("a slot past those in use", &mut three, 9, |index| index.score(slot, &[1.0; 4]));
    }
    refused("1 before 9", &mut three, 1, |index| index.score(3, &[1.0; 3]));
    for (kind, mut index) in each_kind(4) {
        accepted(&format!("a dead slot is scored, {kind}"), index.score(0, &[1.0; 4]).map(drop));
        let n = index.slots();
        refused(&format!("slot {n} of {n}, {kind}"), &mut index, 9, |index| index.score(n, &[1.0; 4]));
    }
}

/// A game with one trait at 4 bits (document 02, Req 05) is scored and listed; 9, 1, 2, 3 and 12 as elsewhere.
fn one_trait() {
    for residual in [false, true] {
        let mut one = if residual { Index::with_residual(1, 1) } else { Index::new(1, 1) }.expect("an index is made");
        one.set_bits(4).expect("a width is set");
        one.enable_cascade().expect("the cascade is enabled");
        same::equal("no slot to score", one.search(&[1.0], 3), Ok(Vec::new()));
        refused("no slot in use", &mut one, 9, |index| index.score(0, &[1.0]));
        one.add_keyed(5, &[1.0], 1, 1).expect("a slot is added");
        one.enable_cascade().expect("the cascade is enabled");
        for (name, call) in [&SCORE].into_iter().chain(&SEARCHES) {
            accepted(&format!("{name}, dim 1 at 4 bits"), call(&mut one, &[2.0]));
            for (vector, number) in [(&[2.0, 3.0][..], 1), (&[0.0], 2), (&[1e30], 3)] {
                refused(&format!("{name} of {vector:?}, dim 1 at 4 bits"), &mut one, number, |index| call(index, vector));
            }
        }
        refused("slot 1 of 1", &mut one, 9, |index| index.score(1, &[1.0]));
    }
    // The first sign of seed 1 is -1: 3 becomes -1, which has code 3 and a scale of 1.1266743, one over 0.887568. Their product is 1.
    let mut plain = Index::new(1, 1).expect("an index is made");
    plain.set_bits(4).expect("a width is set");
    plain.add(&[3.0], 1).expect("a slot is added");
    same::equal("a score by hand", plain.score(0, &[0.5]), Ok(1.0));
    same::equal("its opposite", plain.score(0, &[-0.5]), Ok(-1.0));
    for version in [259, 260] {
        one_trait_read(version);
    }
}

/// Four slots of scale 1 with codes 3, 11, 15 and 7 under any high four bits. A residual file has them twice, so its scores are twice those of the other.
fn one_trait_read(version: u16) {
    let mut stated = Stated::new(version, 1, 4, 4);
    stated.keys = vec![(0, 5), (1, 6), (3, 5)];
    let stages = if version == 260 { 2 } else { 1 };
    let mut file = stated.bytes(&mut Random::new(10));
    for stage in 0..stages {
        let at = stated.first_scale() + 12 * stage;
        file[at..at + 12].copy_from_slice(&[0, 0x3C, 0, 0x3C, 0, 0x3C, 0, 0x3C, 0xF3, 0x1B, 0x0F, 0x97]);
    }
    let mut index = Index::from_bytes(&file, 0).expect("a file is read");
    index.enable_cascade().expect("the cascade is enabled");
    // The seed is 1, so the query 2 becomes -1, of code 3: the codes are 0, 2, 3 and 1 from it. The scores are the centroids' opposites.
    let scores = [0.887_568, -0.987_35, -2.724_265, -0.049_892].map(|score: f32| stages as f32 * score);
    let hits = |slots: &[u32]| Ok(slots.iter().map(|&slot| Hit { slot, score: scores[slot as usize] }).collect::<Vec<Hit>>());
    for slot in 0..4 {
        same::equal("a score by hand", index.score(slot, &[2.0]), Ok(scores[slot]));
        same::equal("its opposite", index.score(slot, &[-2.0]), Ok(-scores[slot]));
    }
    same::equal("search", index.search(&[2.0], 9), hits(&[0, 3, 1, 2]));
    same::equal("search, k 0", index.search(&[-2.0], 0).map(|hits| hits.iter().map(|hit| hit.slot).collect()), Ok(vec![2]));
    same::equal("search_keyed", index.search_keyed(&[2.0], 4), Ok(vec![KeyHit { key: 5, score: scores[0] }, KeyHit { key: 6, score: scores[1] }]));
    for (k, r, slots) in [(1, 1, &[0][..]), (2, 2, &[0, 3]), (2, 3, &[0, 3]), (3, 0, &[0, 3, 1]), (9, 9, &[0, 3, 1, 2])] {
        same::equal(&format!("search_cascade, k {k}, r {r}"), index.search_cascade(&[2.0], k, r), hits(slots));
    }
    // An overwrite keeps the high four bits: -2 becomes 1, of code 11, and what is left of it is above 0, so code 11 again.
    index.add_keyed(5, &[-2.0], 1, 1).expect("a slot is overwritten");
    let written = index.to_bytes().expect("a file is written");
    for stage in 0..stages {
        let at = stated.first_scale() + 12 * stage + 8;
        same::equal("code bytes after an overwrite", &written[at..at + 4], &[0xFB, 0x1B, 0x0F, 0x97][..]);
    }
    // A NaN in slot 2, which is no candidate of the two nearest.
    let at = stated.first_scale() + 4;
    file[at..at + 2].copy_from_slice(&0x7E00u16.to_le_bytes());
    let mut index = Index::from_bytes(&file, 0).expect("a file is read");
    index.enable_cascade().expect("the cascade is enabled");
    refused("score of a NaN", &mut index, 12, |index| index.score(2, &[2.0]));
    refused("search over a NaN", &mut index, 12, |index| index.search(&[2.0], 1));
    refused("search_cascade over a NaN", &mut index, 12, |index| index.search_cascade(&[2.0], 1, 4));
    same::equal("search_cascade beside a NaN", index.search_cascade(&[2.0], 2, 2), hits(&[0, 3]));
}

/// 11, before the query's numbers.
fn cascade() {
    for bits in [5, 6] {
        let mut index = index(bits, false, 4);
        refused("a cascade at 5 or 6 bits", &mut index, 11, |index| index.search_cascade(&[1.0; 4], 1, 1));
        refused("11 before 1", &mut index, 11, |index| index.search_cascade(&[1.0], 1, 1));
        refused("enabling at 5 or 6 bits", &mut index, 11, |index| index.enable_cascade());
    }
    for residual in [false, true] {
        let mut index = index(4, residual, 4);
        accepted("enabled", index.search_cascade(&[1.0; 4], 1, 1).map(drop));
        index.add_keyed(8, &[1.0; 4], 1, 1).expect("a slot is overwritten");
        refused("not enabled since an overwrite", &mut index, 11, |index| index.search_cascade(&[1.0; 4], 1, 1));
        index.enable_cascade().expect("the cascade is enabled");
        index.compact().expect("an index is compacted");
        refused("not enabled since a compaction", &mut index, 11, |index| index.search_cascade(&[1.0; 4], 1, 1));
        let read = Index::from_bytes(&index.to_bytes().expect("a file is written"), 0).expect("a file is read");
        turned_down("not enabled since a reading", 11, read.search_cascade(&[1.0; 4], 1, 1));
    }
}

/// 12: the scale of a slot is a NaN. A cascade's 12 is over its candidates only.
fn not_a_number() {
    for (version, width) in [(259, 4), (260, 4), (261, 5), (261, 6)] {
        let mut stated = Stated::new(version, 4, width, 3);
        stated.keys = vec![(1, 9)];
        let mut file = stated.bytes(&mut Random::new(12));
        let at = stated.first_scale() + 2;
        file[at..at + 2].copy_from_slice(&0x7E00u16.to_le_bytes());
        let mut index = Index::from_bytes(&file, 0).expect("a file with a NaN is read");
        let query = [1.0, 2.0, 3.0, 4.0];
        refused("score of a NaN", &mut index, 12, |index| index.score(1, &query));
        accepted("score of another slot", index.score(2, &query).map(drop));
        refused("search over a NaN", &mut index, 12, |index| index.search(&query, 1));
        refused("search_keyed over a NaN", &mut index, 12, |index| index.search_keyed(&query, 1));
        if width == 4 {
            index.enable_cascade().expect("the cascade is enabled");
            refused("search_cascade over a NaN", &mut index, 12, |index| index.search_cascade(&query, 1, 3));
        }
        same::equal("the NaN's slot is removed", index.remove_keyed(9, 1), Ok(true));
        accepted("a dead slot isn't ranked", index.search(&query, 3).map(drop));
    }
}

/// 14 to 20 by the table's examples, and their order.
fn files() {
    let random = || Random::new(20);
    let whole = Stated::new(261, 4, 5, 1);
    let with = |change: fn(&mut Stated)| {
        let mut stated = Stated::new(261, 4, 5, 1);
        change(&mut stated);
        stated.bytes(&mut Random::new(20))
    };
    let read = |what: &str, number: u8, file: &[u8]| turned_down(what, number, Index::from_bytes(file, 0).map(drop));
    let file = whole.bytes(&mut random());
    accepted("a whole file", Index::from_bytes(&file, 0).map(drop));
    for length in 0..file.len() {
        read(&format!("a file cut to {length} bytes"), 14, &file[..length]);
    }
    let named = |name: &[u8; 4]| [&name[..], &file[4..]].concat();
    read("VECR", 15, &named(b"VECR"));
    read("14 before 15", 14, &named(b"VECR")[..23]);
    read("version 265", 16, &with(|f| f.version = 265));
    read("working_dim 5 over dim 4", 17, &with(|f| f.working_dim = 5));
    read("dim 0", 17, &with(|f| f.dim = 0));
    read("17 before the width byte's 14", 17, &with(|f| f.working_dim = 5)[..24]);
    for width in [3, 7] {
        let mut file = whole.bytes(&mut random());
        file[24] = width;
        read("a width byte", 18, &file);
    }
    read("slot 1 of 1", 19, &with(|f| f.keys = vec![(1, 7)]));
    read("a slot twice", 19, &with(|f| f.keys = vec![(0, 7), (0, 8)]));
    read("dim 4,097", 20, &with(|f| f.dim = 4097));
    read("65,537 slots", 20, &with(|f| f.count = 65_537));
    // The limit on slots before the missing bytes, and room for the most slots that there may be isn't lacking.
    for (count, number) in [(65_537u32, 20), (u32::MAX, 20), (65_536, 14), (2, 14)] {
        let mut short = whole.bytes(&mut random());
        short[20..24].copy_from_slice(&count.to_le_bytes());
        read(&format!("{count} slots that aren't there"), number, &short);
    }
    versions(&file);
    version_1();
}

/// What the head states, where it is sound.
fn versions(file: &[u8]) {
    for version in 257..=264 {
        let stated = Stated::new(version, 4, 4, 0).bytes(&mut Random::new(1));
        same::equal("a version", Index::version(&stated), Ok(version));
        accepted("a version is read", Index::from_bytes(&stated, 0).map(drop));
    }
    turned_down("the version of a cut head", 14, Index::version(&file[..23]));
    turned_down("an unknown version", 16, Index::version(&Stated::new(265, 4, 4, 0).bytes(&mut Random::new(1))));
}

/// Document 02, Req 07: version 1 is an unknown one, so 14 of a head that is cut and 15 come before 16, and nothing after it. One slot, its scale 1 in four bytes, its code 7.
fn version_1() {
    let whole = [&b"VECQ\x01\0\0\0\x01\0\0\0"[..], &1u64.to_le_bytes(), &1u32.to_le_bytes(), &1f32.to_le_bytes(), &[7]].concat();
    let with = |at: usize, bytes: &[u8]| [&whole[..at], bytes, &whole[at + bytes.len()..]].concat();
    let both = |what: &str, number: u8, file: &[u8]| {
        turned_down(&format!("version 1: {what}"), number, Index::from_bytes(file, 0).map(drop));
        turned_down(&format!("version 1, its head: {what}"), number, Index::version(file));
    };
    for length in 0..=whole.len() {
        both(&format!("{length} bytes"), if length < 24 { 14 } else { 16 }, &whole[..length]);
    }
    both("bytes behind the end", 16, &[&whole[..], &[1, 2]].concat());
    both("no slot", 16, &with(20, &[0; 4])[..24]);
    both("VECR", 15, &with(0, b"VECR"));
    both("working_dim 2 over dim 1", 16, &with(6, &[2]));
    both("dim 0", 16, &with(8, &[0]));
    both("dim 4,097", 16, &with(8, &[1, 0x10]));
    both("65,537 slots", 16, &with(20, &[1, 0, 1]));
}

/// Each number that a call may give has words of its own, behind `refused N: `.
fn words() {
    let numbers: Vec<u8> = (1..=9).chain(11..=21).collect();
    let texts: Vec<String> = numbers.iter().map(|&number| Error::from(number).to_string()).collect();
    for (number, text) in numbers.iter().zip(&texts) {
        same::check("words", text.starts_with(&format!("refused {number}: ")), || text.clone());
        let words = text.split_once(": ").map(|parts| parts.1);
        let alone = texts.iter().filter(|other| other.split_once(": ").map(|parts| parts.1) == words).count() == 1;
        same::check("words of its own", alone && words != Error::from(22).to_string().split_once(": ").map(|parts| parts.1), || text.clone());
    }
    same::equal("14's words", Error::from(14).to_string(), "refused 14: file ends early".to_string());
}
