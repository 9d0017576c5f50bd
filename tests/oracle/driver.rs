//! What the Rust answers to a script of the program `exercise`, line by line, and which lines are outside the comparison (docs/COMPARISON.md).
use crate::choice::{chosen, has_minus_zero, order_number};
use crate::halves::{reading, subnormal};
use crate::head::Head;
use crate::language::{self, Call, Line};
use crate::model::{block_size, dump, fits, Arrays, Record, MOST_DIM, MOST_IN_USE};
use crate::one_trait;
use crate::text::{bytes, eight};
use crate::twin;
use crate::years;
use std::cell::Cell;
use std::cmp::Reverse;
use std::fmt;
use std::panic::{catch_unwind, set_hook, take_hook, AssertUnwindSafe};
use vecq::format::Error;
use vecq::store::VecqIndex;

/// Why a line is outside the comparison.
#[derive(Clone, Copy, PartialEq, Debug)]
pub enum Reason {
    /// the Rust panics
    Stops,
    /// a refusal that the Rust lacks
    Number(u8),
    /// "ours": an infinite sum of squares
    InfiniteSum,
    /// "ours": codes2 and scales2 move with their slots
    MovedResidual,
    /// "ours": an accepted width call ends the cascade
    WidthCall,
    /// "ours": the IEEE value of a subnormal half
    SubnormalHalf,
    /// a score to be ranked is -0 (document 02, Req 04)
    MinusZero,
    /// padded size 1 at 4 bits, where the Rust panics (document 02, Req 05)
    OneTrait,
    /// bytes 4 and 5 of a file state version 1, which the Rust reads (document 02, Req 07)
    VersionOne,
    /// a live slot has a year other than 1, before the call or after it (document 02, Req 06)
    OtherYears,
    /// bytes 4 and 5 of a file state 262, 263 or 264, which the Rust does not know (document 02, Req 06)
    YearFile,
    /// `set` or `field` led where no call of the Rust does
    Poked,
}

impl fmt::Display for Reason {
    fn fmt(&self, f: &mut fmt::Formatter<'_>) -> fmt::Result {
        match self {
            Reason::Stops => write!(f, "the Rust stops"),
            Reason::Number(n) => write!(f, "the Rust lacks {n}"),
            Reason::InfiniteSum => write!(f, "ours, infinite sum"),
            Reason::MovedResidual => write!(f, "ours, residual moved"),
            Reason::WidthCall => write!(f, "ours, width call and cascade"),
            Reason::SubnormalHalf => write!(f, "ours, subnormal half"),
            Reason::MinusZero => write!(f, "a score is -0"),
            Reason::OneTrait => write!(f, "one trait at 4 bits"),
            Reason::VersionOne => write!(f, "version 1"),
            Reason::OtherYears => write!(f, "a year other than 1"),
            Reason::YearFile => write!(f, "a file with years"),
            Reason::Poked => write!(f, "set by hand"),
        }
    }
}

pub enum Answer {
    /// what the Rust answers
    Rust(String),
    /// a line without a call: its answer is the language's
    Language(String),
    /// outside the comparison; the answer is that of documents 01 and 02
    Outside(Reason, String),
}

impl Answer {
    pub fn text(&self) -> &str {
        match self {
            Answer::Rust(text) | Answer::Language(text) | Answer::Outside(_, text) => text,
        }
    }

    /// "The Rust comparison covers indexes with all years 1". Over others the Rust is asked all the same, since the years touch little of what it answers.
    fn outside_if(self, other_years: bool) -> Self {
        match self {
            Answer::Rust(text) if other_years => Answer::Outside(Reason::OtherYears, text),
            answer => answer,
        }
    }
}

impl fmt::Display for Answer {
    fn fmt(&self, f: &mut fmt::Formatter<'_>) -> fmt::Result {
        match self {
            Answer::Rust(text) | Answer::Language(text) => write!(f, "{text}"),
            Answer::Outside(reason, text) => write!(f, "~ {reason}: {text}"),
        }
    }
}

fn says(text: &str) -> Answer {
    Answer::Rust(text.to_string())
}

fn yes_or_no(yes: bool) -> Answer {
    says(if yes { "yes" } else { "no" })
}

fn refused(reason: Reason, number: u8) -> Answer {
    Answer::Outside(reason, format!("refused {number}"))
}

/// Where the Rust has no such test.
fn lacks(number: u8) -> Answer {
    refused(Reason::Number(number), number)
}

thread_local! {
    static QUIET: Cell<bool> = const { Cell::new(false) };
}

/// From here on a panic of the Rust that is awaited prints nothing.
pub fn hush() {
    let shown = take_hook();
    set_hook(Box::new(move |info| {
        if !QUIET.get() {
            shown(info);
        }
    }));
}

/// What the call gives, or none where the Rust stops.
fn tried<T>(call: impl FnOnce() -> T) -> Option<T> {
    QUIET.set(true);
    let result = catch_unwind(AssertUnwindSafe(call)).ok();
    QUIET.set(false);
    result
}

/// 1, 2 and 3 of a vector, by document 01.
fn fault(record: &Record, v: &[f32]) -> Option<u8> {
    if v.len() != record.dim {
        return Some(1);
    }
    let sum = v[..record.working_dim].iter().fold(0.0f32, |sum, x| sum + x * x);
    match sum {
        _ if sum == 0.0 || sum.is_nan() => Some(2),
        _ if sum.is_infinite() => Some(3),
        _ => None,
    }
}

/// "The list falls by order number, equals by rising slot (ours: the Rust leaves equal scores in heap order)"
fn arranged(mut hits: Vec<(usize, f32)>) -> Vec<(usize, f32)> {
    assert!(hits.windows(2).all(|pair| pair[0].1 >= pair[1].1), "the Rust's list falls");
    hits.sort_by_key(|&(slot, score)| (Reverse(order_number(score)), slot));
    hits
}

fn list<N: fmt::LowerHex>(hits: &[(N, f32)]) -> String {
    let hits: String = hits.iter().map(|(name, score)| format!(" {name:x}:{}", eight(*score))).collect();
    format!("list{hits}")
}

#[derive(Clone)]
pub struct Driver {
    pub record: Record,
    pub arrays: Arrays,
    index: VecqIndex,
    /// `set`, `field` or `lend` changed what the Rust's index has to follow.
    poked: bool,
}

impl Driver {
    /// "At the start every array is lent with length 0 and the record is that of `new(1, 0)`"
    pub fn new() -> Self {
        let index = VecqIndex::new(1, 0);
        Driver { record: twin::record_of(&index), arrays: Arrays::default(), index, poked: false }
    }

    pub fn answer(&mut self, line: &[u8]) -> Answer {
        let ok = || Answer::Language("ok".to_string());
        match language::read(line) {
            Line::Blank => Answer::Language(String::new()),
            Line::Unreadable => Answer::Language("?".to_string()),
            Line::Lend(lengths) => {
                self.arrays = Arrays::lent(&lengths);
                self.poked = true;
                ok()
            }
            Line::Set(array, at, _) if at >= self.arrays.length(array) => Answer::Language("?".to_string()),
            Line::Set(array, at, value) => {
                self.arrays.set(array, at, value);
                self.poked = true;
                ok()
            }
            Line::Field(field, value) => {
                self.record.set_field(field, value);
                self.poked = true;
                ok()
            }
            Line::Dump if self.follow() => Answer::Rust(dump(&self.record, &self.arrays)).outside_if(self.has_other_years()),
            Line::Dump => Answer::Outside(Reason::Poked, dump(&self.record, &self.arrays)),
            Line::Making { dim, working, seed, residual } => self.make(dim, working, seed, residual),
            Line::Read(file) => self.read(&file),
            Line::Call(_) if !self.follow() => lacks(13),
            Line::Call(call) => {
                let before = self.has_other_years();
                let answer = self.call(call);
                answer.outside_if(before || self.has_other_years())
            }
        }
    }

    /// Whether record and arrays fit. If so, the Rust's index is theirs from here on.
    fn follow(&mut self) -> bool {
        let fit = fits(&self.record, &self.arrays);
        assert!(fit || self.poked, "a state of the Rust misfits");
        if fit && self.poked {
            self.index = twin::index_of(&self.record, &self.arrays);
            self.poked = false;
            self.settle();
        }
        fit
    }

    /// The years of the live slots, in slot order; those of dead ones count for nothing.
    fn live_years(&self) -> Vec<u16> {
        (0..self.record.n).filter(|&slot| self.arrays.mark(slot)).map(|slot| self.arrays.years[slot]).collect()
    }

    fn has_other_years(&self) -> bool {
        self.live_years().iter().any(|&year| year != 1)
    }

    /// Record and arrays become those of the Rust's index.
    fn settle(&mut self) {
        self.record = twin::record_of(&self.index);
        twin::lay_over(&self.index, &mut self.arrays);
    }

    // ---- calls that give a new record

    fn make(&mut self, dim: usize, working: usize, seed: u64, residual: bool) -> Answer {
        if !(1..=MOST_DIM).contains(&dim) || !(1..=dim).contains(&working) {
            return lacks(4);
        }
        if self.arrays.capacity(block_size(working, if residual { 4 } else { 5 }), residual) == 0 {
            return lacks(13);
        }
        self.index = match residual {
            true => VecqIndex::with_residual(dim, seed),
            false if working == dim => VecqIndex::new(dim, seed),
            false => VecqIndex::with_working_dim(dim, working, seed),
        };
        self.poked = false;
        self.settle();
        says("ok")
    }

    fn read(&mut self, file: &[u8]) -> Answer {
        if file.get(4..6) == Some(&[1, 0]) {
            return refused(Reason::VersionOne, version_one(file));
        }
        if let Some(before) = years::without_years(file) {
            return Answer::Outside(Reason::YearFile, self.read_with_years(&before));
        }
        let index = match self.reading(file) {
            Ok(index) => index,
            Err(answer) => return answer,
        };
        // "Older files read as year 1 throughout."
        let years = vec![1; index.n];
        if self.take(index, file, &years) { Answer::Outside(Reason::SubnormalHalf, "ok".to_string()) } else { says("ok") }
    }

    /// A file of 262 to 264, its version already the one 3 below. "A year block cut short is 14, with the rest": so before 19, the last test.
    fn read_with_years(&mut self, file: &[u8]) -> String {
        match self.reading(file) {
            Ok(index) => match years::years_in(file) {
                Some(years) => {
                    self.take(index, file, &years);
                    "ok".to_string()
                }
                None => "refused 14".to_string(),
            },
            Err(answer) if answer.text() == "refused 19" && years::years_in(file).is_none() => "refused 14".to_string(),
            Err(answer) => answer.text().to_string(),
        }
    }

    /// The index that the Rust reads, or the refusal.
    fn reading(&self, file: &[u8]) -> Result<VecqIndex, Answer> {
        if self.too_large(file) {
            return Err(lacks(20));
        }
        match tried(|| VecqIndex::from_bytes(file)) {
            Some(Ok(index)) => Ok(index),
            Some(Err(error)) => Err(says(&format!("refused {}", number_of(&error)))),
            // The Rust stops at dim 0, and at a 260 file that ends before its key count.
            None if file[8..12] == [0; 4] => Err(refused(Reason::Stops, 17)),
            None => {
                assert_eq!(file[4..6], 260u16.to_le_bytes(), "the Rust stops for another reason");
                Err(refused(Reason::Stops, 14))
            }
        }
    }

    /// The index that was read becomes the one that is there; whether a scale was repaired.
    fn take(&mut self, index: VecqIndex, file: &[u8], years: &[u16]) -> bool {
        self.index = index;
        let repaired = repair_scales(&mut self.index, file);
        self.poked = false;
        self.arrays.keys[..years.len()].fill(0);
        self.arrays.years[..years.len()].copy_from_slice(years);
        self.settle();
        repaired
    }

    /// 20, after document 01's 14, 15, 16, 17, 14 (width byte) and 18.
    fn too_large(&self, file: &[u8]) -> bool {
        Head::of(file).is_some_and(|head| {
            head.dim > MOST_DIM || head.count > MOST_IN_USE || head.count > self.arrays.capacity(head.block_size(), head.residual)
        })
    }

    // ---- calls of the index that is there: no misfit

    fn call(&mut self, call: Call) -> Answer {
        match call {
            Call::Bits(width) => self.set_bits(width),
            Call::Add { vector, year } => self.append(&vector, None, year, |index, v| index.add(v)),
            Call::AddKeyed { key, vector, year, present } if self.index.contains_key(key) => self.overwrite(key, &vector, year, present),
            Call::AddKeyed { key, vector, year, .. } => self.append(&vector, Some(key), year, |index, v| index.add_keyed(key, v)),
            Call::AddMulti { key, vector, year } => self.append(&vector, Some(key), year, |index, v| index.add_keyed_multi(key, v)),
            Call::Relabel(old, new) => self.change(|index| index.relabel(old, new)),
            Call::Remove { key, present } => self.remove(&twin::held_by(&self.index, key), present, |index| index.remove_keyed(key)),
            Call::RemoveAt { key, slot, present } => {
                let taken: Vec<usize> = twin::held_by(&self.index, key).into_iter().filter(|&held| held == slot).collect();
                self.remove(&taken, present, |index| index.remove_keyed_at(key, slot))
            }
            Call::KeyOf(slot) => match self.index.key_of(slot) {
                Some(key) => says(&format!("key {key:x}")),
                None => says("none"),
            },
            Call::Contains(key) => yes_or_no(self.index.contains_key(key)),
            Call::SlotAt(key, position) => match twin::held_by(&self.index, key).get(position) {
                Some(slot) => says(&format!("slot {slot:x}")),
                None => says("none"),
            },
            Call::Enable if self.record.bits != 4 => self.stopped(11, |index| index.enable_cascade()),
            Call::Enable => {
                self.index.enable_cascade();
                self.settle();
                says("ok")
            }
            Call::Score(slot, query) => self.score(slot, &query),
            Call::Search { k, places, query } => self.search(k, places, &query, |index| list(&arranged(index.search(&query, k))), list),
            Call::SearchKeyed { k, places, query } => {
                self.search(k, places, &query, |index| list(&keyed_list(index, &query, k)), |hits| list(&by_key(&self.index, hits)))
            }
            Call::SearchCascade { k, r, places, query } => self.search_cascade(k, r, places, &query),
            Call::Compact => self.compact(),
            Call::Length => says(&format!("length {:x}", self.file().len())),
            Call::Write(places) => {
                let file = self.file();
                if places < file.len() { lacks(13) } else { says(&format!("bytes {}", bytes(&file))) }
            }
        }
    }

    fn file(&self) -> Vec<u8> {
        years::with_years(self.index.to_bytes(), &self.live_years())
    }

    /// Whether the Rust stops, as is seen on a copy.
    fn stops<T>(&self, call: impl FnOnce(&mut VecqIndex) -> T) -> bool {
        let mut copy = self.index.clone();
        tried(|| call(&mut copy)).is_none()
    }

    /// A refusal at which the Rust stops.
    fn stopped<T>(&self, number: u8, call: impl FnOnce(&mut VecqIndex) -> T) -> Answer {
        assert!(self.stops(call), "the Rust goes on where document 01 has {number}");
        refused(Reason::Stops, number)
    }

    /// 1 and 2 stop the Rust; at 3 it goes on, so the call is not made.
    fn faulty<T>(&self, number: u8, call: impl FnOnce(&mut VecqIndex) -> T) -> Answer {
        if number == 3 { refused(Reason::InfiniteSum, 3) } else { self.stopped(number, call) }
    }

    fn set_bits(&mut self, width: u8) -> Answer {
        let refusal = match width {
            _ if !(4..=6).contains(&width) => Some(5),
            _ if self.record.n > 0 => Some(6),
            5 | 6 if self.record.residual => Some(7),
            _ => None,
        };
        if let Some(number) = refusal {
            return self.stopped(number, |index| { index.set_bits(width); });
        }
        self.index.set_bits(width);
        let ended = self.index.signature.take().is_some();
        self.settle();
        if ended { Answer::Outside(Reason::WidthCall, "ok".to_string()) } else { says("ok") }
    }

    fn append(&mut self, v: &[f32], key: Option<u64>, year: u16, call: impl FnOnce(&mut VecqIndex, &[f32]) -> usize) -> Answer {
        if let Some(number) = fault(&self.record, v) {
            return self.faulty(number, |index| call(index, v));
        }
        let n = self.record.n;
        if n == self.record.room(&self.arrays) {
            return lacks(8);
        }
        let slot = call(&mut self.index, v);
        // The word of an unkeyed append is 0.
        self.arrays.keys[n] = key.unwrap_or(0);
        self.arrays.years[n] = year;
        self.settle();
        says(&format!("slot {slot:x}"))
    }

    /// "21 when a live slot that .. an overwrite would write" is to be kept: that is the first held.
    fn overwrite(&mut self, key: u64, v: &[f32], year: u16, present: u16) -> Answer {
        if let Some(number) = fault(&self.record, v) {
            return self.faulty(number, |index| index.add_keyed(key, v));
        }
        if self.keeps(&twin::held_by(&self.index, key)[..1], present) {
            return lacks(21);
        }
        let slot = self.index.add_keyed(key, v);
        self.arrays.years[slot] = year;
        self.settle();
        says(&format!("slot {slot:x}"))
    }

    /// 21 of any slot that would be taken, before one is touched. Where none would be, the Rust answers no.
    fn remove(&mut self, taken: &[usize], present: u16, call: impl FnOnce(&mut VecqIndex) -> bool) -> Answer {
        if self.keeps(taken, present) {
            return lacks(21);
        }
        self.change(call)
    }

    fn keeps(&self, slots: &[usize], present: u16) -> bool {
        slots.iter().any(|&slot| years::is_kept(self.arrays.years[slot], present))
    }

    fn change(&mut self, call: impl FnOnce(&mut VecqIndex) -> bool) -> Answer {
        let yes = call(&mut self.index);
        self.settle();
        yes_or_no(yes)
    }

    fn compact(&mut self) -> Answer {
        let alive = self.index.alive.clone();
        let met = alive.contains(&false);
        self.index.compact();
        // The word of `keys` and the year move with their slot; past the slots in use all stays.
        for (to, from) in (0..alive.len()).filter(|&slot| alive[slot]).enumerate() {
            self.arrays.keys[to] = self.arrays.keys[from];
            self.arrays.years[to] = self.arrays.years[from];
        }
        let moved = met && self.index.residual;
        if moved {
            twin::move_residual(&mut self.index, &alive);
        }
        // Where nothing is dead the Rust returns at once; there only `set` leads to an order that doesn't rise.
        let restored = twin::restore_order(&mut self.index);
        assert!(!(met && restored), "the Rust's order rises after a compaction");
        self.settle();
        match (moved, restored) {
            (true, _) => Answer::Outside(Reason::MovedResidual, "ok".to_string()),
            (_, true) => Answer::Outside(Reason::Poked, "ok".to_string()),
            _ => says("ok"),
        }
    }

    // ---- scores

    fn is_one_trait(&self) -> bool {
        one_trait::is_meant(self.record.working_dim, self.record.bits)
    }

    fn score(&self, slot: usize, query: &[f32]) -> Answer {
        let scored = |index: &VecqIndex| index.score(&index.prepare_query(query), slot);
        if let Some(number) = fault(&self.record, query) {
            return self.faulty(number, |index| scored(index));
        }
        if slot >= self.record.n {
            // At such a slot the Rust's place in the codes overflows: a debug build stops, the one here may not.
            let far = slot >= usize::MAX / (self.record.block_size() + 1);
            return if far { refused(Reason::Stops, 9) } else { self.stopped(9, |index| scored(index)) };
        }
        let score = self.scores(query, vec![slot])[0].1;
        if self.is_one_trait() {
            return self.defined(score.is_nan(), |index| scored(index), || format!("score {}", eight(score)));
        }
        if score.is_nan() { lacks(12) } else { says(&format!("score {}", eight(score))) }
    }

    /// The answer by document 02 (Req 05), 12 if a score is a NaN. The Rust must stop there.
    fn defined<T>(&self, nan: bool, call: impl FnOnce(&mut VecqIndex) -> T, answer: impl FnOnce() -> String) -> Answer {
        assert!(self.stops(call), "the Rust scores a game with one trait at 4 bits");
        if nan { refused(Reason::OneTrait, 12) } else { Answer::Outside(Reason::OneTrait, answer()) }
    }

    /// 13 of a result: "for min(max(k,1), live) places"
    fn short(&self, k: usize, places: usize) -> bool {
        places < k.max(1).min(self.record.live)
    }

    fn live_slots(&self) -> Vec<usize> {
        (0..self.record.n).filter(|&slot| self.index.alive[slot]).collect()
    }

    fn scores(&self, query: &[f32], slots: Vec<usize>) -> Vec<(usize, f32)> {
        if self.is_one_trait() {
            let query = one_trait::Query::of(&self.index, query);
            return slots.into_iter().map(|slot| (slot, query.score(one_trait::stages(&self.index, slot)))).collect();
        }
        let query = self.index.prepare_query(query);
        slots.into_iter().map(|slot| (slot, self.index.score(&query, slot))).collect()
    }

    /// `theirs` is the Rust's list, `ours` that of these hits.
    fn search(&self, k: usize, places: usize, query: &[f32], theirs: impl Fn(&VecqIndex) -> String, ours: impl FnOnce(&[(usize, f32)]) -> String) -> Answer {
        if self.short(k, places) {
            return lacks(13);
        }
        if let Some(number) = fault(&self.record, query) {
            return self.faulty(number, |index| theirs(index));
        }
        self.ranked(&self.scores(query, self.live_slots()), k, theirs, ours)
    }

    /// 12, or the list: the Rust's, unless it stops at one trait or a score is -0. Where it is the Rust's, ours by documents 01 and 02 is the same.
    fn ranked(&self, scores: &[(usize, f32)], k: usize, theirs: impl Fn(&VecqIndex) -> String, ours: impl FnOnce(&[(usize, f32)]) -> String) -> Answer {
        let nan = scores.iter().any(|hit| hit.1.is_nan());
        let ours = || ours(&chosen(scores, k));
        if self.is_one_trait() && !scores.is_empty() {
            return self.defined(nan, |index| theirs(index), ours);
        }
        if nan {
            return lacks(12);
        }
        let (theirs, ours) = (theirs(&self.index), ours());
        if has_minus_zero(scores) {
            return Answer::Outside(Reason::MinusZero, ours);
        }
        assert_eq!(theirs, ours, "the Rust's choice of slots is not document 01's");
        Answer::Rust(theirs)
    }

    fn search_cascade(&self, k: usize, r: usize, places: usize, query: &[f32]) -> Answer {
        let theirs = |index: &VecqIndex| list(&arranged(index.search_cascade(query, k, r)));
        if self.short(k, places) {
            return lacks(13);
        }
        if !self.record.cascade {
            return self.stopped(11, |index| theirs(index));
        }
        if self.record.bits != 4 {
            return refused(Reason::Poked, 11);
        }
        if let Some(number) = fault(&self.record, query) {
            return self.faulty(number, |index| theirs(index));
        }
        // "its 12 over candidates only"
        self.ranked(&self.scores(query, self.candidates(k, r, query)), k, theirs, list)
    }

    /// The slots that a cascade scores, in slot order: all that the Rust lists of an index with the same codes and sound scales, asked for as many as it scores.
    fn candidates(&self, k: usize, r: usize, query: &[f32]) -> Vec<usize> {
        if self.is_one_trait() {
            let live: Vec<(usize, u8)> = self.live_slots().into_iter().map(|slot| (slot, self.index.codes[slot])).collect();
            return one_trait::Query::of(&self.index, query).candidates(&live, k, r);
        }
        let mut sound = self.index.clone();
        sound.scales.fill(1.0);
        sound.scales2.fill(1.0);
        let r = r.max(k);
        let mut slots: Vec<usize> = sound.search_cascade(query, r, r).into_iter().map(|hit| hit.0).collect();
        slots.sort_unstable();
        slots
    }
}

/// "drops unkeyed hits and repeats"
fn by_key(index: &VecqIndex, hits: &[(usize, f32)]) -> Vec<(u64, f32)> {
    let mut pairs: Vec<(u64, f32)> = Vec::new();
    for &(slot, score) in hits {
        if let Some(key) = index.key_of(slot).filter(|&key| pairs.iter().all(|pair| pair.0 != key)) {
            pairs.push((key, score));
        }
    }
    pairs
}

/// The Rust's keyed list in our order: its pairs are those that the slots of its full search give. Of a key with both zeros its heap order picks one.
fn keyed_list(index: &VecqIndex, query: &[f32], k: usize) -> Vec<(u64, f32)> {
    let pairs = by_key(index, &arranged(index.search(query, k)));
    let set = |pairs: &[(u64, f32)]| {
        let mut set: Vec<(u64, u32)> = pairs.iter().map(|&(key, score)| (key, (score + 0.0).to_bits())).collect();
        set.sort_unstable();
        set
    };
    assert_eq!(set(&index.search_keyed(query, k)), set(&pairs), "the Rust's keyed search is not that of its full search");
    pairs
}

/// "The reader now gives 16 for version 1, at 16's place": behind 14 and 15.
fn version_one(file: &[u8]) -> u8 {
    match file {
        _ if file.len() < 24 => 14,
        _ if !file.starts_with(b"VECQ") => 15,
        _ => 16,
    }
}

fn number_of(error: &Error) -> u8 {
    match error {
        Error::Truncated => 14,
        Error::NotAStableFile => 15,
        Error::UnsupportedVersion(_) => 16,
        Error::InvalidWorkingDim { .. } => 17,
        Error::InvalidWidth { .. } => 18,
        Error::InvalidKeyTable => 19,
        Error::DimMismatch { .. } => panic!("reading never gives it"),
    }
}

/// Subnormal halves take their IEEE value (ours); whether there is one.
fn repair_scales(index: &mut VecqIndex, file: &[u8]) -> bool {
    let version = u16::from_le_bytes([file[4], file[5]]);
    let start = if version == 261 { 25 } else { 24 };
    let second = start + index.n * (2 + index.bytes_per_vector());
    let half = |at: usize| u16::from_le_bytes([file[at], file[at + 1]]);
    let mut any = false;
    let mut repair = |scales: &mut Vec<f32>, start: usize| {
        for (slot, scale) in scales.iter_mut().enumerate() {
            let h = half(start + 2 * slot);
            any |= subnormal(h);
            *scale = f32::from_bits(reading(h));
        }
    };
    repair(&mut index.scales, start);
    repair(&mut index.scales2, second);
    any
}
