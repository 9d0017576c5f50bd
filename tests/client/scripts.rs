//! Random calls on an `Index`, written as a script for the program `exercise` as well, which is proved over the same calls and is itself set beside the
//! Rust: every answer of the two must be the same text.
use crate::files::Stated;
use crate::random::Random;
use crate::same;
use crate::text::{bytes, eight, vector};
use std::collections::BTreeMap;
use std::path::Path;
use std::process::{Command, Stdio};
use vecq::{Error, Hit, Index};

const SEEDS: u64 = 8;
const HISTORIES: usize = 25;
const CALLS: usize = 100;

/// The program is lent arrays of one length for a script, the crate lengthens its own: so no index here has more slots, and no slot more bytes than 512.
const LEND: &str = "lend 8000 40 40 40 40 1 8000 40 40";
const MOST_SLOTS: usize = 60;
const DIMS: [usize; 12] = [1, 2, 3, 4, 5, 7, 8, 9, 16, 17, 33, 100];
/// Few, so that they clash.
const KEYS: [u64; 8] = [0, 1, 2, 7, 1 << 32, 1 << 63, u64::MAX - 1, u64::MAX];

/// Mostly without a duty, so that slots go, too. The last one is past each present year.
const YEARS: [u16; 10] = [1, 1, 1, 1, 0, 2, 0x0102, 2030, 2030, u16::MAX];
const PRESENTS: [u16; 6] = [0, 1, 2, 0x0201, 2029, 2030];

/// The program's words for the calls that the crate has.
const CALL_WORDS: [&str; 22] = [
    "new", "working", "residual", "bits", "enable", "add", "add_keyed", "add_multi", "relabel", "remove", "remove_at", "compact", "key_of", "contains",
    "slot_at", "score", "search", "search_keyed", "search_cascade", "length", "write", "read",
];
/// The numbers of documents 01 and 02 that calls drawn here can have: 8 needs 65,536 slots, 13 arrays that misfit.
const NUMBERS: [u8; 18] = [1, 2, 3, 4, 5, 6, 7, 9, 11, 12, 14, 15, 16, 17, 18, 19, 20, 21];

pub fn check(exercise: &Path, folder: &Path) {
    std::fs::create_dir_all(folder).expect("the folder of scripts is made");
    let mut made = Made::default();
    for seed in 1..=SEEDS {
        let script = Script::drawn(seed);
        let answers = answered(exercise, &folder.join(format!("{seed}.script")), &script.lines);
        same::equal("as many answers as lines", answers.len(), script.lines.len());
        for (number, (line, theirs)) in script.lines.iter().zip(&answers).enumerate() {
            same::check(&format!("seed {seed}, line {}: {:.60}", number + 1, line.asked), line.answer == *theirs, || {
                format!("the crate has {:.200}, exercise {theirs:.200}", line.answer)
            });
            made.count(line);
        }
    }
    made.is_enough();
}

struct Line {
    asked: String,
    answer: String,
}

/// What `exercise` prints for the lines.
fn answered(exercise: &Path, path: &Path, lines: &[Line]) -> Vec<String> {
    let script: String = lines.iter().map(|line| format!("{}\n", line.asked)).collect();
    std::fs::write(path, script).expect("a script is written");
    let input = std::fs::File::open(path).expect("a script is read");
    let output = Command::new(exercise).stdin(input).stderr(Stdio::inherit()).output().expect("exercise is run");
    same::check("exercise ends well", output.status.success(), || format!("{}", output.status));
    String::from_utf8_lossy(&output.stdout).lines().map(|line| shown(line).unwrap_or(line.to_string())).collect()
}

/// Of the record and the arrays that the program prints, what the crate shows: the record, and each slot's key with its place in held order, and its year.
fn shown(line: &str) -> Option<String> {
    let (record, arrays) = line.strip_prefix("record ")?.split_once(" codes ")?;
    let array = |name: &str| arrays.split(&format!(" {name} ")).nth(1)?.split(' ').next();
    let (keys, keyed, held, years) = (array("keys")?, array("keyed")?, array("held")?, array("years")?);
    let slots = usize::from_str_radix(record.split(' ').nth(5)?, 16).ok()?;
    let key = |i: usize| match &keyed[i..i + 1] {
        "1" => format!("{}:{}", &keys[16 * i..16 * (i + 1)], &held[8 * i..8 * (i + 1)]),
        _ => "-".to_string(),
    };
    let slot = |i: usize| format!(" {}:{}", key(i), &years[4 * i..4 * (i + 1)]);
    Some(format!("record {record}{}", (0..slots).map(slot).collect::<String>()))
}

/// How often each call was accepted, and each number given: a script that leaves one out tests less than it says.
#[derive(Default)]
struct Made {
    accepted: BTreeMap<String, usize>,
    refused: BTreeMap<String, usize>,
}

impl Made {
    fn count(&mut self, line: &Line) {
        let word = line.asked.split(' ').next().unwrap_or("").to_string();
        match line.answer.strip_prefix("refused ") {
            Some(number) => *self.refused.entry(number.to_string()).or_default() += 1,
            None => *self.accepted.entry(word).or_default() += 1,
        }
    }

    fn is_enough(&self) {
        for word in CALL_WORDS {
            same::check("calls accepted", self.accepted.get(word).is_some_and(|&count| count >= 20), || format!("{word}: {:?}", self.accepted));
        }
        for number in NUMBERS {
            same::check("refusals", self.refused.get(&number.to_string()).is_some_and(|&count| count >= 5), || format!("{number}: {:?}", self.refused));
        }
    }
}

struct Script {
    random: Random,
    index: Index,
    keys: Vec<u64>,
    /// whether slots have years other than 1 in this history
    duties: bool,
    /// vectors that were drawn in this history, for equal scores
    vectors: Vec<Vec<f32>>,
    /// files that were written
    files: Vec<Vec<u8>>,
    lines: Vec<Line>,
}

// ---- what the crate answers, in the program's words

fn slot(slot: u32) -> String {
    format!("slot {slot:x}")
}

fn yes(yes: bool) -> String {
    if yes { "yes" } else { "no" }.to_string()
}

fn ok<T>(_: T) -> String {
    "ok".to_string()
}

fn list(hits: impl IntoIterator<Item = (u64, f32)>) -> String {
    hits.into_iter().fold("list".to_string(), |text, (name, score)| text + &format!(" {name:x}:{}", eight(score)))
}

fn slots(hits: Vec<Hit>) -> String {
    list(hits.into_iter().map(|hit| (hit.slot as u64, hit.score)))
}

impl Script {
    fn drawn(seed: u64) -> Script {
        let index = Index::new(1, 0).expect("an index is made");
        let (random, keys, vectors, files, lines) = (Random::new(seed), Vec::new(), Vec::new(), Vec::new(), Vec::new());
        let mut script = Script { random, index, keys, duties: false, vectors, files, lines };
        for _ in 0..HISTORIES {
            script.start();
            for _ in 0..CALLS {
                script.step();
            }
            script.record();
        }
        script
    }

    fn note(&mut self, asked: String, answer: Result<String, Error>) {
        let answer = answer.unwrap_or_else(|error| match error.number() {
            Some(number) => format!("refused {number}"),
            None => error.to_string(),
        });
        self.lines.push(Line { asked, answer });
    }

    /// The program prints all that it holds; the record is what the crate shows.
    fn record(&mut self) {
        let index = &self.index;
        let flags = (index.is_residual() as u8, index.is_cascade_enabled() as u8);
        let shape = format!("{:x} {:x} {:x} {:x}", index.dim(), index.working_dim(), index.seed(), index.bits());
        let answer = format!("record {shape} {} {:x} {:x} {}", flags.0, index.slots(), index.live(), flags.1);
        let held = index.held().expect("there is memory");
        same::check("held slots rise by key and place", held.is_sorted(), || format!("{held:?}"));
        let keys = index.keys().enumerate().map(|(slot, key)| match (key, held.iter().find(|held| held.slot as usize == slot)) {
            (Some(key), Some(held)) if held.key == key => format!("{key:016x}:{:08x}", held.position),
            (None, None) => "-".to_string(),
            other => format!("{other:?}"),
        });
        let answer = answer + &keys.zip(index.years()).map(|(key, year)| format!(" {key}:{year:04x}")).collect::<String>();
        self.note("dump".to_string(), Ok(answer));
    }

    fn below(&mut self, n: usize) -> usize {
        self.random.below(n as u64) as usize
    }

    /// One in n.
    fn rarely(&mut self, n: usize) -> bool {
        self.below(n) == 0
    }

    fn pick<T: Copy>(&mut self, from: &[T]) -> T {
        from[self.below(from.len())]
    }

    // ---- making

    fn start(&mut self) {
        self.note(LEND.to_string(), Ok("ok".to_string()));
        self.keys = (0..4).map(|_| self.pick(&KEYS)).collect();
        self.duties = !self.rarely(3);
        self.vectors.clear();
        if self.rarely(3) {
            self.refused_making();
        }
        let (dim, seed) = (self.pick(&DIMS), if self.rarely(2) { self.random.below(3) } else { self.random.word() });
        match self.below(4) {
            0 => self.making(format!("residual {dim:x} {seed:x}"), Index::with_residual(dim, seed)),
            1 => {
                let working = 1 + self.below(dim);
                self.making(format!("working {dim:x} {working:x} {seed:x}"), Index::with_working_dim(dim, working, seed));
            }
            _ => self.making(format!("new {dim:x} {seed:x}"), Index::new(dim, seed)),
        }
        self.record();
        if !self.rarely(4) {
            self.width();
        }
    }

    fn making(&mut self, asked: String, made: Result<Index, Error>) {
        let answer = made.map(|index| self.index = index).map(ok);
        self.note(asked, answer);
    }

    fn refused_making(&mut self) {
        let dim = self.pick(&[0, 4097, usize::MAX]);
        match self.below(4) {
            0 => self.making(format!("new {dim:x} 1"), Index::new(dim, 1)),
            1 => self.making(format!("residual {dim:x} 1"), Index::with_residual(dim, 1)),
            2 => self.making("working 4 0 1".to_string(), Index::with_working_dim(4, 0, 1)),
            _ => self.making("working 4 5 1".to_string(), Index::with_working_dim(4, 5, 1)),
        }
    }

    fn width(&mut self) {
        let width = if self.rarely(8) { self.pick(&[0, 3, 7, 255]) } else { self.pick(&[4, 4, 5, 6]) };
        let answer = self.index.set_bits(width).map(ok);
        self.note(format!("bits {width:x}"), answer);
    }

    // ---- arguments

    fn vector(&mut self) -> Vec<f32> {
        let dim = self.index.dim();
        if self.rarely(25) {
            return self.faulty(dim);
        }
        let drawn = match self.below(6) {
            0 | 1 if self.vectors.iter().any(|v| v.len() == dim) => self.known(dim),
            2 => (0..dim).map(|_| self.random.unit()).collect(),
            3 => (0..dim).map(|_| self.random.mixed(20, 20)).collect(),
            _ => (0..dim).map(|_| self.below(7) as f32 - 3.0).collect(),
        };
        self.vectors.truncate(7);
        self.vectors.push(drawn.clone());
        drawn
    }

    /// One that was drawn before, or its opposite.
    fn known(&mut self, dim: usize) -> Vec<f32> {
        let fitting: Vec<Vec<f32>> = self.vectors.iter().filter(|v| v.len() == dim).cloned().collect();
        let sign = if self.rarely(4) { -1.0 } else { 1.0 };
        fitting[self.below(fitting.len())].iter().map(|x| sign * x).collect()
    }

    /// Most are refused: 1, 2, 3; entries past working_dim count for nothing.
    fn faulty(&mut self, dim: usize) -> Vec<f32> {
        let odd = self.pick(&[f32::NAN, f32::INFINITY, f32::NEG_INFINITY, 1e30, 0.0, -0.0, 1e-30]);
        match self.below(4) {
            0 => vec![1.0; dim + 1],
            1 => vec![1.0; dim - 1],
            2 => vec![odd; dim],
            _ => {
                let mut v: Vec<f32> = (0..dim).map(|_| self.random.unit()).collect();
                let at = self.below(dim);
                v[at..].fill(odd);
                v
            }
        }
    }

    /// In a history without duties, whose files have no years, always 1.
    fn year(&mut self) -> u16 {
        if self.duties { self.pick(&YEARS) } else { 1 }
    }

    fn key(&mut self) -> u64 {
        let at = self.below(self.keys.len());
        if self.rarely(12) { self.random.word() } else { self.keys[at] }
    }

    /// Mostly one in use.
    fn slot(&mut self) -> usize {
        let slots = self.index.slots();
        if self.rarely(30) { self.pick(&[usize::MAX, 65_536]) } else { self.below(slots + 1) }
    }

    /// 0, 1, the live count, more, and between.
    fn k(&mut self) -> usize {
        let live = self.index.live();
        match self.below(7) {
            0 => 0,
            1 => live,
            2 => live + 1,
            3 => usize::MAX,
            _ => self.below(live + 1),
        }
    }

    /// As many places as the crate lends.
    fn places(&self, k: usize) -> usize {
        k.max(1).min(self.index.live())
    }

    // ---- calls

    fn step(&mut self) {
        if self.index.slots() >= MOST_SLOTS {
            return self.start();
        }
        match self.below(100) {
            0..=29 => self.adding(),
            30..=46 => self.changing(),
            47..=56 => self.asking(),
            57..=88 => self.searching(),
            89..=91 => self.width(),
            _ => self.files(),
        }
    }

    fn adding(&mut self) {
        let (key, v, year, present) = (self.key(), self.vector(), self.year(), self.pick(&PRESENTS));
        let entries = vector(&v);
        let (asked, answer) = match self.below(5) {
            0 => (format!("add {entries} {year:x}"), self.index.add(&v, year)),
            1 | 2 => (format!("add_keyed {key:x} {entries} {year:x} {present:x}"), self.index.add_keyed(key, &v, year, present)),
            _ => (format!("add_multi {key:x} {entries} {year:x}"), self.index.add_keyed_multi(key, &v, year)),
        };
        self.note(asked, answer.map(slot));
    }

    fn changing(&mut self) {
        let (key, other, slot, present) = (self.key(), self.key(), self.slot(), self.pick(&PRESENTS));
        // Mostly the key that the slot has.
        let owner = self.index.key_of(slot).ok().flatten().filter(|_| !self.rarely(4)).unwrap_or(key);
        let (asked, answer) = match self.below(8) {
            0 | 1 => (format!("relabel {key:x} {other:x}"), self.index.relabel(key, other).map(yes)),
            2 => (format!("remove {key:x} {present:x}"), self.index.remove_keyed(key, present).map(yes)),
            3 | 4 => (format!("remove_at {owner:x} {slot:x} {present:x}"), self.index.remove_keyed_at(owner, slot, present).map(yes)),
            5 => ("compact".to_string(), self.index.compact().map(ok)),
            _ if self.index.bits() != 4 && !self.rarely(10) => ("compact".to_string(), self.index.compact().map(ok)),
            _ => ("enable".to_string(), self.index.enable_cascade().map(ok)),
        };
        self.note(asked, answer);
    }

    fn asking(&mut self) {
        let (key, slot_asked, position) = (self.key(), self.slot(), self.below(5));
        let none = || "none".to_string();
        let (asked, answer) = match self.below(3) {
            0 => (format!("key_of {slot_asked:x}"), self.index.key_of(slot_asked).map(|key| key.map_or_else(none, |key| format!("key {key:x}")))),
            1 => (format!("contains {key:x}"), self.index.contains_key(key).map(yes)),
            _ => (format!("slot_at {key:x} {position:x}"), self.index.slot_at(key, position).map(|found| found.map_or_else(none, slot))),
        };
        self.note(asked, answer);
    }

    fn searching(&mut self) {
        let (q, k, r, slot) = (self.vector(), self.k(), self.k(), self.slot());
        let (places, query) = (self.places(k), vector(&q));
        // A cascade that can't be, now and then.
        let kinds = if self.index.is_cascade_enabled() || self.rarely(10) { 4 } else { 3 };
        let (asked, answer) = match self.below(kinds) {
            0 => (format!("score {slot:x} {query}"), self.index.score(slot, &q).map(|score| format!("score {}", eight(score)))),
            1 => (format!("search {k:x} {places:x} {query}"), self.index.search(&q, k).map(slots)),
            2 => {
                let hits = self.index.search_keyed(&q, k);
                (format!("search_keyed {k:x} {places:x} {query}"), hits.map(|hits| list(hits.into_iter().map(|hit| (hit.key, hit.score)))))
            }
            _ => (format!("search_cascade {k:x} {r:x} {places:x} {query}"), self.index.search_cascade(&q, k, r).map(slots)),
        };
        self.note(asked, answer);
    }

    // ---- files

    fn files(&mut self) {
        if self.rarely(2) {
            self.writing();
        } else {
            self.reading();
        }
    }

    fn writing(&mut self) {
        let length = self.index.file_length();
        let places = length.unwrap_or(0);
        self.note("length".to_string(), length.map(|length| format!("length {length:x}")));
        let written = self.index.to_bytes();
        if let Ok(file) = &written {
            self.check_halves(file);
            self.check_years(file);
            self.files.truncate(11);
            self.files.insert(0, file.clone());
        }
        self.note(format!("write {places:x}"), written.map(|file| format!("bytes {}", bytes(&file))));
    }

    /// Where no slot is dead, the halves that the crate shows are those of the file; of a NaN the writing keeps its sign only.
    fn check_halves(&self, file: &[u8]) {
        if self.index.live() == self.index.slots() {
            let start = if self.index.bits() == 4 { 24 } else { 25 };
            let halves: Vec<u16> = file[start..].chunks_exact(2).take(self.index.slots()).map(|half| u16::from_le_bytes([half[0], half[1]])).collect();
            let kept = |half: u16| if half & 0x7FFF > 0x7C00 { half & 0x8000 | 0x7E00 } else { half };
            same::equal("halves", self.index.halves().map(kept).collect::<Vec<u16>>(), halves);
        }
    }

    /// Where no slot is dead, the years that the crate shows are those of the file, or the file has none and all are 1.
    fn check_years(&self, file: &[u8]) {
        if self.index.live() == self.index.slots() {
            let years: Vec<u16> = self.index.years().collect();
            let duties = years.iter().any(|&year| year != 1);
            same::equal("a version with years", Index::version(file).map(|version| version >= 262), Ok(duties));
            let block = file.len() - 2 * years.len();
            let stated: Vec<u16> = file[block..].chunks_exact(2).map(|year| u16::from_le_bytes([year[0], year[1]])).collect();
            same::check("years", !duties || years == stated, || format!("{years:?}, and the file has {stated:?}"));
        }
    }

    fn reading(&mut self) {
        let at = self.below(self.files.len() + 2);
        let mut file = if at < self.files.len() { self.files[at].clone() } else { self.made_up() };
        if self.rarely(2) {
            self.spoil(&mut file);
        }
        // Room for more slots changes no answer.
        let more = self.pick(&[0, 0, 3, 70_000]);
        let answer = Index::from_bytes(&file, more).map(|read| self.index = read).map(ok);
        self.note(format!("read {}", bytes(&file)), answer);
        self.record();
    }

    /// A file of a version that the library writes; some have a scale that is no number. With years it may be one that is written back without.
    fn made_up(&mut self) -> Vec<u8> {
        let (version, width) = self.pick(&[(259, 4), (260, 4), (261, 4), (261, 5), (261, 6), (262, 4), (263, 4), (264, 4), (264, 5), (264, 6)]);
        let count = self.below(12) as u32;
        let mut stated = Stated::new(version, self.pick(&DIMS) as u32, width, count);
        stated.working_dim = if self.rarely(3) { 1 + self.random.below(stated.dim as u64) as u16 } else { 0 };
        stated.keys = (0..count).filter(|_| !self.rarely(3)).collect::<Vec<u32>>().into_iter().map(|slot| (slot, self.key())).collect();
        stated.years = (0..count).map(|_| self.year()).collect();
        if self.rarely(8) {
            let slot = self.random.below(count as u64 + 2) as u32;
            stated.keys.push((slot, 1));
        }
        let mut file = stated.bytes(&mut self.random);
        if count > 0 && self.rarely(6) {
            let scale = self.pick(&[0x7E00u16, 0x7C00, 0xFC00, 0xFE01, 0x0001, 0x8000]);
            let at = stated.first_scale();
            file[at..at + 2].copy_from_slice(&scale.to_le_bytes());
        }
        file
    }

    /// Cuts the file, puts bytes behind it, or damages it. What a count or dim would ask of the program's arrays stays within them, or is past the limits.
    fn spoil(&mut self, file: &mut Vec<u8>) {
        let length = file.len();
        match self.below(10) {
            0 => file.truncate(self.below(length)),
            1 => file.truncate(length - 1 - self.below(16)),
            2 => file.extend((0..1 + self.below(5)).map(|_| 0xA5)),
            3 => {
                let version = self.pick(&[0u16, 1, 2, 256, 257, 258, 259, 260, 261, 262, 263, 264, 265]);
                file[4..6].copy_from_slice(&version.to_le_bytes());
            }
            4 => {
                let working = self.random.below(20) as u16;
                file[6..8].copy_from_slice(&working.to_le_bytes());
            }
            5 => {
                let dim = self.pick(&[0u32, 1, 2, 4097, u32::MAX]);
                file[8..12].copy_from_slice(&dim.to_le_bytes());
            }
            6 => {
                let count = self.pick(&[0u32, 1, 2, 60, 65_537, u32::MAX]);
                file[20..24].copy_from_slice(&count.to_le_bytes());
            }
            7 => file[self.below(4)] ^= 0x20,
            8 if length > 24 => file[24] = self.pick(&[0, 3, 4, 5, 6, 7]),
            _ => {
                // Behind the count: the width byte, scales, codes, key entries, years.
                let at = 24 + self.below(length - 24);
                file[at] = self.random.word() as u8;
            }
        }
    }
}
