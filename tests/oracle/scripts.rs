//! Random scripts for the program `exercise`: many short histories, the same for the same seed.
use crate::driver::Driver;
use crate::language::{bytes as read_bytes, Array, Field, ARRAYS, FIELDS};
use crate::model::{block_size, fits, MARKS};
use crate::one_trait;
use crate::random::Random;
use crate::text::{bytes, vector};
use crate::years::without_years;
use std::io::Write;

/// Keys of a history are few, so that they clash.
const KEYS: [u64; 10] = [0, 1, 2, 3, 7, 0xff, 1 << 32, 1 << 63, u64::MAX - 1, u64::MAX];

const UNREADABLE: [&str; 46] = [
    "add", "add_keyed 1", "remove 01 0", "bits 100", "set codes fffff 1", "set keyed 0 2", "set alive 0 10000000000000000", "foo", "dump 1", " dump", "dump ",
    "contains g", "contains 10000000000000000", "contains A", "field bits 100", "field residual 2", "field slots 1", "lend 1 1 1 1 1 1 1 1",
    "lend 100001 1 1 1 1 1 1 1 1", "lend 1 1001 1 1 1 1 1 1 1", "new 4", "relabel 1  2", "add 3f80000 1", "compact compact",
    "score 0", "search 1 1001 3f800000", "search_cascade 1 1 3f800000", "length 1", "write 10001", "read 564",
    "set alive 40 0", "lend 1 1 1 1 1 41 1 1 1",
    // Years: none, one that no u16 is, one too many, a leading zero; slots of them that the program doesn't hold.
    "add 3f800000", "add 3f800000 10000", "add 3f800000 1 1", "add_keyed 1 3f800000 1", "add_keyed 1 3f800000 1 10000", "add_multi 1 3f800000", "remove 1",
    "remove 1 10000", "remove 1 07ea", "remove_at 1 0", "remove_at 1 0 g", "set years 0 10000", "set years 1000 1", "lend 1 1 1 1 1 1 1 1 1001",
];

pub struct Script<W: Write> {
    out: W,
    random: Random,
    /// Its answers are not written: they tell what the index holds, so that lines that count can be chosen.
    driver: Driver,
    /// without look-up and files
    register: bool,
    /// Whether slots of this history get other years than 1.
    other_years: bool,
    /// about the present year of this history
    present: u16,
    calls: usize,
    keys: Vec<u64>,
    /// vectors that were asked about in this history
    vectors: Vec<Vec<f32>>,
    /// files that were written
    files: Vec<Vec<u8>>,
}

pub fn write(out: impl Write, seed: u64, count: usize, register: bool) {
    let (random, driver) = (Random::new(seed), Driver::new());
    let (other_years, present) = (false, 0);
    let mut script = Script { out, random, driver, register, other_years, present, calls: 0, keys: Vec::new(), vectors: Vec::new(), files: Vec::new() };
    let mut history = 0;
    while script.calls < count {
        history += 1;
        script.history(history);
    }
    script.out.flush().expect("the script is written");
}

/// Indexes of 4,096 slots, of every width and residual, with about COUNT searches in all.
pub fn write_large(mut out: impl Write, seed: u64, count: usize) {
    let mut random = Random::new(seed);
    let mut searches = 0;
    for number in 0.. {
        if searches >= count {
            break;
        }
        let (making, width) = [("new", 4), ("new", 5), ("new", 6), ("residual", 4)][number % 4];
        // Two of eight are games with one trait at 4 bits.
        let dim = if matches!(number % 8, 4 | 7) { 1 } else { [2, 3, 8, 17, 33, 64][random.below(6) as usize] };
        let bytes = 4096 * block_size(dim, 6);
        let mut line = |line: String| writeln!(out, "{line}").expect("the script is written");
        line(format!("lend {bytes:x} 1000 1000 1000 1000 40 {bytes:x} 1000 1000"));
        line(format!("{making} {dim:x} {:x}", random.word()));
        line(format!("bits {width:x}"));
        // Few different entries, so that scores are often equal; or many.
        let span = [2, 5, 19, 1 << 20][random.below(4) as usize];
        let entries = |random: &mut Random| {
            let v: Vec<f32> = (0..dim).map(|_| random.below(span) as f32 - (span / 2) as f32).collect();
            if v.iter().all(|&x| x == 0.0) { vector(&vec![1.0; dim]) } else { vector(&v) }
        };
        let keys = [1, 50, 3000, u64::MAX][random.below(4) as usize];
        for _ in 0..4096 {
            let v = entries(&mut random);
            line(if random.below(5) == 0 { format!("add {v} 1") } else { format!("add_multi {:x} {v} 1", random.below(keys)) });
        }
        if one_trait::is_meant(dim, width) {
            // Vectors of one trait have few codes, and no high four bits.
            for slot in 0..4096 {
                line(format!("set codes {slot:x} {:x}", random.below(256)));
                line(format!("set codes2 {slot:x} {:x}", random.below(256)));
            }
        }
        if keys > 1 {
            (0..20).for_each(|_| line(format!("remove {:x} 0", random.below(keys.min(3000)))));
        }
        if width == 4 {
            line("enable".to_string());
        }
        for _ in 0..60 {
            let v = entries(&mut random);
            let k = [0, 1, 2, 10, 100, 1000, 4000, 4096, 5000][random.below(9) as usize];
            let r = [0, 1, 50, 200, 2000, 4096, 9999][random.below(7) as usize];
            line(format!("search {k:x} 1000 {v}"));
            line(format!("search_keyed {k:x} 1000 {v}"));
            searches += 2;
            if width == 4 {
                line(format!("search_cascade {k:x} {r:x} 1000 {v}"));
                searches += 1;
            }
        }
        line("compact".to_string());
        line(format!("search a a {}", entries(&mut random)));
    }
    out.flush().expect("the script is written");
}

fn has_years(file: &[u8]) -> bool {
    without_years(file).is_some()
}

impl<W: Write> Script<W> {
    fn line(&mut self, line: String) -> String {
        writeln!(self.out, "{line}").expect("the script is written");
        self.driver.answer(line.as_bytes()).text().to_string()
    }

    fn call(&mut self, line: String) -> String {
        self.calls += 1;
        self.line(line)
    }

    fn below(&mut self, n: usize) -> usize {
        self.random.below(n as u64) as usize
    }

    /// One in n.
    fn rarely(&mut self, n: usize) -> bool {
        self.below(n) == 0
    }

    fn pick<T: Copy>(&mut self, from: &[T]) -> T {
        from[self.below(from.len())]
    }

    // ---- histories

    fn history(&mut self, number: usize) {
        self.line(format!("# history {number:x}"));
        self.vectors.clear();
        let keys = 2 + self.below(5);
        self.keys = (0..keys).map(|_| self.pick(&KEYS)).collect();
        self.other_years = self.rarely(4);
        self.present = self.pick(&[0, 1, 2, 3, 2026, 2026, 0x8000, u16::MAX]);
        self.start();
        for _ in 0..20 + self.below(181) {
            self.step();
            if self.rarely(5) {
                self.call("dump".to_string());
            }
        }
        self.call("dump".to_string());
    }

    fn dim(&mut self) -> usize {
        if self.rarely(10) { self.pick(&[33, 64, 100]) } else { 1 + self.below(17) }
    }

    fn seed(&mut self) -> u64 {
        if self.rarely(2) { self.random.below(4) } else { self.random.word() }
    }

    /// Dim, working_dim, width and whether it is residual; now and then of a game with one trait at 4 bits.
    fn shape(&mut self) -> (usize, usize, u8, bool) {
        let (dim, residual) = (self.dim(), self.rarely(4));
        if self.rarely(25) {
            return (if residual { 1 } else { dim }, 1, 4, residual);
        }
        let working = if !residual && self.rarely(3) { 1 + self.below(dim) } else { dim };
        (dim, working, if residual { 4 } else { self.pick(&[4, 5, 6]) }, residual)
    }

    /// Arrays for some slots, a making, mostly a width.
    fn start(&mut self) {
        let (dim, working, width, residual) = self.shape();
        let block = block_size(working, width.max(5));
        // Now and then it is made over what is there: making clears live marks, and leaves all else.
        if self.driver.arrays.capacity(block, residual) == 0 || !self.rarely(8) {
            self.lend(block);
        }
        let seed = self.seed();
        if self.rarely(6) {
            // Making clears them.
            self.stray();
        }
        if self.rarely(12) {
            let line = self.refused_making(dim, seed);
            self.call(line);
        }
        let line = match residual {
            true => format!("residual {dim:x} {seed:x}"),
            false if working == dim && self.rarely(2) => format!("new {dim:x} {seed:x}"),
            false => format!("working {dim:x} {working:x} {seed:x}"),
        };
        self.call(line);
        if self.rarely(8) {
            self.call("enable".to_string());
        }
        if width != 5 || self.rarely(4) {
            // A residual index takes no other width: 7.
            let width = if residual && self.rarely(4) { self.pick(&[5, 6]) } else { width };
            self.call(format!("bits {width:x}"));
        }
        self.fill();
    }

    /// An index of many slots is filled up to some of its last ones, so that its slots stand in several words of live marks.
    fn fill(&mut self) {
        let Driver { record, arrays, .. } = &self.driver;
        let room = if fits(record, arrays) { record.room(arrays) } else { 0 };
        if room < 60 || self.rarely(4) {
            return;
        }
        for _ in 0..room - self.below(5) {
            let line = match self.below(3) {
                0 => format!("add {} {:x}", self.vector(), self.year()),
                _ => format!("add_multi {:x} {} {:x}", self.key(), self.vector(), self.year()),
            };
            self.call(line);
        }
        if self.rarely(2) {
            let line = self.remove_at();
            self.call(line);
        }
    }

    /// Sets a bit, mostly one at or above the slots in use, of the first words or of any. Where and what the word was; none if no word is lent.
    fn stray(&mut self) -> Option<(usize, u64)> {
        let bits = MARKS * self.driver.arrays.alive.len();
        if bits == 0 {
            return None;
        }
        let n = self.driver.record.n.min(bits - 1);
        let bit = match self.below(8) {
            0..=2 => n,
            3 => (n + 1).min(bits - 1),
            4 => n / MARKS * MARKS + MARKS - 1,
            5 => self.below(n + 1),
            6 => bits - 1,
            _ => self.below(bits),
        };
        let at = bit / MARKS;
        let old = self.driver.arrays.alive[at];
        let word = if self.rarely(10) { self.random.word() } else { old ^ 1 << (bit % MARKS) };
        self.line(format!("set alive {at:x} {word:x}"));
        Some((at, old))
    }

    /// Room for some slots: at times as many as there are bits in a word of live marks or two, and about so many.
    fn lend(&mut self, block: usize) {
        let many = self.rarely(12);
        let slots = if many { self.pick(&[62, 63, 64, 65, 100, 127, 128, 129, 140]) } else { self.pick(&[1, 2, 3, 5, 8, 8, 12, 16, 24, 32]) };
        let mut lengths = [slots; 9];
        for length in lengths.iter_mut() {
            *length += if self.rarely(2) { self.below(3) } else { 0 };
        }
        lengths[0] = slots * block + self.below(2 * block);
        lengths[6] = slots * block + self.below(block);
        lengths[5] = match self.below(8) {
            // More words than slots need, to all that the program holds.
            0 | 1 => slots.div_ceil(MARKS) + self.below(3),
            2 => 64,
            // Fewer: the words say how many slots there is room for.
            3 if many => slots / MARKS,
            _ => slots.div_ceil(MARKS),
        };
        if self.rarely(25) {
            lengths[self.below(9)] = 0;
        }
        if self.rarely(12) {
            // The years say how many slots there is room for.
            lengths[8] = slots - 1;
        }
        self.line(format!("lend {}", lengths.map(|n| format!("{n:x}")).join(" ")));
    }

    fn refused_making(&mut self, dim: usize, seed: u64) -> String {
        match self.below(6) {
            0 => format!("new 1001 {seed:x}"),
            1 => format!("new 0 {seed:x}"),
            2 => format!("working {dim:x} 0 {seed:x}"),
            3 => format!("working {dim:x} {:x} {seed:x}", dim + 1),
            4 => format!("residual ffffffffffffffff {seed:x}"),
            // Most arrays are too short for it: 13.
            _ => format!("new 1000 {seed:x}"),
        }
    }

    // ---- vectors

    /// As many entries as the record has, where that is sensible.
    fn entries(&self) -> (usize, usize) {
        let dim = self.driver.record.dim.clamp(1, 128);
        (dim, self.driver.record.working_dim.clamp(1, dim))
    }

    fn vector(&mut self) -> String {
        let (dim, _) = self.entries();
        let v = match self.below(16) {
            0 if self.rarely(2) => self.faulty(),
            1..=3 if self.vectors.first().is_some_and(|v| v.len() == dim) => {
                let at = self.below(self.vectors.len());
                let sign = if self.rarely(4) { -1.0 } else { 1.0 };
                self.vectors[at].iter().map(|x| sign * x).collect()
            }
            4 | 5 => (0..dim).map(|_| self.random.unit()).collect(),
            6 => (0..dim).map(|_| self.random.mixed(20, 20)).collect(),
            7 => {
                let mut v = vec![0.0; dim];
                v[self.below(dim)] = self.pick(&[1.0, -1.0, 7.5]);
                v
            }
            8 if self.rarely(2) => self.with_odd_entries(),
            _ => (0..dim).map(|_| self.below(7) as f32 - 3.0).collect(),
        };
        if self.vectors.first().is_some_and(|first| first.len() != dim) {
            self.vectors.clear();
        }
        if v.len() == dim && self.vectors.len() < 8 {
            self.vectors.push(v.clone());
        }
        vector(&v)
    }

    /// Most are refused: 1, 2, 3.
    fn faulty(&mut self) -> Vec<f32> {
        let (dim, _) = self.entries();
        match self.below(7) {
            0 => vec![1.0; dim - 1],
            1 => vec![1.0; dim + 1],
            2 => Vec::new(),
            3 => vec![self.pick(&[0.0, -0.0]); dim],
            4 => vec![self.pick(&[2f32.powi(-75), 2f32.powi(-74), f32::from_bits(1)]); dim],
            5 => vec![self.pick(&[1.0e30, -1.0e30, 1.8e19, 1.85e19]); dim],
            _ => vec![self.pick(&[f32::NAN, f32::INFINITY, f32::NEG_INFINITY]); dim],
        }
    }

    /// One entry that counts, or past working_dim doesn't.
    fn with_odd_entries(&mut self) -> Vec<f32> {
        let (dim, working) = self.entries();
        let mut v: Vec<f32> = (0..dim).map(|_| self.random.unit()).collect();
        let odd = self.pick(&[f32::NAN, f32::INFINITY, f32::NEG_INFINITY, 1.0e30, 2f32.powi(-75), 0.0, -0.0]);
        if working < dim && !self.rarely(4) {
            v[working..].fill(odd);
        } else {
            v[self.below(dim)] = odd;
        }
        v
    }

    // ---- calls

    fn key(&mut self) -> u64 {
        let at = self.below(self.keys.len());
        if self.rarely(12) { self.random.word() } else { self.keys[at] }
    }

    /// Mostly one in use.
    fn slot(&mut self) -> usize {
        let n = self.driver.record.n.min(4096);
        if self.rarely(40) { usize::MAX } else { self.below(n + 1) }
    }

    fn step(&mut self) {
        match self.below(100) {
            0 => self.poke(),
            1 if self.rarely(3) => self.poke_zeros(),
            1 => self.poke_data(),
            2 if self.rarely(3) => self.start(),
            2 => {
                let line = self.pick(&UNREADABLE);
                self.line(line.to_string());
            }
            3 if self.rarely(3) => {
                self.line(String::new());
            }
            4 | 5 if self.is_one_trait() => self.poke_codes(),
            _ if self.full() && self.rarely(5) => {
                let line = format!("remove {:x} {:x}", self.key(), self.present());
                self.call(line);
                self.call("compact".to_string());
            }
            6 | 7 if self.other_years => self.years_of_key(),
            8 if self.rarely(8) => self.short_years(),
            9 if self.rarely(30) && !self.register => self.cuts(),
            _ => self.plain(),
        }
    }

    fn is_one_trait(&self) -> bool {
        one_trait::is_meant(self.driver.record.working_dim, self.driver.record.bits)
    }

    fn full(&self) -> bool {
        let Driver { record, arrays, .. } = &self.driver;
        fits(record, arrays) && record.n == record.room(arrays)
    }

    /// A call that neither makes nor pokes.
    fn plain(&mut self) {
        let look_up = if self.register { 62 } else { 100 };
        let line = match self.below(look_up) {
            0..=4 => format!("add {} {:x}", self.vector(), self.year()),
            5..=18 => format!("add_keyed {:x} {} {:x} {:x}", self.key(), self.vector(), self.year(), self.present()),
            19..=28 => format!("add_multi {:x} {} {:x}", self.key(), self.vector(), self.year()),
            29..=33 => format!("relabel {:x} {:x}", self.key(), self.key()),
            34..=36 => format!("remove {:x} {:x}", self.key(), self.present()),
            37..=41 => self.remove_at(),
            42..=45 => format!("key_of {:x}", self.slot()),
            46..=48 => format!("contains {:x}", self.key()),
            49..=52 => format!("slot_at {:x} {:x}", self.key(), self.position()),
            53..=55 if self.driver.record.bits != 4 && !self.rarely(6) => format!("key_of {:x}", self.slot()),
            53..=55 => "enable".to_string(),
            56 | 57 => format!("bits {:x}", self.pick(&[4, 5, 6, 4, 5, 6, 0, 3, 7, 255])),
            58..=61 => "compact".to_string(),
            62..=68 => format!("score {:x} {}", self.slot(), self.vector()),
            69..=76 => {
                let (k, places) = self.asked();
                format!("search {k:x} {places:x} {}", self.vector())
            }
            77..=84 => {
                let (k, places) = self.asked();
                format!("search_keyed {k:x} {places:x} {}", self.vector())
            }
            85..=92 if self.driver.record.bits != 4 && !self.rarely(6) => format!("contains {:x}", self.key()),
            85..=92 => {
                let (k, places) = self.asked();
                if self.rarely(2) {
                    self.call("enable".to_string());
                }
                format!("search_cascade {k:x} {:x} {places:x} {}", self.count(), self.vector())
            }
            93 => "length".to_string(),
            94..=96 => return self.write(),
            _ => format!("read {}", self.file()),
        };
        self.call(line);
    }

    fn remove_at(&mut self) -> String {
        let slot = self.slot();
        let arrays = &self.driver.arrays;
        // Mostly the key that the slot has.
        let key = match arrays.keyed.get(slot) {
            Some(true) if slot < arrays.keys.len() => Some(arrays.keys[slot]),
            _ => None,
        };
        let key = if self.rarely(3) { self.key() } else { key.unwrap_or_else(|| self.keys[0]) };
        format!("remove_at {key:x} {slot:x} {:x}", self.present())
    }

    /// Of a new slot: 1, but in some histories any, mostly near the present.
    fn year(&mut self) -> u16 {
        if self.other_years && self.rarely(2) { self.other_year() } else { 1 }
    }

    fn other_year(&mut self) -> u16 {
        match self.below(12) {
            0 => 0,
            1 => 2,
            2 => u16::MAX,
            3 => self.random.word() as u16,
            // Near the year 0 this gives the largest ones too.
            _ => self.near_present(),
        }
    }

    fn near_present(&mut self) -> u16 {
        self.present.wrapping_add(self.pick(&[0, 0, 1, 1, 2, u16::MAX]))
    }

    /// The present year that a call is told: the index has no clock, so it may go back.
    fn present(&mut self) -> u16 {
        match self.below(12) {
            0 => 0,
            1 => 1,
            2 => u16::MAX,
            3 => self.random.word() as u16,
            _ => self.near_present(),
        }
    }

    fn position(&mut self) -> usize {
        if self.rarely(20) { usize::MAX } else { self.below(4) }
    }

    /// 0, 1, the live count, more, and between.
    fn count(&mut self) -> usize {
        let live = self.driver.record.live.min(4096);
        match self.below(8) {
            0 => 0,
            1 => 1,
            2 => live,
            3 => live + 1,
            4 => usize::MAX,
            _ => self.below(live + 1),
        }
    }

    /// k, and places that mostly suffice.
    fn asked(&mut self) -> (usize, usize) {
        let k = self.count();
        let needed = k.max(1).min(self.driver.record.live).min(4096);
        let places = if self.rarely(12) { needed.saturating_sub(1) } else { (needed + self.below(3)).min(4096) };
        (k, places)
    }

    // ---- pokes

    fn data(&mut self) -> u64 {
        match self.below(9) {
            0 => 0,
            1 => 0x8000_0000,
            2 => self.pick(&[0x7fc0_0000, 0xffc0_2000, 0x7f80_0001]),
            3 => self.pick(&[0x7f80_0000, 0xff80_0000]),
            4 => self.random.pattern() as u64,
            _ => self.random.unit().to_bits() as u64,
        }
    }

    /// Scales and code bytes, which the Rust follows. A NaN doesn't stay for long.
    fn poke_data(&mut self) {
        let (name, array) = ARRAYS[self.pick(if self.other_years { &[0, 1, 1, 1, 6, 7, 8, 8] } else { &[0, 1, 1, 1, 6, 7] })];
        let length = self.driver.arrays.length(array);
        if length == 0 {
            return;
        }
        let per_slot = if matches!(array, Array::Codes | Array::Codes2) { block_size(self.entries().1, 4) } else { 1 };
        let within = (self.driver.record.n.min(4096) * per_slot).clamp(1, length);
        let at = if self.rarely(8) { self.below(length) } else { self.below(within) };
        let value = match array {
            Array::Codes | Array::Codes2 => self.random.below(256),
            Array::Years => self.other_year() as u64,
            _ => self.data(),
        };
        let old = self.driver.arrays.get(array, at);
        self.line(format!("set {name} {at:x} {value:x}"));
        if array != Array::Years && value & 0x7fff_ffff > 0x7f80_0000 {
            for _ in 0..4 {
                self.plain();
            }
            // The slot may have moved: then this only sets another one's.
            if at < self.driver.arrays.length(array) {
                self.line(format!("set {name} {at:x} {old:x}"));
            }
        }
    }

    /// Every scale a zero of either sign, so that scores are equal, and +0 and -0 meet under one key.
    fn poke_zeros(&mut self) {
        for slot in 0..self.driver.record.n.min(self.driver.arrays.scales.len()) {
            let zero = self.pick(&[0u32, 0x8000_0000]);
            self.line(format!("set scales {slot:x} {zero:x}"));
        }
        for _ in 0..4 {
            self.plain();
        }
    }

    /// Any code bytes of slots with one trait, whose vectors have few codes.
    fn poke_codes(&mut self) {
        for slot in 0..self.driver.record.n.min(self.driver.arrays.codes.len()) {
            let byte = self.below(256);
            self.line(format!("set codes {slot:x} {byte:x}"));
            if self.driver.record.residual && slot < self.driver.arrays.codes2.len() {
                self.line(format!("set codes2 {slot:x} {:x}", byte ^ 0x55));
            }
        }
        for _ in 0..4 {
            self.plain();
        }
    }

    /// A key of several slots, of which one is to be kept and the others may go: overwritten, removed whole and by single slots.
    fn years_of_key(&mut self) {
        let Driver { record, arrays, .. } = &self.driver;
        if !fits(record, arrays) {
            return self.plain();
        }
        let held: Vec<u64> = (0..record.n).filter(|&slot| arrays.keyed[slot]).map(|slot| arrays.keys[slot]).collect();
        let key = if held.is_empty() { self.keys[0] } else { self.pick(&held) };
        for _ in 0..self.below(3) {
            let line = format!("add_multi {key:x} {} {:x}", self.vector(), self.year());
            self.call(line);
        }
        let Driver { record, arrays, .. } = &self.driver;
        let mut slots: Vec<usize> = (0..record.n).filter(|&slot| arrays.keyed[slot] && arrays.keys[slot] == key).collect();
        slots.sort_by_key(|&slot| arrays.held[slot]);
        if slots.is_empty() {
            return self.plain();
        }
        let present = self.present();
        let kept = self.below(slots.len());
        for (position, slot) in slots.iter().enumerate() {
            let later = if present > 0 && present < u16::MAX { present + 1 } else { 0 };
            let year = if position == kept { self.pick(&[0, later]) } else { self.pick(&[1, present.max(1)]) };
            self.line(format!("set years {slot:x} {year:x}"));
        }
        for _ in 0..1 + self.below(3) {
            // The first is overwritten, and the last moves to the gap.
            let at = self.pick(&[0, kept, slots.len() - 1]);
            let line = match self.below(4) {
                0 => format!("remove {key:x} {present:x}"),
                1 => format!("add_keyed {key:x} {} {:x} {present:x}", self.vector(), self.year()),
                _ => format!("remove_at {key:x} {:x} {present:x}", slots[at]),
            };
            self.call(line);
            self.call("dump".to_string());
        }
    }

    /// Dead slots in use, so that arrays lent anew fit if they are long enough; then years for one slot fewer, which is 13.
    fn short_years(&mut self) {
        let (slots, dim, seed) = (1 + self.below(8), 1 + self.below(8), self.seed());
        let bytes = slots * block_size(dim, 5);
        let lend = |years: usize| format!("lend {bytes:x} {slots:x} {slots:x} {slots:x} {slots:x} 1 0 0 {years:x}");
        self.line(lend(slots));
        self.call(format!("new {dim:x} {seed:x}"));
        self.line(format!("field n {slots:x}"));
        for years in [slots - 1, slots] {
            self.line(lend(years));
            for _ in 0..1 + self.below(3) {
                self.plain();
            }
        }
        self.start();
    }

    /// Keys, marks and the record: mostly 13, until all is put back or made anew.
    fn poke(&mut self) {
        if self.rarely(3) {
            return self.poke_field();
        }
        let (name, array) = ARRAYS[self.pick(&[2, 3, 4, 5, 5])];
        let length = self.driver.arrays.length(array);
        if length == 0 {
            return;
        }
        if array == Array::Alive {
            return self.poke_marks();
        }
        let in_use = self.driver.record.n.clamp(1, length);
        let at = if self.rarely(6) { self.below(length) } else { self.below(in_use) };
        let value = match array {
            Array::Keys => self.key(),
            Array::Keyed => self.random.below(2),
            _ => self.random.below(3),
        };
        let old = self.driver.arrays.get(array, at);
        self.line(format!("set {name} {at:x} {value:x}"));
        for _ in 0..1 + self.below(4) {
            self.plain();
        }
        if self.rarely(10) || at >= self.driver.arrays.length(array) {
            return self.start();
        }
        self.line(format!("set {name} {at:x} {old:x}"));
        self.made_sound();
    }

    /// Live marks: 13 for a bit at or above the slots in use, a wrong live count, a key on a dead slot. A reading clears them.
    fn poke_marks(&mut self) {
        let Some((at, old)) = self.stray() else {
            return;
        };
        if self.rarely(4) {
            // The live count is that of all bits.
            let live: u32 = self.driver.arrays.alive.iter().map(|word| word.count_ones()).sum();
            self.line(format!("field live {live:x}"));
        }
        for _ in 0..1 + self.below(4) {
            self.plain();
        }
        self.call("dump".to_string());
        if self.rarely(10) || at >= self.driver.arrays.alive.len() {
            return self.start();
        }
        self.line(format!("set alive {at:x} {old:x}"));
        if fits(&self.driver.record, &self.driver.arrays) {
            return;
        }
        let live: u32 = self.driver.arrays.alive.iter().map(|word| word.count_ones()).sum();
        self.line(format!("field live {live:x}"));
        self.made_sound();
    }

    fn poke_field(&mut self) {
        let (name, field) = FIELDS[self.below(8)];
        let old = self.driver.record.field(field);
        let value = match field {
            Field::Dim => self.pick(&[0, 1, 4096, 4097, old + 1, u64::MAX]),
            Field::WorkingDim => self.pick(&[0, 1, 4097, old + 1, old.saturating_sub(1)]),
            Field::Seed => self.random.word(),
            Field::Bits => self.pick(&[0, 3, 4, 5, 6, 7, 255]),
            Field::Residual | Field::Cascade => 1 - old,
            Field::N | Field::Live => self.pick(&[0, old + 1, old.saturating_sub(1), 65_537, u64::MAX]),
        };
        self.line(format!("field {name} {value:x}"));
        for _ in 0..1 + self.below(4) {
            self.plain();
        }
        self.line(format!("field {name} {old:x}"));
        self.made_sound();
    }

    /// A poke that fitted may have led on, so that putting it back misfits: then the index is made anew.
    fn made_sound(&mut self) {
        if self.call("contains 0".to_string()) == "refused 13" {
            self.start();
        }
    }

    // ---- files

    fn write(&mut self) {
        let answer = self.call("length".to_string());
        let Some(length) = answer.strip_prefix("length ").and_then(|n| usize::from_str_radix(n, 16).ok()) else {
            return;
        };
        let places = match self.below(6) {
            0 => length - 1,
            1 => length,
            2 => self.below(length),
            _ => length + self.below(20),
        };
        let answer = self.call(format!("write {:x}", places.min(65_536)));
        if let Some(file) = answer.strip_prefix("bytes ").and_then(read_bytes) {
            if self.files.len() > 20 {
                let at = self.below(20);
                self.files.swap_remove(at);
            }
            self.files.push(file);
        }
    }

    /// Files with years are kept from most histories that have none.
    fn file(&mut self) -> String {
        let at = self.below(self.files.len() + 1);
        let made_up = at == self.files.len() || self.rarely(3) || has_years(&self.files[at]) && !self.other_years && !self.rarely(6);
        let mut file = if made_up { self.made_up() } else { self.files[at].clone() };
        if self.rarely(2) {
            self.spoil(&mut file);
        }
        bytes(&file)
    }

    /// A file with years, a small one if it was written, cut at every place, of a long one at the last ones.
    fn cuts(&mut self) {
        let version = self.pick(&[262, 263, 264]);
        let written = self.files.iter().find(|file| has_years(file) && file.len() < 100).cloned();
        let file = written.filter(|_| self.rarely(3)).unwrap_or_else(|| self.made_up_as(version));
        for length in file.len().saturating_sub(100)..=file.len() {
            self.call(format!("read {}", bytes(&file[..length])));
        }
        self.call("dump".to_string());
    }

    fn half(&mut self) -> u16 {
        match self.below(12) {
            0 => self.pick(&[0, 0x8000, 1, 0x8001, 0x3ff, 0x7c00, 0xfc00, 0x7e00, 0xfe01]),
            1 => self.random.word() as u16,
            _ => 0x2800 + self.random.below(0x1400) as u16,
        }
    }

    /// A file of any version, one of version 1 with halves as 257 has them, one of 265 with the blocks of 262: both are refused by their version.
    /// Numbers that are refused are rare.
    fn made_up(&mut self) -> Vec<u8> {
        let version = self.pick(&[1, 257, 258, 259, 259, 259, 260, 260, 260, 261, 261, 261, 262, 263, 264, 265]);
        self.made_up_as(version)
    }

    fn made_up_as(&mut self, stated: u16) -> Vec<u8> {
        // The version that has the same blocks before the years.
        let version = match stated {
            262..=264 => stated - 3,
            265 => 259,
            _ => stated,
        };
        let dim = self.dim();
        let working = match self.below(12) {
            0 => 1,
            1..=4 => 1 + self.below(dim),
            _ => 0,
        };
        let width = if version == 261 { self.pick(&[4, 5, 6]) } else { 4 };
        let in_codes = if matches!(version, 1 | 257) || working == 0 { dim } else { working };
        let block = block_size(in_codes, width);
        let room = self.driver.arrays.capacity(block, version == 260);
        let most = if self.rarely(10) { room.min(140) } else { room.min(12) };
        let count = if self.rarely(10) { room + 1 } else { self.below(most + 1) };
        let mut file = b"VECQ".to_vec();
        file.extend(stated.to_le_bytes());
        file.extend((working as u16).to_le_bytes());
        file.extend((dim as u32).to_le_bytes());
        file.extend(self.seed().to_le_bytes());
        file.extend((count as u32).to_le_bytes());
        if version == 261 {
            file.push(width);
        }
        self.stage(&mut file, count, block);
        if version == 260 {
            self.stage(&mut file, count, block);
        }
        if version == 260 && self.rarely(10) {
            // It ends before its key count.
            file.truncate(file.len() - self.below(4));
        } else if version >= 259 {
            // 19 comes after the years' 14.
            let unsound = if stated > version { 4 } else { 12 };
            self.key_entries(&mut file, count, unsound);
        }
        if stated > version {
            self.year_block(&mut file, count);
        }
        file
    }

    /// Often all 1, so that the index is one without years; now and then cut short.
    fn year_block(&mut self, file: &mut Vec<u8>, count: usize) {
        let others = if self.other_years { !self.rarely(4) } else { self.rarely(6) };
        for _ in 0..count {
            let year = if others && !self.rarely(3) { self.other_year() } else { 1 };
            file.extend(year.to_le_bytes());
        }
        if count > 0 && self.rarely(4) {
            file.truncate(file.len() - 1 - self.below(2 * count));
        }
    }

    fn stage(&mut self, file: &mut Vec<u8>, count: usize, block: usize) {
        for _ in 0..count {
            file.extend(self.half().to_le_bytes());
        }
        file.extend((0..count * block).map(|_| self.random.word() as u8));
    }

    /// Some slots in any order; in one of `unsound` tables one twice, or one past the count.
    fn key_entries(&mut self, file: &mut Vec<u8>, count: usize, unsound: usize) {
        let mut slots: Vec<usize> = (0..count).filter(|_| !self.rarely(3)).collect();
        for i in 1..slots.len() {
            let other = self.below(i + 1);
            if self.rarely(2) {
                slots.swap(i, other);
            }
        }
        if self.rarely(unsound) {
            slots.push(self.below(count + 1));
        }
        file.extend((slots.len() as u32).to_le_bytes());
        for slot in slots {
            file.extend((slot as u32).to_le_bytes());
            file.extend(self.key().to_le_bytes());
        }
    }

    fn spoil(&mut self, file: &mut Vec<u8>) {
        let length = file.len();
        if length < 24 {
            // Cut already.
            return;
        }
        match self.below(10) {
            0 => file.truncate(self.below(length)),
            1 => file.truncate(length - 1 - self.below(16)),
            2 => file.extend((0..1 + self.below(5)).map(|_| self.random.word() as u8)),
            3 => {
                let version = self.pick(&[0u16, 1, 2, 256, 257, 258, 259, 260, 261, 262, 263, 264, 265, 266, u16::MAX]);
                file[4..6].copy_from_slice(&version.to_le_bytes());
            }
            4 => {
                let working = self.below(20) as u16;
                file[6..8].copy_from_slice(&working.to_le_bytes());
            }
            5 => {
                let dim = self.pick(&[0u32, 1, 2, 4096, 4097, u32::MAX]);
                file[8..12].copy_from_slice(&dim.to_le_bytes());
            }
            6 => {
                let count = self.pick(&[0u32, 1, 2, 4096, 65_536, 65_537, u32::MAX]);
                file[20..24].copy_from_slice(&count.to_le_bytes());
            }
            7 if length > 24 => file[24] = self.pick(&[3, 4, 5, 6, 7]),
            8 => file[self.below(4)] ^= 1,
            _ => {
                let at = self.below(length);
                file[at] = self.random.word() as u8;
            }
        }
    }
}
