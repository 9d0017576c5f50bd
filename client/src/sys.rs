//! The exported calls of the proved library, over a record of eight words and nine arrays: the only unsafe code of the crate, and the one place that
//! declares them. Every export is proved for all lengths and contents of what it is lent. What C leaves to its caller is that each pointer and length
//! are a slice's, that a slice which is written overlaps no other, and that a bool is 0 or 1; references give all three.

/// The set of signatures that is declared here. The library states its own (`abi`): a stale declaration of twenty arguments would still link.
pub const ABI: u64 = 3;

#[derive(Clone, Default, PartialEq)]
pub struct Arrays {
    pub codes: Vec<u8>,
    pub scales: Vec<u32>,
    pub keys: Vec<u64>,
    pub keyed: Vec<bool>,
    pub held: Vec<u32>,
    /// live marks, 64 to a word: slot s at bit s modulo 64 of word s divided by 64
    pub alive: Vec<u64>,
    pub codes2: Vec<u8>,
    pub scales2: Vec<u32>,
    /// retention years: 0 for good, 1 no duty, any other the first year in which the slot may go
    pub years: Vec<u16>,
}

// Places of the record's words.
pub const DIM: usize = 0;
pub const WORKING_DIM: usize = 1;
pub const SEED: usize = 2;
pub const BITS: usize = 3;
pub const RESIDUAL: usize = 4;
pub const N: usize = 5;
pub const LIVE: usize = 6;
pub const CASCADE: usize = 7;

pub type Record = [u64; 8];

/// Declares calls by what comes before the nine arrays and after them. A slice is a pointer and a length.
macro_rules! declare {
    ($($name:ident ($($before:ty),*) ($($after:ty),*);)*) => {
        extern "C" {
            $(fn $name(
                $(_: $before,)*
                _: *const u8, _: usize, _: *const u32, _: usize, _: *const u64, _: usize, _: *const bool, _: usize,
                _: *const u32, _: usize, _: *const u64, _: usize, _: *const u8, _: usize, _: *const u32, _: usize,
                _: *const u16, _: usize,
                $(_: $after,)*
            ) -> u8;)*
        }
    };
}

declare! {
    vecq_raw_new (*mut u64, usize) (usize, u64);
    vecq_raw_with_working_dim (*mut u64, usize) (usize, usize, u64);
    vecq_raw_with_residual (*mut u64, usize) (usize, u64);
    vecq_raw_set_bits (*mut u64, usize) (u8);
    vecq_raw_enable_cascade (*mut u64, usize) ();
    vecq_raw_add (*mut u64, usize, *mut u64, usize) (*const f32, usize, u16);
    vecq_raw_add_keyed (*mut u64, usize, *mut u64, usize) (u64, *const f32, usize, u16, u16);
    vecq_raw_add_keyed_multi (*mut u64, usize, *mut u64, usize) (u64, *const f32, usize, u16);
    vecq_raw_relabel (*mut u64, usize, *mut u64, usize) (u64, u64);
    vecq_raw_remove_keyed (*mut u64, usize, *mut u64, usize) (u64, u16);
    vecq_raw_remove_keyed_at (*mut u64, usize, *mut u64, usize) (u64, usize, u16);
    vecq_raw_compact (*mut u64, usize) ();
    vecq_raw_key_of (*const u64, usize, *mut u64, usize) (usize);
    vecq_raw_contains_key (*const u64, usize, *mut u64, usize) (u64);
    vecq_raw_slot_at (*const u64, usize, *mut u64, usize) (u64, usize);
    vecq_raw_score (*const u64, usize, *mut u64, usize) (usize, *const f32, usize);
    vecq_raw_search (*const u64, usize, *mut u64, usize) (*const f32, usize, usize, *mut u32, usize, *mut f32, usize);
    vecq_raw_search_keyed (*const u64, usize, *mut u64, usize) (*const f32, usize, usize, *mut u64, usize, *mut f32, usize);
    vecq_raw_search_cascade (*const u64, usize, *mut u64, usize) (*const f32, usize, usize, usize, *mut u32, usize, *mut f32, usize);
    vecq_raw_file_length (*const u64, usize, *mut u64, usize) ();
    vecq_raw_to_bytes (*const u64, usize, *mut u64, usize) (*mut u8, usize);
    vecq_raw_from_bytes (*mut u64, usize) (*const u8, usize);
}

extern "C" {
    fn vecq_raw_abi() -> u64;
    fn vecq_raw_head(file: *const u8, length: usize, answer: *mut u64, places: usize) -> u8;
    fn vecq_raw_fwht(v: *mut f32, length: usize);
    fn vecq_raw_f32_to_f16_bits(x: u32) -> u16;
    fn vecq_raw_f16_bits_to_f32(h: u16) -> u32;
    fn vecq_raw_sqrt(x: f32) -> f32;
    fn vecq_raw_quantize(x: f32, bits: u8) -> u8;
}

/// Makes a call: the arguments before the arrays, the arrays of `$a` by `as_ptr` or `as_mut_ptr`, the arguments after them. Answers its number.
macro_rules! call {
    ($name:ident ($($before:expr),*) $a:expr, $lend:ident, ($($after:expr),*)) => {{
        let a = $a;
        unsafe {
            $name(
                $($before,)*
                a.codes.$lend(), a.codes.len(), a.scales.$lend(), a.scales.len(), a.keys.$lend(), a.keys.len(),
                a.keyed.$lend(), a.keyed.len(), a.held.$lend(), a.held.len(), a.alive.$lend(), a.alive.len(),
                a.codes2.$lend(), a.codes2.len(), a.scales2.$lend(), a.scales2.len(),
                a.years.$lend(), a.years.len(),
                $($after,)*
            )
        }
    }};
}

/// A call that changes the index: with places for the words of its answer, or without.
macro_rules! change {
    ($raw:ident, $name:ident ($($after:expr),*)) => {
        unless_refused(call!($name($raw.record.as_mut_ptr(), $raw.record.len()) &mut $raw.arrays, as_mut_ptr, ($($after),*)), ())
    };
    ($raw:ident, $name:ident ($($after:expr),*) -> words) => {{
        let mut words = [0; 2];
        let number = call!($name($raw.record.as_mut_ptr(), $raw.record.len(), words.as_mut_ptr(), words.len()) &mut $raw.arrays, as_mut_ptr, ($($after),*));
        unless_refused(number, words)
    }};
}

/// A call that changes neither record nor arrays, and answers words.
macro_rules! ask {
    ($raw:ident, $name:ident ($($after:expr),*)) => {{
        let mut words = [0; 2];
        let number = call!($name($raw.record.as_ptr(), $raw.record.len(), words.as_mut_ptr(), words.len()) &$raw.arrays, as_ptr, ($($after),*));
        unless_refused(number, words)
    }};
}

/// An answer, or the refusal's number.
pub type Answer<T> = Result<T, u8>;

fn unless_refused<T>(number: u8, answer: T) -> Answer<T> {
    if number == 0 {
        Ok(answer)
    } else {
        Err(number)
    }
}

// What the words of an answer say.
type Words = [u64; 2];

fn amount(words: Words) -> usize {
    words[0] as usize
}

fn flag(words: Words) -> bool {
    words[0] == 1
}

fn possible(words: Words) -> Option<u64> {
    flag(words).then_some(words[1])
}

/// The number of the linked library's signatures.
pub fn abi() -> u64 {
    unsafe { vecq_raw_abi() }
}

pub fn fwht(v: &mut [f32]) {
    unsafe { vecq_raw_fwht(v.as_mut_ptr(), v.len()) }
}

/// The half nearest to a binary32, both as bits.
pub fn half(bits: u32) -> u16 {
    unsafe { vecq_raw_f32_to_f16_bits(bits) }
}

/// The binary32 that a half is read as, both as bits.
pub fn binary32(half: u16) -> u32 {
    unsafe { vecq_raw_f16_bits_to_f32(half) }
}

pub fn sqrt(x: f32) -> f32 {
    unsafe { vecq_raw_sqrt(x) }
}

/// The code of a value at a width.
pub fn quantize(x: f32, bits: u8) -> u8 {
    unsafe { vecq_raw_quantize(x, bits) }
}

/// What the head of a file states. Whether the file is sound only the reading says.
pub struct Head {
    pub version: u64,
    pub working_dim: u64,
    pub bits: u64,
    pub residual: bool,
    pub count: u64,
}

pub fn head(file: &[u8]) -> Answer<Head> {
    let mut words = [0; 7];
    let number = unsafe { vecq_raw_head(file.as_ptr(), file.len(), words.as_mut_ptr(), words.len()) };
    let [version, _, working_dim, _, bits, residual, count] = words;
    unless_refused(number, Head { version, working_dim, bits, residual: residual == 1, count })
}

/// Record and arrays, and the calls over them as they are.
#[derive(Clone, Default)]
pub struct Raw {
    pub record: Record,
    pub arrays: Arrays,
}

impl Raw {
    pub fn new(&mut self, dim: usize, seed: u64) -> Answer<()> {
        change!(self, vecq_raw_new(dim, seed))
    }

    pub fn with_working_dim(&mut self, dim: usize, working_dim: usize, seed: u64) -> Answer<()> {
        change!(self, vecq_raw_with_working_dim(dim, working_dim, seed))
    }

    pub fn with_residual(&mut self, dim: usize, seed: u64) -> Answer<()> {
        change!(self, vecq_raw_with_residual(dim, seed))
    }

    pub fn set_bits(&mut self, bits: u8) -> Answer<()> {
        change!(self, vecq_raw_set_bits(bits))
    }

    pub fn enable_cascade(&mut self) -> Answer<()> {
        change!(self, vecq_raw_enable_cascade())
    }

    pub fn add(&mut self, vector: &[f32], year: u16) -> Answer<usize> {
        change!(self, vecq_raw_add(vector.as_ptr(), vector.len(), year) -> words).map(amount)
    }

    pub fn add_keyed(&mut self, key: u64, vector: &[f32], year: u16, present: u16) -> Answer<usize> {
        change!(self, vecq_raw_add_keyed(key, vector.as_ptr(), vector.len(), year, present) -> words).map(amount)
    }

    pub fn add_keyed_multi(&mut self, key: u64, vector: &[f32], year: u16) -> Answer<usize> {
        change!(self, vecq_raw_add_keyed_multi(key, vector.as_ptr(), vector.len(), year) -> words).map(amount)
    }

    pub fn relabel(&mut self, old: u64, new: u64) -> Answer<bool> {
        change!(self, vecq_raw_relabel(old, new) -> words).map(flag)
    }

    pub fn remove_keyed(&mut self, key: u64, present: u16) -> Answer<bool> {
        change!(self, vecq_raw_remove_keyed(key, present) -> words).map(flag)
    }

    pub fn remove_keyed_at(&mut self, key: u64, slot: usize, present: u16) -> Answer<bool> {
        change!(self, vecq_raw_remove_keyed_at(key, slot, present) -> words).map(flag)
    }

    pub fn compact(&mut self) -> Answer<()> {
        change!(self, vecq_raw_compact())
    }

    pub fn key_of(&self, slot: usize) -> Answer<Option<u64>> {
        ask!(self, vecq_raw_key_of(slot)).map(possible)
    }

    pub fn contains_key(&self, key: u64) -> Answer<bool> {
        ask!(self, vecq_raw_contains_key(key)).map(flag)
    }

    pub fn slot_at(&self, key: u64, position: usize) -> Answer<Option<u64>> {
        ask!(self, vecq_raw_slot_at(key, position)).map(possible)
    }

    pub fn score(&self, slot: usize, query: &[f32]) -> Answer<f32> {
        ask!(self, vecq_raw_score(slot, query.as_ptr(), query.len())).map(|words| f32::from_bits(words[0] as u32))
    }

    /// How many hits: their slots and scores are in the first places of the two slices. So the two searches below.
    pub fn search(&self, query: &[f32], k: usize, slots: &mut [u32], scores: &mut [f32]) -> Answer<usize> {
        let (s, t) = ((slots.as_mut_ptr(), slots.len()), (scores.as_mut_ptr(), scores.len()));
        ask!(self, vecq_raw_search(query.as_ptr(), query.len(), k, s.0, s.1, t.0, t.1)).map(amount)
    }

    pub fn search_keyed(&self, query: &[f32], k: usize, keys: &mut [u64], scores: &mut [f32]) -> Answer<usize> {
        let (s, t) = ((keys.as_mut_ptr(), keys.len()), (scores.as_mut_ptr(), scores.len()));
        ask!(self, vecq_raw_search_keyed(query.as_ptr(), query.len(), k, s.0, s.1, t.0, t.1)).map(amount)
    }

    pub fn search_cascade(&self, query: &[f32], k: usize, r: usize, slots: &mut [u32], scores: &mut [f32]) -> Answer<usize> {
        let (s, t) = ((slots.as_mut_ptr(), slots.len()), (scores.as_mut_ptr(), scores.len()));
        ask!(self, vecq_raw_search_cascade(query.as_ptr(), query.len(), k, r, s.0, s.1, t.0, t.1)).map(amount)
    }

    pub fn file_length(&self) -> Answer<usize> {
        ask!(self, vecq_raw_file_length()).map(amount)
    }

    /// How many bytes: they are in the first places of `file`.
    pub fn to_bytes(&self, file: &mut [u8]) -> Answer<usize> {
        let (file, places) = (file.as_mut_ptr(), file.len());
        ask!(self, vecq_raw_to_bytes(file, places)).map(amount)
    }

    pub fn from_bytes(&mut self, file: &[u8]) -> Answer<()> {
        change!(self, vecq_raw_from_bytes(file.as_ptr(), file.len()))
    }
}
