//! An index of up to 65,536 vectors. `&mut self` changes it, `&self` asks, so several threads may ask at once.
use crate::memory::{self, SlotSize};
use crate::refusal::Error;
use crate::sys::{self, Answer, Raw};

pub use crate::memory::MOST_SLOTS;

/// A slot in a list, and its score for the query.
#[derive(Clone, Copy, Debug, PartialEq)]
pub struct Hit {
    pub slot: u32,
    pub score: f32,
}

/// A key in a list, and the score of its best slot.
#[derive(Clone, Copy, Debug, PartialEq)]
pub struct KeyHit {
    pub key: u64,
    pub score: f32,
}

/// A slot with a key, and its place in the key's held order.
#[derive(Clone, Copy, Debug, PartialEq, Eq, PartialOrd, Ord)]
pub struct HeldSlot {
    pub key: u64,
    pub position: u32,
    pub slot: u32,
}

pub struct Index {
    raw: Raw,
}

/// The fewest slots that memory is made for when an index grows.
const FIRST_SLOTS: usize = 16;

// ---- making

impl Index {
    /// An index of vectors of `dim` entries, at 5 bits.
    pub fn new(dim: usize, seed: u64) -> Result<Index, Error> {
        Index::made(dim, false, |raw| raw.new(dim, seed))
    }

    /// An index that stores the first `working_dim` entries only, at 5 bits.
    pub fn with_working_dim(dim: usize, working_dim: usize, seed: u64) -> Result<Index, Error> {
        Index::made(working_dim, false, |raw| raw.with_working_dim(dim, working_dim, seed))
    }

    /// An index that codes what the first 4 bits leave by 4 more.
    pub fn with_residual(dim: usize, seed: u64) -> Result<Index, Error> {
        Index::made(dim, true, |raw| raw.with_residual(dim, seed))
    }

    fn made(working_dim: usize, residual: bool, make: impl FnOnce(&mut Raw) -> Answer<()>) -> Result<Index, Error> {
        // Making asks for a slot's room at the width that it sets; 6 bits are the most.
        let mut index = Index::without_slots()?;
        memory::hold(&mut index.raw.arrays, 1, &SlotSize::new(working_dim, 6, residual))?;
        make(&mut index.raw)?;
        Ok(index)
    }

    fn without_slots() -> Result<Index, Error> {
        if sys::abi() != sys::ABI {
            return Err(Error::OtherLibrary);
        }
        Ok(Index { raw: Raw::default() })
    }

    /// 4, 5 or 6 bits an entry, as long as no slot is in use.
    pub fn set_bits(&mut self, bits: u8) -> Result<(), Error> {
        Ok(self.raw.set_bits(bits)?)
    }

    /// Allows `search_cascade` until the next add.
    pub fn enable_cascade(&mut self) -> Result<(), Error> {
        Ok(self.raw.enable_cascade()?)
    }
}

// ---- memory

impl Index {
    /// Makes room for so many slots at once; without it room doubles as slots come.
    pub fn reserve(&mut self, slots: usize) -> Result<(), Error> {
        let size = SlotSize::new(self.working_dim(), self.bits() as usize, self.is_residual());
        memory::hold(&mut self.raw.arrays, slots, &size)
    }

    /// An append: where the arrays are full and more slots may be, room is made and the call made again.
    fn append(&mut self, call: impl Fn(&mut Raw) -> Answer<usize>) -> Result<u32, Error> {
        let mut answer = call(&mut self.raw);
        if answer == Err(8) && self.slots() < MOST_SLOTS {
            self.reserve((2 * self.slots()).max(FIRST_SLOTS))?;
            answer = call(&mut self.raw);
        }
        Ok(answer? as u32)
    }
}

// ---- changes: a slot's year is 0 for good, 1 for no duty, or the first year in which it may be removed or overwritten. The present year is what the caller
// says: neither the library nor this crate asks a clock.

impl Index {
    /// Adds a vector without a key. Answers its slot, as the two adds below do.
    pub fn add(&mut self, vector: &[f32], year: u16) -> Result<u32, Error> {
        self.append(|raw| raw.add(vector, year))
    }

    /// Overwrites the key's first held slot, its year too, or adds one. 21 where that slot is to be kept.
    pub fn add_keyed(&mut self, key: u64, vector: &[f32], year: u16, present: u16) -> Result<u32, Error> {
        self.append(|raw| raw.add_keyed(key, vector, year, present))
    }

    /// Adds a slot to those of the key.
    pub fn add_keyed_multi(&mut self, key: u64, vector: &[f32], year: u16) -> Result<u32, Error> {
        self.append(|raw| raw.add_keyed_multi(key, vector, year))
    }

    /// Gives all slots of `old` to `new`; no where `old` has none, or `new` is another key and has one.
    pub fn relabel(&mut self, old: u64, new: u64) -> Result<bool, Error> {
        Ok(self.raw.relabel(old, new)?)
    }

    /// Removes all slots of the key; no where it has none, and 21, with none removed, where one of them is to be kept.
    pub fn remove_keyed(&mut self, key: u64, present: u16) -> Result<bool, Error> {
        Ok(self.raw.remove_keyed(key, present)?)
    }

    /// Removes one slot of the key; no where the slot isn't the key's, and 21 where it is to be kept.
    pub fn remove_keyed_at(&mut self, key: u64, slot: usize, present: u16) -> Result<bool, Error> {
        Ok(self.raw.remove_keyed_at(key, slot, present)?)
    }

    /// Numbers the live slots anew, from 0 in their order, so that the places of dead ones serve again.
    pub fn compact(&mut self) -> Result<(), Error> {
        Ok(self.raw.compact()?)
    }
}

// ---- questions

impl Index {
    pub fn key_of(&self, slot: usize) -> Result<Option<u64>, Error> {
        Ok(self.raw.key_of(slot)?)
    }

    pub fn contains_key(&self, key: u64) -> Result<bool, Error> {
        Ok(self.raw.contains_key(key)?)
    }

    /// The slot at a place of the key's held order.
    pub fn slot_at(&self, key: u64, position: usize) -> Result<Option<u32>, Error> {
        Ok(self.raw.slot_at(key, position)?.map(|slot| slot as u32))
    }

    /// What `key_of` answers for each slot in use, at once. A call tests the whole index first, so asking slot by slot would take time by the square of
    /// the slots; the library's contract says that a slot's key is the word at its place where its place is marked as keyed.
    pub fn keys(&self) -> impl Iterator<Item = Option<u64>> + '_ {
        let arrays = &self.raw.arrays;
        arrays.keyed.iter().zip(&arrays.keys).take(self.slots()).map(|(keyed, key)| keyed.then_some(*key))
    }

    /// What `slot_at` answers for all keys and places, at once, for the same reason: rising by key, and for each key in held order.
    pub fn held(&self) -> Result<Vec<HeldSlot>, Error> {
        let mut held = Vec::new();
        held.try_reserve_exact(self.keys().flatten().count())?;
        let slots = self.keys().zip(&self.raw.arrays.held).zip(0..);
        held.extend(slots.filter_map(|((key, position), slot)| Some(HeldSlot { key: key?, position: *position, slot })));
        held.sort_unstable();
        Ok(held)
    }

    /// The retention year of each slot in use; that of a dead slot says nothing. No call asks for it: the library's contract says that it is the word at the
    /// slot's place.
    pub fn years(&self) -> impl Iterator<Item = u16> + '_ {
        self.raw.arrays.years.iter().take(self.slots()).copied()
    }

    /// The scale of each slot in use as a half, the first one in a residual index: the half that is read as this scale, else the nearest one.
    pub fn halves(&self) -> impl Iterator<Item = u16> + '_ {
        self.raw.arrays.scales.iter().take(self.slots()).map(|scale| half_read_as(*scale).unwrap_or(sys::half(*scale)))
    }

    pub fn score(&self, slot: usize, query: &[f32]) -> Result<f32, Error> {
        Ok(self.raw.score(slot, query)?)
    }

    /// The `k` best slots, the best first.
    pub fn search(&self, query: &[f32], k: usize) -> Result<Vec<Hit>, Error> {
        self.list(k, |slots, scores| self.raw.search(query, k, slots, scores), |slot, score| Hit { slot, score })
    }

    /// The keys of the `k` best slots, each once; slots without a key are left out, so the list may be shorter.
    pub fn search_keyed(&self, query: &[f32], k: usize) -> Result<Vec<KeyHit>, Error> {
        self.list(k, |keys, scores| self.raw.search_keyed(query, k, keys, scores), |key, score| KeyHit { key, score })
    }

    /// The `k` best of the `r` slots whose codes are nearest. The cascade must be enabled.
    pub fn search_cascade(&self, query: &[f32], k: usize, r: usize) -> Result<Vec<Hit>, Error> {
        self.list(k, |slots, scores| self.raw.search_cascade(query, k, r, slots, scores), |slot, score| Hit { slot, score })
    }

    /// What a search puts into as many places as its list can have, so that 13 for too few of them can't come.
    fn list<T: Clone + Default, H>(
        &self,
        k: usize,
        search: impl FnOnce(&mut [T], &mut [f32]) -> Answer<usize>,
        hit: impl Fn(T, f32) -> H,
    ) -> Result<Vec<H>, Error> {
        let count = k.max(1).min(self.live());
        let (mut names, mut scores) = (memory::places(count)?, memory::places(count)?);
        let hits = search(&mut names, &mut scores)?;
        let mut list = Vec::new();
        list.try_reserve_exact(hits)?;
        list.extend(names.into_iter().zip(scores).take(hits).map(|(name, score)| hit(name, score)));
        Ok(list)
    }
}

/// A NaN is read with its fraction moved up 13 places, and rounding to a half would leave its sign only: so the way back is the move down, if that is one.
fn half_read_as(scale: u32) -> Option<u16> {
    let half = ((scale >> 16) & 0x8000 | (scale >> 13) & 0x7FFF) as u16;
    (sys::binary32(half) == scale).then_some(half)
}

// ---- files

impl Index {
    /// How many bytes the file has.
    pub fn file_length(&self) -> Result<usize, Error> {
        Ok(self.raw.file_length()?)
    }

    /// The file: the live slots, numbered from 0 in their order.
    pub fn to_bytes(&self) -> Result<Vec<u8>, Error> {
        let mut file = memory::places(self.raw.file_length()?)?;
        self.raw.to_bytes(&mut file)?;
        Ok(file)
    }

    /// The index that a file holds, with room for `more` slots.
    pub fn from_bytes(file: &[u8], more: usize) -> Result<Index, Error> {
        let mut index = Index::without_slots()?;
        // A file whose head is refused is lent no room: reading it gives the same refusal.
        if let Ok(head) = sys::head(file) {
            memory::hold(&mut index.raw.arrays, head.count as usize + more, &SlotSize::stated(&head))?;
        }
        index.raw.from_bytes(file)?;
        Ok(index)
    }

    /// The version that the head of a file states, where the head is sound.
    pub fn version(file: &[u8]) -> Result<u16, Error> {
        Ok(sys::head(file)?.version as u16)
    }
}

// ---- the record

impl Index {
    pub fn dim(&self) -> usize {
        self.raw.record[sys::DIM] as usize
    }

    pub fn working_dim(&self) -> usize {
        self.raw.record[sys::WORKING_DIM] as usize
    }

    pub fn seed(&self) -> u64 {
        self.raw.record[sys::SEED]
    }

    pub fn bits(&self) -> u8 {
        self.raw.record[sys::BITS] as u8
    }

    pub fn is_residual(&self) -> bool {
        self.raw.record[sys::RESIDUAL] == 1
    }

    /// Slots in use, dead ones included.
    pub fn slots(&self) -> usize {
        self.raw.record[sys::N] as usize
    }

    pub fn live(&self) -> usize {
        self.raw.record[sys::LIVE] as usize
    }

    pub fn is_cascade_enabled(&self) -> bool {
        self.raw.record[sys::CASCADE] == 1
    }
}
