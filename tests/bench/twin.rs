// One build of the Rust core, here named vecq: its index from a record and arrays, and its calls. Included once for each build.
use super::Rust;
use crate::data::{mark, set_mark};
use crate::sys::{Raw, BITS, CASCADE, DIM, LIVE, N, RESIDUAL, SEED, WORKING_DIM};
use std::collections::HashMap;
use vecq::store::VecqIndex;

fn floats(patterns: &[u32]) -> Vec<f32> {
    patterns.iter().map(|&p| f32::from_bits(p)).collect()
}

fn patterns(floats: &[f32]) -> Vec<u32> {
    floats.iter().map(|x| x.to_bits()).collect()
}

/// The Rust's index that a record and arrays stand for, where they fit. It has no years.
pub fn index_of(ours: &Raw) -> Box<dyn Rust> {
    let (record, arrays) = (&ours.record, &ours.arrays);
    let n = record[N] as usize;
    let mut index = VecqIndex::with_working_dim(record[DIM] as usize, record[WORKING_DIM] as usize, record[SEED]);
    index.bits = record[BITS] as u8;
    index.residual = record[RESIDUAL] == 1;
    let used = n * index.bytes_per_vector();
    index.n = n;
    index.live = record[LIVE] as usize;
    index.codes = arrays.codes[..used].to_vec();
    index.scales = floats(&arrays.scales[..n]);
    if index.residual {
        index.codes2 = arrays.codes2[..used].to_vec();
        index.scales2 = floats(&arrays.scales2[..n]);
    }
    index.alive = (0..n).map(|slot| mark(&arrays.alive, slot)).collect();
    index.keys = (0..n).map(|slot| arrays.keyed[slot].then_some(arrays.keys[slot])).collect();
    hold(&mut index, &arrays.held);
    if record[CASCADE] == 1 {
        index.enable_cascade();
    }
    Box::new(index)
}

/// Each key's slots in held order, in the map where the Rust has them.
fn hold(index: &mut VecqIndex, held: &[u32]) {
    let mut lists: HashMap<u64, Vec<usize>> = HashMap::new();
    for (slot, key) in index.keys.iter().enumerate() {
        if let Some(key) = key {
            lists.entry(*key).or_default().push(slot);
        }
    }
    for (key, mut list) in lists {
        list.sort_by_key(|&slot| held[slot]);
        if list.len() == 1 {
            index.key_to_slot.insert(key, list[0]);
        } else {
            index.key_to_slots.insert(key, list);
        }
    }
}

pub fn from_bytes(file: &[u8]) -> Option<Box<dyn Rust>> {
    VecqIndex::from_bytes(file).ok().map(|index| Box::new(index) as Box<dyn Rust>)
}

pub fn fwht(v: &mut [f32]) {
    vecq::rhdh::fwht(v)
}

fn forget(index: &mut VecqIndex, key: u64) {
    if index.key_to_slot.remove(&key).is_some() {
        return;
    }
    let list = index.key_to_slots.get_mut(&key).expect("a key has its slots");
    list.pop();
    if list.len() == 1 {
        let slot = list[0];
        index.key_to_slots.remove(&key);
        index.key_to_slot.insert(key, slot);
    }
}

/// The words of these marks.
fn marks(alive: &[bool], words: usize) -> Vec<u64> {
    let mut marks = vec![0; words];
    alive.iter().enumerate().for_each(|(slot, &live)| set_mark(&mut marks, slot, live));
    marks
}

/// The held position of each keyed slot.
fn held_positions(index: &VecqIndex) -> Vec<u32> {
    let mut held = vec![0; index.n];
    for list in index.key_to_slots.values() {
        list.iter().enumerate().for_each(|(position, &slot)| held[slot] = position as u32);
    }
    held
}

impl Rust for VecqIndex {
    fn search(&self, query: &[f32], k: usize) -> Vec<(usize, f32)> {
        self.search(query, k)
    }

    fn search_keyed(&self, query: &[f32], k: usize) -> Vec<(u64, f32)> {
        self.search_keyed(query, k)
    }

    fn search_cascade(&self, query: &[f32], k: usize, r: usize) -> Vec<(usize, f32)> {
        self.search_cascade(query, k, r)
    }

    fn enable_cascade(&mut self) {
        self.enable_cascade()
    }

    fn add(&mut self, vector: &[f32]) -> usize {
        self.add(vector)
    }

    fn add_keyed(&mut self, key: u64, vector: &[f32]) -> usize {
        self.add_keyed(key, vector)
    }

    fn add_keyed_multi(&mut self, key: u64, vector: &[f32]) -> usize {
        self.add_keyed_multi(key, vector)
    }

    fn compact(&mut self) {
        self.compact()
    }

    fn to_bytes(&self) -> Vec<u8> {
        self.to_bytes()
    }

    fn copy(&self) -> Box<dyn Rust> {
        Box::new(self.clone())
    }

    fn cut(&mut self, n: usize) {
        while self.n > n {
            let key = self.keys.pop().expect("a slot has its place");
            if let Some(key) = key {
                forget(self, key);
            }
            self.n -= 1;
            self.live -= 1;
        }
        let used = n * self.bytes_per_vector();
        self.alive.truncate(n);
        self.codes.truncate(used);
        self.scales.truncate(n);
        self.codes2.truncate(used);
        self.scales2.truncate(n);
    }

    fn difference(&self, ours: &Raw) -> Option<String> {
        let (record, arrays) = (&ours.record, &ours.arrays);
        let (n, used) = (self.n, self.n * self.bytes_per_vector());
        let fields = [
            self.dim() as u64, self.working_dim() as u64, self.seed(), self.bits as u64, self.residual as u64, n as u64, self.live as u64,
            self.signature.is_some() as u64,
        ];
        if fields != *record {
            return Some(format!("the record is {record:?} and not {fields:?}"));
        }
        let alike = [
            ("codes", self.codes[..] == arrays.codes[..used]),
            ("scales", patterns(&self.scales) == arrays.scales[..n]),
            ("codes2", !self.residual || self.codes2[..] == arrays.codes2[..used]),
            ("scales2", !self.residual || patterns(&self.scales2) == arrays.scales2[..n]),
            // No bit is set at or above the slots in use, in any lent word (document 02, Req 02).
            ("alive", marks(&self.alive, arrays.alive.len()) == arrays.alive),
            ("keys", (0..n).all(|slot| self.keys[slot] == arrays.keyed[slot].then_some(arrays.keys[slot]))),
            ("held", held_positions(self) == arrays.held[..n]),
        ];
        alike.iter().find(|(_, same)| !same).map(|(name, _)| format!("{name} differ"))
    }
}
