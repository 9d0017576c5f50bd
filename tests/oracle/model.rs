//! The record and the lent arrays that the program `exercise` holds, read from its language, and the refusals 8, 13 and 20 about them, by documents 01 and 02.
use crate::language::{Array, Field};
use vecq::rhdh::padded_dim;

/// At most so many slots are in use (document 01).
pub const MOST_IN_USE: usize = 65_536;
pub const MOST_DIM: usize = 4096;

#[derive(Clone)]
pub struct Record {
    pub dim: usize,
    pub working_dim: usize,
    pub seed: u64,
    pub bits: u8,
    pub residual: bool,
    pub n: usize,
    pub live: usize,
    pub cascade: bool,
}

#[derive(Clone, Default)]
pub struct Arrays {
    pub codes: Vec<u8>,
    pub scales: Vec<u32>,
    pub keys: Vec<u64>,
    pub keyed: Vec<bool>,
    pub held: Vec<u32>,
    /// live marks, see `mark`
    pub alive: Vec<u64>,
    pub codes2: Vec<u8>,
    pub scales2: Vec<u32>,
    /// retention years, see years.rs
    pub years: Vec<u16>,
}

/// "64 to a 64-bit word" (document 02, Req 02)
pub const MARKS: usize = 64;

/// Bytes per vector: "padded times width, over 8, rounded up".
pub fn block_size(working: usize, bits: u8) -> usize {
    (padded_dim(working) * bits as usize).div_ceil(8)
}

impl Record {
    pub fn block_size(&self) -> usize {
        block_size(self.working_dim, self.bits)
    }

    /// 8: slots in use equal to capacity.
    pub fn room(&self, arrays: &Arrays) -> usize {
        arrays.capacity(self.block_size(), self.residual)
    }

    pub fn field(&self, field: Field) -> u64 {
        match field {
            Field::Dim => self.dim as u64,
            Field::WorkingDim => self.working_dim as u64,
            Field::Seed => self.seed,
            Field::Bits => self.bits as u64,
            Field::Residual => self.residual as u64,
            Field::N => self.n as u64,
            Field::Live => self.live as u64,
            Field::Cascade => self.cascade as u64,
        }
    }

    pub fn set_field(&mut self, field: Field, value: u64) {
        match field {
            Field::Dim => self.dim = value as usize,
            Field::WorkingDim => self.working_dim = value as usize,
            Field::Seed => self.seed = value,
            Field::Bits => self.bits = value as u8,
            Field::Residual => self.residual = value == 1,
            Field::N => self.n = value as usize,
            Field::Live => self.live = value as usize,
            Field::Cascade => self.cascade = value == 1,
        }
    }
}

impl Arrays {
    pub fn lent(lengths: &[usize; 9]) -> Self {
        let [codes, scales, keys, keyed, held, alive, codes2, scales2, years] = *lengths;
        Arrays {
            codes: vec![0; codes],
            scales: vec![0; scales],
            keys: vec![0; keys],
            keyed: vec![false; keyed],
            held: vec![0; held],
            alive: vec![0; alive],
            codes2: vec![0; codes2],
            scales2: vec![0; scales2],
            years: vec![0; years],
        }
    }

    /// "slot s at bit s modulo 64 of word s divided by 64"; one past the lent words has none.
    pub fn mark(&self, slot: usize) -> bool {
        self.alive.get(slot / MARKS).is_some_and(|word| word >> (slot % MARKS) & 1 == 1)
    }

    /// "Every accepted call, compaction too, leaves 0 in all bits at or above the slots in use": these are the marks of all slots in use.
    pub fn set_marks(&mut self, marks: &[bool]) {
        self.alive.fill(0);
        for slot in (0..marks.len()).filter(|&slot| marks[slot]) {
            self.alive[slot / MARKS] |= 1 << (slot % MARKS);
        }
    }

    /// "the fewest slots that any lent array of the index holds, residual arrays only if residual, at most 65,536"
    pub fn capacity(&self, block: usize, residual: bool) -> usize {
        let mut rooms = vec![MOST_IN_USE, self.codes.len() / block, MARKS * self.alive.len()];
        rooms.extend([self.scales.len(), self.keys.len(), self.keyed.len(), self.held.len(), self.years.len()]);
        if residual {
            rooms.extend([self.codes2.len() / block, self.scales2.len()]);
        }
        rooms.into_iter().min().expect("one at least")
    }

    pub fn length(&self, array: Array) -> usize {
        match array {
            Array::Codes => self.codes.len(),
            Array::Scales => self.scales.len(),
            Array::Keys => self.keys.len(),
            Array::Keyed => self.keyed.len(),
            Array::Held => self.held.len(),
            Array::Alive => self.alive.len(),
            Array::Codes2 => self.codes2.len(),
            Array::Scales2 => self.scales2.len(),
            Array::Years => self.years.len(),
        }
    }

    pub fn get(&self, array: Array, at: usize) -> u64 {
        match array {
            Array::Codes => self.codes[at] as u64,
            Array::Scales => self.scales[at] as u64,
            Array::Keys => self.keys[at],
            Array::Keyed => self.keyed[at] as u64,
            Array::Held => self.held[at] as u64,
            Array::Alive => self.alive[at],
            Array::Codes2 => self.codes2[at] as u64,
            Array::Scales2 => self.scales2[at] as u64,
            Array::Years => self.years[at] as u64,
        }
    }

    pub fn set(&mut self, array: Array, at: usize, value: u64) {
        match array {
            Array::Codes => self.codes[at] = value as u8,
            Array::Scales => self.scales[at] = value as u32,
            Array::Keys => self.keys[at] = value,
            Array::Keyed => self.keyed[at] = value == 1,
            Array::Held => self.held[at] = value as u32,
            Array::Alive => self.alive[at] = value,
            Array::Codes2 => self.codes2[at] = value as u8,
            Array::Scales2 => self.scales2[at] = value as u32,
            Array::Years => self.years[at] = value as u16,
        }
    }
}

/// Whether 13 does not come from the index: document 01's sentence, clause by clause, with document 02's on bits at or above the slots in use.
pub fn fits(record: &Record, arrays: &Arrays) -> bool {
    let Record { dim, working_dim, bits, residual, n, live, .. } = *record;
    if !(1..=MOST_DIM).contains(&dim) || !(1..=dim).contains(&working_dim) || !(4..=6).contains(&bits) || (residual && bits != 4) {
        return false;
    }
    if n > record.room(arrays) {
        return false;
    }
    if (n..MARKS * arrays.alive.len()).any(|slot| arrays.mark(slot)) || (0..n).filter(|&slot| arrays.mark(slot)).count() != live {
        return false;
    }
    let (keyed, others): (Vec<usize>, Vec<usize>) = (0..n).partition(|&slot| arrays.keyed[slot]);
    if keyed.iter().any(|&slot| !arrays.mark(slot)) || others.iter().any(|&slot| arrays.held[slot] != 0) {
        return false;
    }
    let mut pairs: Vec<(u64, u32)> = keyed.iter().map(|&slot| (arrays.keys[slot], arrays.held[slot])).collect();
    pairs.sort_unstable();
    // In rising order each pair is the first of its key with position 0, or one past the pair before.
    pairs.iter().enumerate().all(|(i, &(key, position))| match pairs[..i].last() {
        Some(&(before, at)) if before == key => position as u64 == at as u64 + 1,
        _ => position == 0,
    })
}

fn run<T>(elements: &[T], text: impl Fn(&T) -> String) -> String {
    if elements.is_empty() { "-".to_string() } else { elements.iter().map(text).collect() }
}

/// The answer to `dump`.
pub fn dump(record: &Record, arrays: &Arrays) -> String {
    let Record { dim, working_dim, seed, bits, residual, n, live, cascade } = record;
    let byte = |b: &u8| format!("{b:02x}");
    let word = |w: &u32| format!("{w:08x}");
    let long = |w: &u64| format!("{w:016x}");
    let short = |w: &u16| format!("{w:04x}");
    format!(
        "record {dim:x} {working_dim:x} {seed:x} {bits:x} {:x} {n:x} {live:x} {:x} \
         codes {} scales {} keys {} keyed {} held {} alive {} codes2 {} scales2 {} years {}",
        *residual as u8,
        *cascade as u8,
        run(&arrays.codes, byte),
        run(&arrays.scales, word),
        run(&arrays.keys, long),
        run(&arrays.keyed, |&on| (on as u8).to_string()),
        run(&arrays.held, word),
        run(&arrays.alive, long),
        run(&arrays.codes2, byte),
        run(&arrays.scales2, word),
        run(&arrays.years, short),
    )
}
