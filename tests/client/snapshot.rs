//! All that an index answers about what it holds: two equal ones hold the same.
use vecq::{Error, Index};

#[derive(PartialEq, Debug)]
pub struct Snapshot {
    file: Result<Vec<u8>, Error>,
    shape: (usize, usize, u64, u8, bool),
    counts: (usize, usize, bool),
    keys: Vec<Option<u64>>,
    /// Those of dead slots too, which the file doesn't have.
    years: Vec<u16>,
    /// The slots of each key in held order, which the file doesn't have.
    held: Vec<Vec<u32>>,
    /// Slots and score bits.
    lists: [Result<Vec<(u32, u32)>, Error>; 2],
}

impl Snapshot {
    pub fn of(index: &Index) -> Snapshot {
        let keys: Vec<Option<u64>> = (0..=index.slots()).map(|slot| index.key_of(slot).expect("key_of answers")).collect();
        let mut different: Vec<u64> = keys.iter().flatten().copied().collect();
        different.sort_unstable();
        different.dedup();
        let query: Vec<f32> = (0..index.dim()).map(|i| (i % 7) as f32 - 2.5).collect();
        let bits = |hits: Vec<vecq::Hit>| hits.iter().map(|hit| (hit.slot, hit.score.to_bits())).collect();
        Snapshot {
            file: index.to_bytes(),
            shape: (index.dim(), index.working_dim(), index.seed(), index.bits(), index.is_residual()),
            counts: (index.slots(), index.live(), index.is_cascade_enabled()),
            held: different.iter().map(|&key| held(index, key)).collect(),
            keys,
            years: index.years().collect(),
            lists: [index.search(&query, index.live()).map(bits), index.search_cascade(&query, index.live(), 1).map(bits)],
        }
    }
}

fn held(index: &Index, key: u64) -> Vec<u32> {
    (0..).map_while(|position| index.slot_at(key, position).expect("slot_at answers")).collect()
}
