//! Between the Rust's index and the record and arrays of the program `exercise`.
use crate::model::{Arrays, Record};
use std::collections::HashMap;
use vecq::store::VecqIndex;

/// The Rust's index that a record and arrays stand for, where they fit.
pub fn index_of(record: &Record, arrays: &Arrays) -> VecqIndex {
    let n = record.n;
    let bytes = n * record.block_size();
    let floats = |patterns: &[u32]| patterns.iter().map(|&p| f32::from_bits(p)).collect();
    let mut index = VecqIndex::with_working_dim(record.dim, record.working_dim, record.seed);
    index.bits = record.bits;
    index.residual = record.residual;
    index.n = n;
    index.live = record.live;
    index.codes = arrays.codes[..bytes].to_vec();
    index.scales = floats(&arrays.scales[..n]);
    if record.residual {
        index.codes2 = arrays.codes2[..bytes].to_vec();
        index.scales2 = floats(&arrays.scales2[..n]);
    }
    index.alive = (0..n).map(|slot| arrays.mark(slot)).collect();
    index.keys = (0..n).map(|slot| arrays.keyed[slot].then_some(arrays.keys[slot])).collect();
    let mut lists: HashMap<u64, Vec<usize>> = HashMap::new();
    for slot in (0..n).filter(|&slot| arrays.keyed[slot]) {
        lists.entry(arrays.keys[slot]).or_default().push(slot);
    }
    for (_, list) in lists.iter_mut() {
        list.sort_by_key(|&slot| arrays.held[slot]);
    }
    hold(&mut index, lists);
    if record.cascade {
        // At 5 and 6 bits nothing reads it: a cascade search is 11.
        index.signature = Some(Vec::new());
        if record.bits == 4 {
            index.enable_cascade();
        }
    }
    index
}

/// Each key's slots in held order, in the map where the Rust has them.
fn hold(index: &mut VecqIndex, lists: HashMap<u64, Vec<usize>>) {
    index.key_to_slot = lists.iter().filter(|(_, list)| list.len() == 1).map(|(&key, list)| (key, list[0])).collect();
    index.key_to_slots = lists.into_iter().filter(|(_, list)| list.len() > 1).collect();
}

/// The slots of a key in held order: the Rust's list.
pub fn held_by(index: &VecqIndex, key: u64) -> Vec<usize> {
    match index.key_to_slot.get(&key) {
        Some(&slot) => vec![slot],
        None => index.key_to_slots.get(&key).cloned().unwrap_or_default(),
    }
}

fn rises(list: &[usize]) -> bool {
    list.windows(2).all(|pair| pair[0] < pair[1])
}

/// Puts every key's slots in rising order; whether that changed anything.
pub fn restore_order(index: &mut VecqIndex) -> bool {
    let changed = index.key_to_slots.values().any(|list| !rises(list));
    index.key_to_slots.values_mut().for_each(|list| list.sort_unstable());
    changed
}

/// What `compact` leaves behind: codes2 and scales2 move with their slots (ours).
pub fn move_residual(index: &mut VecqIndex, alive: &[bool]) {
    let block = index.bytes_per_vector();
    let kept = || (0..alive.len()).filter(|&slot| alive[slot]);
    index.codes2 = kept().flat_map(|slot| index.codes2[slot * block..(slot + 1) * block].to_vec()).collect();
    index.scales2 = kept().map(|slot| index.scales2[slot]).collect();
}

pub fn record_of(index: &VecqIndex) -> Record {
    Record {
        dim: index.dim(),
        working_dim: index.working_dim(),
        seed: index.seed(),
        bits: index.bits,
        residual: index.residual,
        n: index.n,
        live: index.live,
        cascade: index.signature.is_some(),
    }
}

/// Lays the Rust's slots over the first places, and their marks over all bits. The word that `keys` has where there is no key stays.
pub fn lay_over(index: &VecqIndex, arrays: &mut Arrays) {
    let patterns = |floats: &[f32]| -> Vec<u32> { floats.iter().map(|x| x.to_bits()).collect() };
    over(&index.codes, &mut arrays.codes);
    over(&patterns(&index.scales), &mut arrays.scales);
    if index.residual {
        over(&index.codes2, &mut arrays.codes2);
        over(&patterns(&index.scales2), &mut arrays.scales2);
    }
    arrays.set_marks(&index.alive);
    for slot in 0..index.n {
        arrays.keyed[slot] = index.keys[slot].is_some();
        arrays.held[slot] = 0;
        if let Some(key) = index.keys[slot] {
            arrays.keys[slot] = key;
            let position = held_by(index, key).iter().position(|&s| s == slot);
            arrays.held[slot] = position.expect("the Rust's list of a key has its slots") as u32;
        }
    }
}

fn over<T: Copy>(elements: &[T], array: &mut [T]) {
    array[..elements.len()].copy_from_slice(elements);
}
