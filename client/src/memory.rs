//! How long the arrays are that the library is lent.
use crate::refusal::Error;
use crate::sys::{Arrays, Head};

/// No index has more slots, and no vector more entries (document 01).
pub const MOST_SLOTS: usize = 65_536;
const MOST_ENTRIES: usize = 4096;
/// So many live marks are in a word.
const MARKS: usize = 64;

/// What a slot takes.
pub struct SlotSize {
    block: usize,
    residual: bool,
}

impl SlotSize {
    /// Codes of `bits` each for the entries of a vector, padded to a power of two.
    pub fn new(working_dim: usize, bits: usize, residual: bool) -> SlotSize {
        let padded = working_dim.clamp(1, MOST_ENTRIES).next_power_of_two();
        SlotSize { block: (padded * bits).div_ceil(8), residual }
    }

    pub fn stated(head: &Head) -> SlotSize {
        SlotSize::new(head.working_dim as usize, head.bits as usize, head.residual)
    }
}

/// Makes every array hold at least so many slots, up to the most that there may be. What they hold stays.
pub fn hold(arrays: &mut Arrays, slots: usize, size: &SlotSize) -> Result<(), Error> {
    let slots = slots.min(MOST_SLOTS);
    let bytes = slots * size.block;
    lengthen(&mut arrays.codes, bytes)?;
    lengthen(&mut arrays.scales, slots)?;
    lengthen(&mut arrays.keys, slots)?;
    lengthen(&mut arrays.keyed, slots)?;
    lengthen(&mut arrays.held, slots)?;
    lengthen(&mut arrays.alive, slots.div_ceil(MARKS))?;
    if size.residual {
        lengthen(&mut arrays.codes2, bytes)?;
        lengthen(&mut arrays.scales2, slots)?;
    }
    lengthen(&mut arrays.years, slots)
}

fn lengthen<T: Clone + Default>(array: &mut Vec<T>, length: usize) -> Result<(), Error> {
    if array.len() < length {
        array.try_reserve_exact(length - array.len())?;
        array.resize(length, T::default());
    }
    Ok(())
}

/// So many places, each the default.
pub fn places<T: Clone + Default>(count: usize) -> Result<Vec<T>, Error> {
    let mut made = Vec::new();
    lengthen(&mut made, count)?;
    Ok(made)
}
