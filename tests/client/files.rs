//! Files put together by document 01's byte form, and not by the library.
use crate::random::Random;

/// What a file states.
#[derive(Clone)]
pub struct Stated {
    pub version: u16,
    pub dim: u32,
    /// 0 where it equals dim
    pub working_dim: u16,
    /// The width byte, which versions 261 and 264 alone have.
    pub width: u8,
    pub count: u32,
    pub keys: Vec<(u32, u64)>,
    /// The year of each slot, which versions 262 to 264 alone have.
    pub years: Vec<u16>,
}

impl Stated {
    /// The years are from 2000 to 2049: no slot is kept for good.
    pub fn new(version: u16, dim: u32, width: u8, count: u32) -> Stated {
        Stated { version, dim, working_dim: 0, width, count, keys: Vec::new(), years: (0..count).map(|slot| 2000 + (slot % 50) as u16).collect() }
    }

    fn has_width(&self) -> bool {
        matches!(self.version, 261 | 264)
    }

    fn stages(&self) -> usize {
        if matches!(self.version, 260 | 263) { 2 } else { 1 }
    }

    /// "Bytes per vector: padded times width, over 8, rounded up."
    fn block(&self) -> usize {
        let working = if self.working_dim == 0 { self.dim } else { self.working_dim as u32 };
        let width = if self.has_width() { self.width as usize } else { 4 };
        (working.next_power_of_two() as usize * width).div_ceil(8)
    }

    /// Scales between 0.0625 and 1, codes drawn.
    pub fn bytes(&self, random: &mut Random) -> Vec<u8> {
        let mut file = b"VECQ".to_vec();
        file.extend(self.version.to_le_bytes());
        file.extend(self.working_dim.to_le_bytes());
        file.extend(self.dim.to_le_bytes());
        file.extend(1u64.to_le_bytes());
        file.extend(self.count.to_le_bytes());
        if self.has_width() {
            file.push(self.width);
        }
        for _ in 0..self.stages() {
            (0..self.count).for_each(|_| file.extend((0x2C00 + random.below(0x1000) as u16).to_le_bytes()));
            file.extend((0..self.count as usize * self.block()).map(|_| random.word() as u8));
        }
        file.extend((self.keys.len() as u32).to_le_bytes());
        for (slot, key) in &self.keys {
            file.extend(slot.to_le_bytes());
            file.extend(key.to_le_bytes());
        }
        if self.version >= 262 {
            self.years.iter().for_each(|year| file.extend(year.to_le_bytes()));
        }
        file
    }

    /// Where the first scale stands.
    pub fn first_scale(&self) -> usize {
        if self.has_width() { 25 } else { 24 }
    }
}

/// One key has every slot.
pub fn one_key(count: u32) -> Vec<(u32, u64)> {
    (0..count).map(|slot| (slot, 5)).collect()
}

/// Keys in no order, some with several slots, some slots without.
pub fn scattered_keys(count: u32) -> Vec<(u32, u64)> {
    let mut random = Random::new(count as u64);
    (0..count).filter(|slot| slot % 5 != 0).map(|slot| (slot, if slot % 7 == 0 { 5 } else { random.word() })).collect()
}
