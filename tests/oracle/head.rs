//! The head of a file, as document 01 has the byte form: what it says of the blocks behind it.
use crate::model::block_size;

pub struct Head {
    pub dim: usize,
    pub count: usize,
    pub working: usize,
    pub bits: u8,
    pub residual: bool,
    /// where the first block begins
    pub blocks: usize,
}

impl Head {
    /// None where document 01's 14, 15, 16, 17, 14 (width byte) or 18 comes of it.
    pub fn of(file: &[u8]) -> Option<Head> {
        if file.len() < 24 || &file[..4] != b"VECQ" {
            return None;
        }
        let long = |at: usize| u32::from_le_bytes(file[at..at + 4].try_into().expect("four bytes")) as usize;
        let short = |at: usize| u16::from_le_bytes([file[at], file[at + 1]]);
        let (version, dim, count) = (short(4), long(8), long(20));
        let working = match version {
            257 => dim,
            258..=261 if short(6) == 0 => dim,
            258..=261 if short(6) as usize <= dim => short(6) as usize,
            _ => return None,
        };
        let (bits, blocks) = match version {
            261 if file.len() == 24 || !(4..=6).contains(&file[24]) => return None,
            261 => (file[24], 25),
            _ => (4, 24),
        };
        Some(Head { dim, count, working, bits, residual: version == 260, blocks })
    }

    pub fn block_size(&self) -> usize {
        block_size(self.working, self.bits)
    }

    /// Where scales and codes of all slots end, and the key table begins if the version has one.
    pub fn keys(&self) -> usize {
        let stages = if self.residual { 2 } else { 1 };
        self.blocks + stages * self.count * (2 + self.block_size())
    }
}
