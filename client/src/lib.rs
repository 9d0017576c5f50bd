//! A keyed vector index over the proved library: the library answers, this crate owns the memory. A list that is to be filed comes from an index that was
//! read (`Index::from_bytes`): memory has scales of 32 bits, a file halves of 16.
#![deny(unsafe_code)]
mod index;
mod memory;
mod refusal;
#[allow(unsafe_code)]
#[allow(dead_code)] // the benchmark calls more of it
mod sys;

pub use index::{HeldSlot, Hit, Index, KeyHit, MOST_SLOTS};
pub use refusal::{Error, Refusal};
pub use sys::abi;
