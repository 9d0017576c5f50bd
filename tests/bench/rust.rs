//! The two builds of the Rust core, behind one trait.
use crate::sys::Raw;

pub trait Rust {
    fn search(&self, query: &[f32], k: usize) -> Vec<(usize, f32)>;
    fn search_keyed(&self, query: &[f32], k: usize) -> Vec<(u64, f32)>;
    fn search_cascade(&self, query: &[f32], k: usize, r: usize) -> Vec<(usize, f32)>;
    fn enable_cascade(&mut self);
    fn add(&mut self, vector: &[f32]) -> usize;
    fn add_keyed(&mut self, key: u64, vector: &[f32]) -> usize;
    fn add_keyed_multi(&mut self, key: u64, vector: &[f32]) -> usize;
    fn compact(&mut self);
    fn to_bytes(&self) -> Vec<u8>;
    fn copy(&self) -> Box<dyn Rust>;
    /// Takes the last slots back until `n` are left. They are live, and the last that were added to their keys.
    fn cut(&mut self, n: usize);
    /// Where the index differs from a record and arrays; nothing where it doesn't.
    fn difference(&self, ours: &Raw) -> Option<String>;
}

/// A build: how its indexes are made, and its transform.
pub struct Build {
    pub index_of: fn(&Raw) -> Box<dyn Rust>,
    pub from_bytes: fn(&[u8]) -> Option<Box<dyn Rust>>,
    pub fwht: fn(&mut [f32]),
}

/// The scalar branches, as document 01 compares.
pub const SCALAR: Build = Build { index_of: scalar::index_of, from_bytes: scalar::from_bytes, fwht: scalar::fwht };
/// As published: AVX2 where the machine has it.
pub const PUBLISHED: Build = Build { index_of: published::index_of, from_bytes: published::from_bytes, fwht: published::fwht };

mod scalar {
    use vecq_scalar as vecq;
    include!("twin.rs");
}

mod published {
    use vecq_published as vecq;
    include!("twin.rs");
}
