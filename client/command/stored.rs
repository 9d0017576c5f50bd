//! An index in its file. Every command reads the file anew, so what it answers is what another house with the same bytes gets.
use crate::fault::{Done, Fault};
use std::fs;
use std::path::Path;
use vecq::Index;

pub struct Stored {
    pub index: Index,
    pub bytes: Vec<u8>,
}

impl Stored {
    pub fn read(path: &Path) -> Done<Stored> {
        let bytes = fs::read(path).map_err(Fault::at(path))?;
        let index = Index::from_bytes(&bytes, 0).map_err(Fault::on(path.display()))?;
        Ok(Stored { index, bytes })
    }
}
