//! Every call over small indexes whose arrays are just as long as their slots need, for a tool that watches each access to memory.
use crate::calls::every_call;
use crate::files::{scattered_keys, Stated};
use crate::random::Random;
use crate::same;
use vecq::Index;

pub fn check() {
    for (version, width) in [(259, 4), (260, 4), (261, 5), (261, 6), (262, 4), (263, 4), (264, 5), (264, 6)] {
        for (dim, count) in [(1, 9), (2, 1), (3, 17), (17, 5), (33, 16)] {
            let mut stated = Stated::new(version, dim, width, count);
            stated.keys = scattered_keys(count);
            every_call(&format!("version {version}, width {width}, dim {dim}, {count} slots"), &stated);
        }
        let mut stated = Stated::new(version, 3, width, 2);
        stated.keys = scattered_keys(2);
        cut_files(&stated.bytes(&mut Random::new(9)));
    }
}

/// A file that ends early, in memory that ends there too.
fn cut_files(file: &[u8]) {
    for length in 0..file.len() {
        let cut = file[..length].to_vec();
        same::equal(&format!("a file cut to {length} bytes"), Index::from_bytes(&cut, 0).err().and_then(|error| error.number()), Some(14));
    }
}
