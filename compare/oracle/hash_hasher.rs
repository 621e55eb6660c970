//! Stands in for the crate hash-hasher: a hasher that returns the u64 it was given.

use std::hash::{BuildHasherDefault, Hasher};

#[derive(Debug, Default, Clone, Copy)]
pub struct HashHasher(u64);

pub type HashBuildHasher = BuildHasherDefault<HashHasher>;

impl Hasher for HashHasher {
    fn write(&mut self, _: &[u8]) {
        unreachable!("only a u64 is hashed");
    }

    fn write_u64(&mut self, value: u64) {
        self.0 = value;
    }

    fn finish(&self) -> u64 {
        self.0
    }
}
