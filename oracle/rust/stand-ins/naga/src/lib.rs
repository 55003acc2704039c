//! Stand-in for naga: its hash map, with the multiplicative hash that it uses for speed.
//! The tracker only inserts, gets and removes by key, so the hash cannot be seen.
use std::{
    collections::HashMap,
    hash::{BuildHasherDefault, Hasher},
};

pub type FastHashMap<K, T> = HashMap<K, T, BuildHasherDefault<MultiplyHasher>>;

#[derive(Default)]
pub struct MultiplyHasher(u64);

impl Hasher for MultiplyHasher {
    fn finish(&self) -> u64 {
        self.0
    }

    fn write(&mut self, bytes: &[u8]) {
        for &byte in bytes {
            self.write_usize(byte as usize);
        }
    }

    fn write_usize(&mut self, value: usize) {
        self.0 = (self.0.rotate_left(5) ^ value as u64).wrapping_mul(0x517c_c1b7_2722_0a95);
    }
}
