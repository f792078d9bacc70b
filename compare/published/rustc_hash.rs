//! Stands in for the crate of the same name: std's maps under its type names, with its way of hashing (a rotation, an
//! exclusive or and a product for each word), so that times are comparable. The published files only look names up in these
//! maps and never walk over them, so any hasher gives the same answers.
use std::collections::{HashMap, HashSet};
use std::hash::{BuildHasherDefault, Hasher};

pub type FxHashMap<K, V> = HashMap<K, V, BuildHasherDefault<FxHasher>>;
pub type FxHashSet<K> = HashSet<K, BuildHasherDefault<FxHasher>>;

#[derive(Default, Clone, Copy)]
pub struct FxHasher(u64);

impl FxHasher {
    #[inline]
    fn add(&mut self, word: u64) {
        self.0 = (self.0.rotate_left(5) ^ word).wrapping_mul(0x517c_c1b7_2722_0a95);
    }
}

impl Hasher for FxHasher {
    #[inline]
    fn write(&mut self, bytes: &[u8]) {
        let mut words = bytes.chunks_exact(8);
        for word in &mut words {
            self.add(u64::from_le_bytes(word.try_into().unwrap()));
        }
        let mut rest = words.remainder();
        if let Some((four, after)) = rest.split_first_chunk::<4>() {
            self.add(u32::from_le_bytes(*four) as u64);
            rest = after;
        }
        for byte in rest {
            self.add(*byte as u64);
        }
    }

    #[inline]
    fn write_u8(&mut self, byte: u8) {
        self.add(byte as u64);
    }

    #[inline]
    fn finish(&self) -> u64 {
        self.0
    }
}
