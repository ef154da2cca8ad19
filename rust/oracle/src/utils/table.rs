//! Stands in for pliron's utils/table.rs and the crates behind it: rustc-hash, hashbrown and
//! indexmap.

use core::{
    fmt,
    hash::{BuildHasherDefault, Hash, Hasher},
};
use std::collections::HashMap;

/// What equivalence.rs hashes by: the published 64-bit FNV-1a.
pub struct FxHasher(u64);

impl Default for FxHasher {
    fn default() -> Self {
        FxHasher(14695981039346656037)
    }
}

/// FNV's prime, and its powers modulo 2^64.
const PRIME: u64 = 1099511628211;
const PRIME_3: u64 = PRIME.wrapping_pow(3);
const PRIME_4: u64 = PRIME.wrapping_pow(4);
const PRIME_8: u64 = PRIME.wrapping_pow(8);

impl FxHasher {
    /// Takes a byte, and with it the bytes of 0 behind it, which only multiply: `power` is the
    /// prime's for all of them.
    fn add(&mut self, byte: u64, power: u64) {
        self.0 = (self.0 ^ byte).wrapping_mul(power);
    }
}

/// The methods through which numbers come, each lowest byte first on every machine, and a count
/// always as 8 bytes. The upper bytes of a small number are one product, as in Warzhigo: where the
/// two are measured beside each other, both hash in the same way.
impl Hasher for FxHasher {
    fn write(&mut self, bytes: &[u8]) {
        for byte in bytes {
            self.add(u64::from(*byte), PRIME);
        }
    }

    fn write_u32(&mut self, word: u32) {
        match word {
            0..=0xff => self.add(word.into(), PRIME_4),
            0x100..=0xffff => {
                self.add((word & 0xff).into(), PRIME);
                self.add((word >> 8).into(), PRIME_3);
            }
            _ => self.write(&word.to_le_bytes()),
        }
    }

    fn write_usize(&mut self, count: usize) {
        match count as u64 {
            count @ 0..=0xff => self.add(count, PRIME_8),
            count @ 0x100..=0xffff_ffff => {
                self.write_u32(count as u32);
                self.0 = self.0.wrapping_mul(PRIME_4);
            }
            count => self.write(&count.to_le_bytes()),
        }
    }

    fn finish(&self) -> u64 {
        self.0
    }
}

/// Finds the buckets of an `HMap`, and is never seen in an answer: rustc-hash's step for a word,
/// which is one product.
#[derive(Default)]
pub struct BucketHasher(u64);

impl BucketHasher {
    fn add(&mut self, word: u64) {
        self.0 = self.0.wrapping_add(word).wrapping_mul(0xf1357aea2e62a9c5);
    }
}

impl Hasher for BucketHasher {
    /// Keys feed their number by `write_u32`; the trait asks for this one too.
    fn write(&mut self, bytes: &[u8]) {
        for byte in bytes {
            self.add(u64::from(*byte));
        }
    }

    fn write_u32(&mut self, word: u32) {
        self.add(u64::from(word));
    }

    fn finish(&self) -> u64 {
        self.0.rotate_left(26)
    }
}

/// std's map, which is hashbrown's, as pliron's is.
pub struct HMap<K, V>(HashMap<K, V, BuildHasherDefault<BucketHasher>>);

impl<K, V> Default for HMap<K, V> {
    fn default() -> Self {
        HMap(HashMap::default())
    }
}

impl<K, V> HMap<K, V> {
    pub fn len(&self) -> usize {
        self.0.len()
    }
}

impl<K: Eq + Hash, V> HMap<K, V> {
    pub fn insert(&mut self, key: K, value: V) -> Option<V> {
        self.0.insert(key, value)
    }

    pub fn get(&self, key: &K) -> Option<&V> {
        self.0.get(key)
    }
}

/// Without the entries, which have no order.
impl<K, V> fmt::Debug for HMap<K, V> {
    fn fmt(&self, f: &mut fmt::Formatter<'_>) -> fmt::Result {
        f.debug_struct("HMap").field("len", &self.len()).finish()
    }
}

/// Goes through its entries in order of insertion, as indexmap does. It holds the attributes of one
/// owner, at most 8, so a search from the front is quick.
#[derive(Clone)]
pub struct IMap<K, V>(Vec<(K, V)>);

impl<K, V> Default for IMap<K, V> {
    fn default() -> Self {
        IMap(Vec::new())
    }
}

impl<K: Eq, V> IMap<K, V> {
    pub fn len(&self) -> usize {
        self.0.len()
    }

    pub fn iter(&self) -> impl Iterator<Item = (&K, &V)> {
        self.0.iter().map(|(key, value)| (key, value))
    }

    pub fn get(&self, key: &K) -> Option<&V> {
        let mut entries = self.0.iter();
        entries.find(|(k, _)| k == key).map(|(_, value)| value)
    }

    pub fn insert(&mut self, key: K, value: V) {
        match self.0.iter_mut().find(|(k, _)| *k == key) {
            Some(entry) => entry.1 = value,
            None => self.0.push((key, value)),
        }
    }
}

impl<K: Eq, V> FromIterator<(K, V)> for IMap<K, V> {
    fn from_iter<I: IntoIterator<Item = (K, V)>>(entries: I) -> Self {
        let mut map = IMap::default();
        for (key, value) in entries {
            map.insert(key, value);
        }
        map
    }
}
