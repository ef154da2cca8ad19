//! Keys: the bytes by which fragments are filed, and their order.

use alloc::vec;
use alloc::vec::Vec;
use core::cmp::Ordering;

use crate::equivalence::Fragment;
use crate::ffi::{KeyAnswer, lent};
use crate::ids::{BlockId, OpId, RegionId};
use crate::refused::Refused;
use crate::renamed::Options;
use crate::store::Store;

impl KeyAnswer {
    /// How many bytes were written.
    #[inline]
    pub(crate) fn result(self) -> Result<usize, Refused> {
        match self.code {
            0 => Ok(self.length as usize),
            _ => Err(Refused::by(self.cause)),
        }
    }
}

/// The key of a fragment, in exactly as many bytes as it has.
fn key<I: Fragment>(store: &Store, fragment: I, options: Options) -> Result<Vec<u8>, Refused> {
    let mut key = vec![0; store.sound.key_length(fragment, options)?];
    key_into(store, fragment, options, &mut key)?;
    Ok(key)
}

/// The key of a fragment in lent bytes, and its length.
#[inline]
fn key_into<I: Fragment>(store: &Store, fragment: I, options: Options, key: &mut [u8]) -> Result<usize, Refused> {
    store.sound.key(I::SORT, fragment.number_in(store.eras()), options, key).result()
}

/// The key of an operation with all inside it: bytes that stand for its structure, by which it is filed.
///
/// Operations of a store that have the same key under one ignore rule are equal; equal ones have the same key (under the premise of the laws,
/// docs/AUDIT.md). What an operation names outside of itself stands in its key by its number in the store. Keys have an order, that of
/// [`compare_keys`], which byte slices have in Rust. Refused by 2.
///
/// ```
/// use std::collections::BTreeMap;
/// use warzhigo::{Ignore, NewOperation, Store, operation_key};
///
/// let mut store = Store::new();
/// let mut shelf = BTreeMap::new();
/// for location in [1, 2] {
///     let op = store.new_operation(&NewOperation { kind: 8, location, ..Default::default() })?;
///     shelf.entry(operation_key(&store, op, &Ignore::LOCATIONS)?).or_insert(op);
/// }
/// assert_eq!(shelf.len(), 1);
/// # Ok::<(), warzhigo::Refused>(())
/// ```
pub fn operation_key<'a>(store: &Store, op: OpId, ignore: impl Into<Options<'a>>) -> Result<Vec<u8>, Refused> {
    key(store, op, ignore.into())
}

/// The key of a block with all inside it; as [`operation_key`].
pub fn basic_block_key<'a>(store: &Store, block: BlockId, ignore: impl Into<Options<'a>>) -> Result<Vec<u8>, Refused> {
    key(store, block, ignore.into())
}

/// The key of a region with all inside it; as [`operation_key`].
pub fn region_key<'a>(store: &Store, region: RegionId, ignore: impl Into<Options<'a>>) -> Result<Vec<u8>, Refused> {
    key(store, region, ignore.into())
}

/// Writes the key of an operation into lent bytes, from the first on, and gives its length; bytes behind it are as they were. Refused by 2,
/// or by 13 where the key is longer, and then nothing is written. [`lent::key_bytes`](crate::lent::key_bytes) bytes suffice for any key, and
/// are the quickest: the key's length isn't looked for first.
///
/// ```
/// use warzhigo::{Ignore, NewOperation, Store, operation_key, operation_key_into};
///
/// let mut store = Store::new();
/// let op = store.new_operation(&NewOperation { kind: 8, ..Default::default() })?;
/// let mut bytes = [0; 100];
/// let length = operation_key_into(&store, op, &Ignore::NOTHING, &mut bytes)?;
/// assert_eq!(bytes[..length], operation_key(&store, op, &Ignore::NOTHING)?);
/// assert_eq!(operation_key_into(&store, op, &Ignore::NOTHING, &mut bytes[..length - 1]).unwrap_err().number(), 13);
/// # Ok::<(), warzhigo::Refused>(())
/// ```
#[inline]
pub fn operation_key_into<'a>(store: &Store, op: OpId, ignore: impl Into<Options<'a>>, key: &mut [u8]) -> Result<usize, Refused> {
    key_into(store, op, ignore.into(), key)
}

/// Writes the key of a block into lent bytes; as [`operation_key_into`].
#[inline]
pub fn basic_block_key_into<'a>(store: &Store, block: BlockId, ignore: impl Into<Options<'a>>, key: &mut [u8]) -> Result<usize, Refused> {
    key_into(store, block, ignore.into(), key)
}

/// Writes the key of a region into lent bytes; as [`operation_key_into`].
#[inline]
pub fn region_key_into<'a>(store: &Store, region: RegionId, ignore: impl Into<Options<'a>>, key: &mut [u8]) -> Result<usize, Refused> {
    key_into(store, region, ignore.into(), key)
}

/// Compares two keys byte by byte, a proper beginning first. Any bytes may be given. It is the order that byte slices have in Rust, so keys
/// may as well be sorted, or put into a `BTreeMap`, as they are.
///
/// ```
/// use std::cmp::Ordering;
/// use warzhigo::compare_keys;
///
/// assert_eq!(compare_keys(b"ab", b"b"), Ordering::Less);
/// assert_eq!(compare_keys(b"ab", b"a"), Ordering::Greater);
/// ```
#[inline]
pub fn compare_keys(lhs: &[u8], rhs: &[u8]) -> Ordering {
    lent::compare_keys(lhs, rhs).cmp(&0)
}

/// A fragment of any sort, by its id.
#[derive(Clone, Copy, PartialEq, Eq, Hash, Debug)]
pub enum FragmentId {
    /// An operation with all inside it.
    Op(OpId),
    /// A block with all inside it.
    Block(BlockId),
    /// A region with all inside it.
    Region(RegionId),
}

impl From<OpId> for FragmentId {
    fn from(op: OpId) -> FragmentId {
        FragmentId::Op(op)
    }
}

impl From<BlockId> for FragmentId {
    fn from(block: BlockId) -> FragmentId {
        FragmentId::Block(block)
    }
}

impl From<RegionId> for FragmentId {
    fn from(region: RegionId) -> FragmentId {
        FragmentId::Region(region)
    }
}

impl Store {
    /// The key of a fragment, by its id of whatever sort; as [`operation_key`].
    ///
    /// ```
    /// use warzhigo::{Ignore, NewOperation, Store, operation_key};
    ///
    /// let mut store = Store::new();
    /// let op = store.new_operation(&NewOperation { kind: 8, ..Default::default() })?;
    /// assert_eq!(store.key(op, &Ignore::NOTHING)?, operation_key(&store, op, &Ignore::NOTHING)?);
    /// # Ok::<(), warzhigo::Refused>(())
    /// ```
    pub fn key<'a>(&self, fragment: impl Into<FragmentId>, ignore: impl Into<Options<'a>>) -> Result<Vec<u8>, Refused> {
        let options = ignore.into();
        match fragment.into() {
            FragmentId::Op(op) => key(self, op, options),
            FragmentId::Block(block) => key(self, block, options),
            FragmentId::Region(region) => key(self, region, options),
        }
    }

    /// Writes the key of a fragment into lent bytes; as [`operation_key_into`].
    pub fn key_into<'a>(&self, fragment: impl Into<FragmentId>, ignore: impl Into<Options<'a>>, key: &mut [u8]) -> Result<usize, Refused> {
        let options = ignore.into();
        match fragment.into() {
            FragmentId::Op(op) => key_into(self, op, options, key),
            FragmentId::Block(block) => key_into(self, block, options, key),
            FragmentId::Region(region) => key_into(self, region, options, key),
        }
    }
}
