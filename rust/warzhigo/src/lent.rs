//! The offered calls on words that the caller lends, by plain numbers: any words, lengths and numbers may be given, each call tests what
//! it is lent, and a refused one has changed nothing. [`Store`](crate::Store) and [`Mapping`](crate::Mapping) need no such test, and are
//! the quicker way.
//!
//! A store is [`store_words`] words, all 0 when empty; a mapping [`mapping_words`] words, all 4294967295 when empty: docs/STORE.md. A list of
//! renamed types is words too: old, present, old, present; it may be empty.
//!
//! ```
//! use warzhigo::lent::{self, NewOperation};
//!
//! let mut store = vec![0; lent::store_words()];
//! let new = NewOperation { kind: 8, ..Default::default() };
//! assert_eq!(lent::new_operation(&mut store, &new), Ok(0));
//! assert_eq!(lent::new_operation(&mut store[1..], &new).unwrap_err().number(), 1);
//! ```

use crate::equivalence::{Ignore, Sort};
use crate::extents::Extent;
use crate::ffi::{Output, lent};
use crate::refused::Refused;
use crate::runs::Run;
use crate::store::Attribute;

/// What a new operation has, by numbers.
pub type NewOperation<'a> = crate::store::NewOperation<'a, u32, u32>;

/// What an attribute is set on, by number.
pub type Owner = crate::store::Owner<u32, u32>;

/// What a comparison says, by numbers.
pub type EqResult = crate::equivalence::EqResult<u32, u32, u32>;

/// What `twins`, `sums` and `convert` answer.
#[derive(Clone, Copy, PartialEq, Eq, Debug)]
pub enum Listed {
    /// So many bytes were printed, from the first lent one on; those behind them are as they were.
    Printed(usize),
    /// A store or a mapping of wrong length was lent: 1 or 8. `convert` is lent none.
    Refused(Refused),
    /// Fewer than [`output_bytes`] bytes were lent for the output, or to `convert` fewer than [`converted_bytes`].
    NoRoom,
}

impl Output {
    pub(crate) fn listed(self) -> Listed {
        match self.code {
            0 => Listed::Printed(self.bytes),
            1 => Listed::Refused(Refused::by(self.cause)),
            _ => Listed::NoRoom,
        }
    }
}

/// The words of a store.
pub fn store_words() -> usize {
    lent::store_words()
}

/// The words of a mapping.
pub fn mapping_words() -> usize {
    lent::mapping_words()
}

/// The bytes that [`twins`] and [`sums`] want for what they print.
pub fn output_bytes() -> usize {
    lent::output_bytes()
}

/// The bytes that [`convert`] wants for what it prints.
pub fn converted_bytes() -> usize {
    lent::converted_bytes()
}

/// Bytes that every key fits into.
pub fn key_bytes() -> usize {
    lent::key_bytes()
}

/// Are these words a sound store?
pub fn is_sound(store: &[u32]) -> bool {
    lent::is_sound(store)
}

/// Makes an operation, and gives its number. Refused by 1, 2, 4, 5 or 3.
pub fn new_operation(store: &mut [u32], new: &NewOperation<'_>) -> Result<u32, Refused> {
    lent::new_operation(store, new).accepted()
}

/// Makes a block, and gives its number. Refused by 1, 2, 4 or 3.
pub fn new_block(store: &mut [u32], region: u32, location: u32, argument_types: &[u32]) -> Result<u32, Refused> {
    lent::new_block(store, region, location, argument_types).accepted()
}

/// Sets an attribute. Refused by 1, 6, 2, 4 or 3, or by 17 where a key that is there would be replaced, and that can't be remembered.
pub fn set_attribute(store: &mut [u32], owner: Owner, attribute: Attribute) -> Result<(), Refused> {
    lent::set_attribute(store, owner, attribute).accepted().map(|_| ())
}

/// Sets an operand. Refused by 1, 2, 7 or 17.
pub fn set_operand(store: &mut [u32], op: u32, index: u32, value: u32) -> Result<(), Refused> {
    lent::set_operand(store, op, index, value).accepted().map(|_| ())
}

/// Sets a mark, 1 to 8; as [`Store::mark`](crate::Store::mark). Refused by 1 or 16.
pub fn set_mark(store: &mut [u32], mark: u32) -> Result<(), Refused> {
    lent::set_mark(store, mark).accepted().map(|_| ())
}

/// Goes back to a mark; as [`Store::go_back`](crate::Store::go_back). Refused by 1 or 16. A lent mapping may name what has gone, and is
/// refused by 8 then.
pub fn go_back(store: &mut [u32], mark: u32) -> Result<(), Refused> {
    lent::go_back(store, mark).accepted().map(|_| ())
}

/// Copies an operation with all inside it, and gives the copy's number; as [`Store::clone_operation`](crate::Store::clone_operation). Refused
/// by 1, 8, 2, 18, 19, 5 or 3.
///
/// ```
/// use warzhigo::lent::{self, NewOperation};
///
/// let (mut store, mut mapping) = (vec![0; lent::store_words()], vec![u32::MAX; lent::mapping_words()]);
/// lent::new_operation(&mut store, &NewOperation { result_types: &[3], ..Default::default() })?;
/// assert_eq!(lent::clone_operation(&mut store, 0, None, &mut mapping), Ok(1));
/// assert_eq!(mapping[..2], [1, u32::MAX], "value 0 corresponds to value 1");
/// # Ok::<(), warzhigo::Refused>(())
/// ```
pub fn clone_operation(store: &mut [u32], op: u32, parent: Option<u32>, mapping: &mut [u32]) -> Result<u32, Refused> {
    lent::clone_operation(store, op, parent, mapping).accepted()
}

/// Compares two operations. Refused by 1, 8, 14 or 2.
pub fn operation_eq(store: &[u32], types: &[u32], mapping: &mut [u32], lhs: u32, rhs: u32, ignore: &Ignore) -> Result<EqResult, Refused> {
    lent::compare(Sort::Op, store, types, mapping, (lhs, rhs), ignore).result()
}

/// Compares two blocks. Refused by 1, 8, 14 or 2.
pub fn basic_block_eq(store: &[u32], types: &[u32], mapping: &mut [u32], lhs: u32, rhs: u32, ignore: &Ignore) -> Result<EqResult, Refused> {
    lent::compare(Sort::Block, store, types, mapping, (lhs, rhs), ignore).result()
}

/// Compares two regions. Refused by 1, 8, 14 or 2.
pub fn region_eq(store: &[u32], types: &[u32], mapping: &mut [u32], lhs: u32, rhs: u32, ignore: &Ignore) -> Result<EqResult, Refused> {
    lent::compare(Sort::Region, store, types, mapping, (lhs, rhs), ignore).result()
}

/// The hash of an operation. Refused by 1, 14 or 2.
pub fn operation_hash(store: &[u32], types: &[u32], op: u32, ignore: &Ignore) -> Result<u64, Refused> {
    lent::hash(Sort::Op, store, types, op, ignore).result()
}

/// The hash of a block. Refused by 1, 14 or 2.
pub fn basic_block_hash(store: &[u32], types: &[u32], block: u32, ignore: &Ignore) -> Result<u64, Refused> {
    lent::hash(Sort::Block, store, types, block, ignore).result()
}

/// The hash of a region. Refused by 1, 14 or 2.
pub fn region_hash(store: &[u32], types: &[u32], region: u32, ignore: &Ignore) -> Result<u64, Refused> {
    lent::hash(Sort::Region, store, types, region, ignore).result()
}

/// Writes the key of an operation into lent bytes, from the first on, and gives its length; bytes behind it are as they were. Refused by 1,
/// 14, 2 or 13, and then nothing is written.
pub fn operation_key(store: &[u32], types: &[u32], op: u32, ignore: &Ignore, key: &mut [u8]) -> Result<usize, Refused> {
    lent::key(Sort::Op, store, types, op, ignore, key).result()
}

/// Writes the key of a block. Refused by 1, 14, 2 or 13.
pub fn basic_block_key(store: &[u32], types: &[u32], block: u32, ignore: &Ignore, key: &mut [u8]) -> Result<usize, Refused> {
    lent::key(Sort::Block, store, types, block, ignore, key).result()
}

/// Writes the key of a region. Refused by 1, 14, 2 or 13.
pub fn region_key(store: &[u32], types: &[u32], region: u32, ignore: &Ignore, key: &mut [u8]) -> Result<usize, Refused> {
    lent::key(Sort::Region, store, types, region, ignore, key).result()
}

/// How large an operation is with all inside it; as [`operation_extent`](crate::operation_extent). Refused by 1 or 2.
pub fn operation_extent(store: &[u32], op: u32, ignore: &Ignore) -> Result<Extent, Refused> {
    lent::extent(Sort::Op, store, op, ignore).result()
}

/// How large a block is. Refused by 1 or 2.
pub fn basic_block_extent(store: &[u32], block: u32, ignore: &Ignore) -> Result<Extent, Refused> {
    lent::extent(Sort::Block, store, block, ignore).result()
}

/// How large a region is. Refused by 1 or 2.
pub fn region_extent(store: &[u32], region: u32, ignore: &Ignore) -> Result<Extent, Refused> {
    lent::extent(Sort::Region, store, region, ignore).result()
}

/// Two equal runs of operations in a block; as [`Store::repeated_run`](crate::Store::repeated_run). Refused by 1, 14, 2 or 15.
pub fn repeated_run(store: &[u32], types: &[u32], block: u32, length: u32, ignore: &Ignore) -> Result<Option<Run>, Refused> {
    lent::repeated_run(store, types, block, length, ignore).result()
}

/// Are two operations independent? As [`Store::independent`](crate::Store::independent). Refused by 1 or 2.
pub fn operations_independent(store: &[u32], lhs: u32, rhs: u32) -> Result<bool, Refused> {
    lent::independent(Sort::Op, store, (lhs, rhs)).result()
}

/// Are two blocks independent? Refused by 1 or 2.
pub fn basic_blocks_independent(store: &[u32], lhs: u32, rhs: u32) -> Result<bool, Refused> {
    lent::independent(Sort::Block, store, (lhs, rhs)).result()
}

/// Are two regions independent? Refused by 1 or 2.
pub fn regions_independent(store: &[u32], lhs: u32, rhs: u32) -> Result<bool, Refused> {
    lent::independent(Sort::Region, store, (lhs, rhs)).result()
}

/// Writes the twin of each operation into lent words, or 4294967295 where it has none, from the first word on, and gives how many operations
/// there are; words behind them are as they were. As [`Store::twins_of_operations`](crate::Store::twins_of_operations). Refused by 1 or 14, or
/// by 13 where the words are fewer than the operations, and then nothing is written; 512 suffice.
///
/// ```
/// use warzhigo::Ignore;
/// use warzhigo::lent::{self, NewOperation};
///
/// let mut store = vec![0; lent::store_words()];
/// for kind in [8, 9, 8] {
///     lent::new_operation(&mut store, &NewOperation { kind, ..Default::default() })?;
/// }
/// let mut twins = [7; 4];
/// assert_eq!(lent::twins_of_operations(&store, &[], &Ignore::NOTHING, &mut twins), Ok(3));
/// assert_eq!(twins, [u32::MAX, u32::MAX, 0, 7]);
/// # Ok::<(), warzhigo::Refused>(())
/// ```
pub fn twins_of_operations(store: &[u32], types: &[u32], ignore: &Ignore, twins: &mut [u32]) -> Result<usize, Refused> {
    lent::twins_of_operations(store, types, ignore, twins).result()
}

/// The program [`twins`](crate::twins) in lent buffers: store and mapping may hold anything, and are emptied first. Afterwards the store is
/// what the listing's lines have built, up to a refused one, and the mapping is empty; where the first line is refused, both are as they were.
pub fn twins(listing: &[u8], store: &mut [u32], mapping: &mut [u32], out: &mut [u8]) -> Listed {
    lent::twins(listing, store, mapping, out).listed()
}

/// The program [`sums`](crate::sums) in lent buffers; as [`twins`].
pub fn sums(listing: &[u8], store: &mut [u32], out: &mut [u8]) -> Listed {
    lent::sums(listing, store, out).listed()
}

/// The program [`convert`](crate::convert) in lent bytes: a listing, or a refused line, is printed from the first on, and the bytes behind it
/// are as they were.
///
/// ```
/// use warzhigo::lent::{self, Listed};
///
/// let mut out = vec![0; lent::converted_bytes()];
/// assert_eq!(lent::convert(b"opstore,1\nb,0,9,5,0\n", &mut out), Listed::Printed(18));
/// assert_eq!(out[..18], *b"opstore,2\nb,0,5,0\n");
/// assert_eq!(lent::convert(b"opstore,1\n", &mut out[1..]), Listed::NoRoom);
/// ```
pub fn convert(listing: &[u8], out: &mut [u8]) -> Listed {
    lent::convert(listing, out).listed()
}
