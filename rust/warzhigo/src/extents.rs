//! How large a key will be: what to reserve for a fragment before it is filed.

use crate::equivalence::{Fragment, Ignore};
use crate::ffi::ExtentAnswer;
use crate::ids::{BlockId, OpId, RegionId};
use crate::keys::FragmentId;
use crate::refused::Refused;
use crate::store::Store;

/// How large a fragment is, under an ignore rule. Types change none of it.
///
/// An equal comparison of the fragment from an empty mapping pairs as many operations and blocks as are counted here.
#[derive(Clone, Copy, PartialEq, Eq, Hash, Debug)]
pub struct Extent {
    /// How many bytes its key has: exactly as many as are written.
    pub bytes: usize,
    /// How many values it defines.
    pub values: u32,
    /// How many blocks.
    pub blocks: u32,
    /// How many operations, its own included.
    pub operations: u32,
    /// The most regions between it, itself not counted, and an operation inside it; 0 where there is none.
    pub nesting: u32,
}

impl ExtentAnswer {
    #[inline]
    pub(crate) fn result(self) -> Result<Extent, Refused> {
        let ExtentAnswer { bytes, values, blocks, operations, nesting, code, cause } = self;
        match code {
            0 => Ok(Extent { bytes: bytes as usize, values, blocks, operations, nesting }),
            _ => Err(Refused::by(cause)),
        }
    }
}

/// The extent of a fragment.
#[inline]
pub(crate) fn extent<I: Fragment>(store: &Store, fragment: I, ignore: &Ignore) -> Result<Extent, Refused> {
    store.sound.extent(I::SORT, fragment.number_in(store.eras()), ignore).result()
}

/// How large an operation is with all inside it: how long its key will be, how many values, blocks and operations it defines, and how deep it
/// is nested. Nothing is written. Refused by 2.
///
/// ```
/// use warzhigo::{Extent, Ignore, NewOperation, Store, operation_extent, operation_key};
///
/// let mut store = Store::new();
/// let op = store.new_operation(&NewOperation { kind: 8, regions: 1, ..Default::default() })?;
/// let extent = operation_extent(&store, op, &Ignore::NOTHING)?;
/// assert_eq!(extent, Extent { bytes: 56, values: 0, blocks: 0, operations: 1, nesting: 0 });
/// assert_eq!(operation_key(&store, op, &Ignore::NOTHING)?.len(), extent.bytes);
/// # Ok::<(), warzhigo::Refused>(())
/// ```
pub fn operation_extent(store: &Store, op: OpId, ignore: &Ignore) -> Result<Extent, Refused> {
    extent(store, op, ignore)
}

/// How large a block is with all inside it; as [`operation_extent`].
pub fn basic_block_extent(store: &Store, block: BlockId, ignore: &Ignore) -> Result<Extent, Refused> {
    extent(store, block, ignore)
}

/// How large a region is with all inside it; as [`operation_extent`].
pub fn region_extent(store: &Store, region: RegionId, ignore: &Ignore) -> Result<Extent, Refused> {
    extent(store, region, ignore)
}

impl Store {
    /// How large a fragment is, by its id of whatever sort; as [`operation_extent`].
    ///
    /// ```
    /// use warzhigo::{Ignore, NewOperation, Store};
    ///
    /// let mut store = Store::new();
    /// let op = store.new_operation(&NewOperation { kind: 8, ..Default::default() })?;
    /// let mut bytes = vec![0; store.extent(op, &Ignore::NOTHING)?.bytes];
    /// assert_eq!(store.key_into(op, &Ignore::NOTHING, &mut bytes)?, bytes.len());
    /// # Ok::<(), warzhigo::Refused>(())
    /// ```
    pub fn extent(&self, fragment: impl Into<FragmentId>, ignore: &Ignore) -> Result<Extent, Refused> {
        match fragment.into() {
            FragmentId::Op(op) => extent(self, op, ignore),
            FragmentId::Block(block) => extent(self, block, ignore),
            FragmentId::Region(region) => extent(self, region, ignore),
        }
    }
}
