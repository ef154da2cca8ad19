//! Comparison and hash, with the names and the order of parameters that pliron's `irbuild::equivalence` has.

use core::fmt;

use crate::ffi::{HashAnswer, Verdict};
use crate::ids::{BlockId, Id, OpId, RegionId};
use crate::mapping::Mapping;
use crate::refused::Refused;
use crate::renamed::Options;
use crate::store::Store;

/// What is ignored when fragments are compared or hashed, or their keys are written.
#[derive(Clone, Copy, PartialEq, Eq, Hash, Default, Debug)]
pub struct Ignore {
    /// Are locations ignored?
    pub locations: bool,
    /// An attribute is ignored when the bit of its kind is set, unless it is [inherent](crate::Inherent); bit 0 is the lowest.
    pub bits: u64,
}

impl Ignore {
    /// Everything counts.
    pub const NOTHING: Ignore = Ignore { locations: false, bits: 0 };

    /// Locations are ignored, and everything else counts.
    pub const LOCATIONS: Ignore = Ignore { locations: true, bits: 0 };

    /// The same, and attributes of this kind are ignored too, but for inherent ones. There is no kind over 63, so nothing more to ignore.
    #[must_use]
    pub fn and_kind(self, kind: u32) -> Ignore {
        Ignore { bits: self.bits | 1u64.checked_shl(kind).unwrap_or(0), ..self }
    }
}

/// What a comparison says. Each case carries how many operations and blocks it has entered into the mapping.
///
/// It names things by ids, or by plain numbers in [`lent`](crate::lent).
#[derive(Clone, Copy, PartialEq, Eq, Debug)]
pub enum EqResult<Op = OpId, Region = RegionId, Block = BlockId> {
    /// The two are equal.
    Eq {
        /// Operations and blocks entered.
        paired: u32,
    },
    /// The first two operations found to be unequal.
    FirstNEQOps {
        /// The left one.
        lhs: Op,
        /// The right one.
        rhs: Op,
        /// Operations and blocks entered before.
        paired: u32,
    },
    /// The first two regions found to be unequal: one has more blocks.
    FirstNEQRegions {
        /// The left one.
        lhs: Region,
        /// The right one.
        rhs: Region,
        /// Operations and blocks entered before.
        paired: u32,
    },
    /// The first two blocks found to be unequal.
    FirstNEQBlocks {
        /// The left one.
        lhs: Block,
        /// The right one.
        rhs: Block,
        /// Operations and blocks entered before.
        paired: u32,
    },
}

impl<Op, Region, Block> EqResult<Op, Region, Block> {
    /// Are the two equal?
    #[inline]
    pub fn is_eq(&self) -> bool {
        matches!(self, EqResult::Eq { .. })
    }

    /// How many operations and blocks were entered.
    #[inline]
    pub fn paired(&self) -> u32 {
        match self {
            EqResult::Eq { paired }
            | EqResult::FirstNEQOps { paired, .. }
            | EqResult::FirstNEQRegions { paired, .. }
            | EqResult::FirstNEQBlocks { paired, .. } => *paired,
        }
    }
}

/// As `twins` prints it: `eq,-,-,3`, `op,0,2,0`.
impl<Op: fmt::Display, Region: fmt::Display, Block: fmt::Display> fmt::Display for EqResult<Op, Region, Block> {
    fn fmt(&self, f: &mut fmt::Formatter<'_>) -> fmt::Result {
        match self {
            EqResult::Eq { paired } => write!(f, "eq,-,-,{paired}"),
            EqResult::FirstNEQOps { lhs, rhs, paired } => write!(f, "op,{lhs},{rhs},{paired}"),
            EqResult::FirstNEQRegions { lhs, rhs, paired } => write!(f, "region,{lhs},{rhs},{paired}"),
            EqResult::FirstNEQBlocks { lhs, rhs, paired } => write!(f, "block,{lhs},{rhs},{paired}"),
        }
    }
}

/// A sort of fragment.
#[derive(Clone, Copy)]
pub(crate) enum Sort {
    Op,
    Block,
    Region,
}

/// An id of a fragment.
pub(crate) trait Fragment: Id {
    const SORT: Sort;
}

impl Fragment for OpId {
    const SORT: Sort = Sort::Op;
}

impl Fragment for BlockId {
    const SORT: Sort = Sort::Block;
}

impl Fragment for RegionId {
    const SORT: Sort = Sort::Region;
}

impl Verdict {
    /// The answer, by numbers.
    #[inline]
    pub(crate) fn result(self) -> Result<EqResult<u32, u32, u32>, Refused> {
        let Verdict { code, left: lhs, right: rhs, paired } = self;
        match code {
            0 => Ok(EqResult::Eq { paired }),
            1 => Ok(EqResult::FirstNEQOps { lhs, rhs, paired }),
            2 => Ok(EqResult::FirstNEQBlocks { lhs, rhs, paired }),
            3 => Ok(EqResult::FirstNEQRegions { lhs, rhs, paired }),
            _ => Err(Refused::by(lhs)),
        }
    }
}

impl HashAnswer {
    /// The hash.
    #[inline]
    pub(crate) fn result(self) -> Result<u64, Refused> {
        match self.code {
            0 => Ok(self.word),
            _ => Err(Refused::by(self.cause)),
        }
    }
}

impl EqResult<u32, u32, u32> {
    /// The same by ids of the store: what a comparison names exists in it.
    #[inline]
    fn within(self, store: &Store) -> EqResult {
        match self {
            EqResult::Eq { paired } => EqResult::Eq { paired },
            EqResult::FirstNEQOps { lhs, rhs, paired } => {
                EqResult::FirstNEQOps { lhs: store.existing(lhs), rhs: store.existing(rhs), paired }
            }
            EqResult::FirstNEQRegions { lhs, rhs, paired } => {
                EqResult::FirstNEQRegions { lhs: store.existing(lhs), rhs: store.existing(rhs), paired }
            }
            EqResult::FirstNEQBlocks { lhs, rhs, paired } => {
                EqResult::FirstNEQBlocks { lhs: store.existing(lhs), rhs: store.existing(rhs), paired }
            }
        }
    }
}

/// Compares two fragments, and notes in the mapping what was entered.
#[inline]
fn compare<I: Fragment>(store: &Store, mapping: &mut Mapping, lhs: I, rhs: I, options: Options) -> Result<EqResult, Refused> {
    let (lhs, rhs) = (lhs.number_in(store.eras()), rhs.number_in(store.eras()));
    let result = store.sound.compare(I::SORT, &mut mapping.words, (lhs, rhs), options)?.result()?;
    mapping.note(store, I::SORT, lhs, result.paired());
    Ok(result.within(store))
}

/// Compares two operations, each with all inside it. What is found to correspond is entered into the mapping; entries made before a
/// difference stay. Refused by 8 where the mapping has entries of another store, or of what has gone, or by 2.
///
/// ```
/// use warzhigo::{EqResult, Ignore, Mapping, NewOperation, Store, operation_eq};
///
/// let mut store = Store::new();
/// let l = store.new_operation(&NewOperation { kind: 8, location: 1, result_types: &[3], ..Default::default() })?;
/// let r = store.new_operation(&NewOperation { kind: 8, location: 2, result_types: &[3], ..Default::default() })?;
/// let mut mapping = Mapping::new();
/// assert_eq!(operation_eq(&store, &mut mapping, l, r, &Ignore::LOCATIONS)?, EqResult::Eq { paired: 1 });
/// assert_eq!(mapping.lookup_op(l), Some(r));
/// mapping.clear();
/// assert_eq!(operation_eq(&store, &mut mapping, l, r, &Ignore::NOTHING)?, EqResult::FirstNEQOps { lhs: l, rhs: r, paired: 0 });
/// # Ok::<(), warzhigo::Refused>(())
/// ```
#[inline]
pub fn operation_eq<'a>(
    store: &Store,
    mapping: &mut Mapping,
    lhs: OpId,
    rhs: OpId,
    ignore: impl Into<Options<'a>>,
) -> Result<EqResult, Refused> {
    compare(store, mapping, lhs, rhs, ignore.into())
}

/// Compares two blocks, each with all inside it; as [`operation_eq`].
#[inline]
pub fn basic_block_eq<'a>(
    store: &Store,
    mapping: &mut Mapping,
    lhs: BlockId,
    rhs: BlockId,
    ignore: impl Into<Options<'a>>,
) -> Result<EqResult, Refused> {
    compare(store, mapping, lhs, rhs, ignore.into())
}

/// Compares two regions, each with all inside it; as [`operation_eq`].
#[inline]
pub fn region_eq<'a>(
    store: &Store,
    mapping: &mut Mapping,
    lhs: RegionId,
    rhs: RegionId,
    ignore: impl Into<Options<'a>>,
) -> Result<EqResult, Refused> {
    compare(store, mapping, lhs, rhs, ignore.into())
}

/// The hash of a fragment.
#[inline]
fn hash<I: Fragment>(store: &Store, fragment: I, options: Options) -> Result<u64, Refused> {
    store.sound.hash(I::SORT, fragment.number_in(store.eras()), options).result()
}

/// The hash of an operation with all inside it, the same for equal operations (under the premise of the laws, docs/AUDIT.md). Refused by
/// 2.
///
/// ```
/// use warzhigo::{Ignore, NewOperation, Store, operation_hash};
///
/// let mut store = Store::new();
/// let l = store.new_operation(&NewOperation { kind: 8, ..Default::default() })?;
/// let r = store.new_operation(&NewOperation { kind: 8, ..Default::default() })?;
/// assert_eq!(operation_hash(&store, l, &Ignore::NOTHING)?, operation_hash(&store, r, &Ignore::NOTHING)?);
/// # Ok::<(), warzhigo::Refused>(())
/// ```
#[inline]
pub fn operation_hash<'a>(store: &Store, op: OpId, ignore: impl Into<Options<'a>>) -> Result<u64, Refused> {
    hash(store, op, ignore.into())
}

/// The hash of a block with all inside it; as [`operation_hash`].
#[inline]
pub fn basic_block_hash<'a>(store: &Store, block: BlockId, ignore: impl Into<Options<'a>>) -> Result<u64, Refused> {
    hash(store, block, ignore.into())
}

/// The hash of a region with all inside it; as [`operation_hash`].
#[inline]
pub fn region_hash<'a>(store: &Store, region: RegionId, ignore: impl Into<Options<'a>>) -> Result<u64, Refused> {
    hash(store, region, ignore.into())
}
