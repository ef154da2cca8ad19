//! The store, and the four building calls.

use alloc::boxed::Box;
use alloc::vec::Vec;
use core::fmt;

use crate::columns::{self, Count};
use crate::eras::Eras;
use crate::ffi::Outcome;
use crate::ffi::known::SoundWords;
use crate::ids::{BlockId, Id, OpId, RegionId, ValueId};
use crate::refused::Refused;

/// Operations, blocks, regions and values, each numbered from 0 in order of creation.
///
/// A store owns its words and is sound from the start on: it is made empty or from words that are tested once, and only the four building
/// calls change it, [copies](Store::clone_operation), [marks](Store::mark) and going back to one. It takes 182,656 bytes, and its calls don't
/// allocate, but for lists over their limit, a few bytes where going back takes something away, and what a mapping notes of its store.
///
/// A clone is a store of its own, with the same marks: ids of the one name nothing in the other, even where both have the number.
///
/// ```
/// use warzhigo::{Attribute, Inherent, NewOperation, Store};
///
/// let mut store = Store::new();
/// let form = store.new_operation(&NewOperation { kind: 7, location: 5, regions: 1, ..Default::default() })?;
/// let region = store.operation(form)?.regions().next().unwrap();
/// let page = store.new_block(region, 5, &[3])?;
/// let typed = store.block(page)?.arguments().next().unwrap();
/// let check = store.new_operation(&NewOperation { kind: 8, parent: Some(page), operands: &[typed], ..Default::default() })?;
/// let length = Attribute { key: 2, kind: 63, content: 9, inherent: Inherent::Yes };
/// store.set_attribute(check, length)?;
/// assert_eq!(store.operation(check)?.attributes().next(), Some(length));
/// # Ok::<(), warzhigo::Refused>(())
/// ```
pub struct Store {
    pub(crate) sound: SoundWords,
}

/// What a new operation has. Blocks and values are ids, or plain numbers in [`lent`](crate::lent).
#[derive(Clone, Copy, Debug)]
pub struct NewOperation<'a, Block = BlockId, Value = ValueId> {
    /// Its kind.
    pub kind: u32,
    /// The block at whose end it goes, if any.
    pub parent: Option<Block>,
    /// Its location.
    pub location: u32,
    /// How many regions it has, 0 to 8. They are made with it.
    pub regions: u32,
    /// The types of its results, 0 to 16. Each result is a new value.
    pub result_types: &'a [u32],
    /// Its operands, 0 to 16: values that were made before.
    pub operands: &'a [Value],
    /// Its successors, 0 to 8.
    pub successors: &'a [Block],
}

impl<Block, Value> Default for NewOperation<'_, Block, Value> {
    fn default() -> Self {
        NewOperation { kind: 0, parent: None, location: 0, regions: 0, result_types: &[], operands: &[], successors: &[] }
    }
}

/// An attribute: a key with its kind, its content, and whether it is inherent. Keys of one owner differ.
#[derive(Clone, Copy, PartialEq, Eq, Debug)]
pub struct Attribute {
    /// Its key.
    pub key: u32,
    /// Its kind, 0 to 63: the bit by which it may be ignored, unless it is inherent.
    pub kind: u32,
    /// Its content.
    pub content: u32,
    /// Whether it is inherent.
    pub inherent: Inherent,
}

/// Whether an attribute is inherent: one that is inherent is never ignored. Attributes that differ in this alone are unequal.
///
/// ```
/// use warzhigo::{Attribute, Ignore, Inherent, Mapping, NewOperation, Store, operation_eq};
///
/// let mut store = Store::new();
/// let [l, r] = [store.new_operation(&NewOperation::default())?, store.new_operation(&NewOperation::default())?];
/// let ignore = Ignore::NOTHING.and_kind(63);
/// let mut mapping = Mapping::new();
/// for (inherent, equal) in [(Inherent::No, true), (Inherent::Yes, false)] {
///     for (op, content) in [(l, 9), (r, 8)] {
///         store.set_attribute(op, Attribute { key: 2, kind: 63, content, inherent })?;
///     }
///     assert_eq!(operation_eq(&store, &mut mapping, l, r, &ignore)?.is_eq(), equal);
///     mapping.clear();
/// }
/// # Ok::<(), warzhigo::Refused>(())
/// ```
#[repr(u32)]
#[derive(Clone, Copy, PartialEq, Eq, Hash, Default, Debug)]
pub enum Inherent {
    /// It is ignored where its kind is.
    #[default]
    No = 0,
    /// It always counts.
    Yes = 1,
}

/// What has attributes and values: an operation or a block. They are ids, or plain numbers in [`lent`](crate::lent).
#[derive(Clone, Copy, PartialEq, Eq, Debug)]
pub enum Owner<Op = OpId, Block = BlockId> {
    /// An operation: its values are its results.
    Op(Op),
    /// A block: its values are its arguments.
    Block(Block),
}

impl From<OpId> for Owner {
    fn from(op: OpId) -> Owner {
        Owner::Op(op)
    }
}

impl From<BlockId> for Owner {
    fn from(block: BlockId) -> Owner {
        Owner::Block(block)
    }
}

impl Owner<u32, u32> {
    /// As it crosses to C: is it a block, and its number.
    pub(crate) fn code(self) -> (bool, u32) {
        match self {
            Owner::Op(n) => (false, n),
            Owner::Block(n) => (true, n),
        }
    }
}

impl Outcome {
    /// The new number, or 0 for a call that gives none.
    #[inline]
    pub(crate) fn accepted(self) -> Result<u32, Refused> {
        match self.code {
            0 | 1 => Ok(self.number),
            _ => Err(Refused::by(self.number)),
        }
    }
}

/// Most lists of one owner have no more items than this.
const FEW: usize = 16;

/// The numbers of ids in a store, in `few` if they fit, else in `many`.
#[inline]
fn numbers<'b, I: Id>(ids: &[I], store: &Eras, few: &'b mut [u32; FEW], many: &'b mut Vec<u32>) -> &'b [u32] {
    if ids.len() > FEW {
        many.extend(ids.iter().map(|id| id.number_in(store)));
        return many;
    }
    for (number, id) in few.iter_mut().zip(ids) {
        *number = id.number_in(store);
    }
    &few[..ids.len()]
}

impl Store {
    /// The empty store.
    pub fn new() -> Store {
        Store { sound: SoundWords::empty() }
    }

    /// The store that words from elsewhere hold. They are tested once, and refused by 1 where they aren't sound.
    pub fn from_words(words: impl Into<Box<[u32]>>) -> Result<Store, Refused> {
        Ok(Store { sound: SoundWords::tested(words.into())? })
    }

    /// The words, laid out as docs/STORE.md says: to keep, copy or send.
    pub fn words(&self) -> &[u32] {
        self.sound.words()
    }

    /// The words, without a copy.
    pub fn into_words(self) -> Box<[u32]> {
        self.sound.into_words()
    }

    /// Makes an operation, with its regions and results, at the end of its block. Refused by 2, 4, 5 or 3.
    #[inline]
    pub fn new_operation(&mut self, new: &NewOperation<'_>) -> Result<OpId, Refused> {
        let store = self.eras();
        let (mut operands, mut more_operands) = ([0; FEW], Vec::new());
        let (mut successors, mut more_successors) = ([0; FEW], Vec::new());
        let new = NewOperation {
            kind: new.kind,
            parent: new.parent.map(|block| block.number_in(store)),
            location: new.location,
            regions: new.regions,
            result_types: new.result_types,
            operands: numbers(new.operands, store, &mut operands, &mut more_operands),
            successors: numbers(new.successors, store, &mut successors, &mut more_successors),
        };
        self.sound.new_operation(&new).accepted().map(|n| OpId::existing(n, self.eras().newest()))
    }

    /// Makes a block at the end of a region, with a location and 0 to 16 arguments, by their types. Refused by 2, 4 or 3.
    #[inline]
    pub fn new_block(&mut self, region: RegionId, location: u32, argument_types: &[u32]) -> Result<BlockId, Refused> {
        let region = region.number_in(self.eras());
        let outcome = self.sound.new_block(region, location, argument_types);
        outcome.accepted().map(|n| BlockId::existing(n, self.eras().newest()))
    }

    /// Sets an attribute of an operation or a block; a key that is there is replaced, with all that stands under it. Refused by 6, 2, 4 or
    /// 3, or by 17 where a replacement can't be [remembered](Store::remembered).
    #[inline]
    pub fn set_attribute(&mut self, owner: impl Into<Owner>, attribute: Attribute) -> Result<(), Refused> {
        let store = self.eras();
        let owner = match owner.into() {
            Owner::Op(op) => Owner::Op(op.number_in(store)),
            Owner::Block(block) => Owner::Block(block.number_in(store)),
        };
        self.sound.set_attribute(owner, attribute).accepted().map(|_| ())
    }

    /// Sets an operand that an operation has, by its index from 0, to any value, also a later one. Refused by 2 or 7, or by 17
    /// where that can't be [remembered](Store::remembered).
    #[inline]
    pub fn set_operand(&mut self, op: OpId, index: u32, value: ValueId) -> Result<(), Refused> {
        let (op, value) = (op.number_in(self.eras()), value.number_in(self.eras()));
        self.sound.set_operand(op, index, value).accepted().map(|_| ())
    }
}

impl Default for Store {
    fn default() -> Store {
        Store::new()
    }
}

impl Clone for Store {
    fn clone(&self) -> Store {
        Store { sound: self.sound.copied() }
    }
}

impl fmt::Debug for Store {
    fn fmt(&self, f: &mut fmt::Formatter<'_>) -> fmt::Result {
        let count = |of| columns::count(self.words(), of);
        f.debug_struct("Store")
            .field("operations", &count(Count::Operations))
            .field("blocks", &count(Count::Blocks))
            .field("regions", &count(Count::Regions))
            .field("values", &count(Count::Values))
            .field("marks", &self.marks().map(|mark| mark.0).collect::<Vec<_>>())
            .finish_non_exhaustive()
    }
}
