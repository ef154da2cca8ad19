//! The mapping that a comparison or the copier is lent.

use alloc::boxed::Box;
use core::fmt;

use crate::equivalence::Sort;
use crate::ffi::allowed::{AllowedWords, NONE};
use crate::ids::{BlockId, OpId, ValueId};
use crate::refused::Refused;
use crate::store::Store;
use crate::touched::{Touched, entered};

/// Which value, block and operation on the right corresponds to which on the left.
///
/// It is empty, or has entries of one store: those that comparisons or a [copy](Store::clone_operation) in it have made, and those that were
/// entered by hand. Lent to a comparison or a copy in another store while it has any, it is refused by 8; so it is where an entry names what
/// has gone since, when the store went [back to a mark](Store::go_back). After [`clear`](Mapping::clear) it can be lent anew, to any store.
///
/// That of an equal comparison can be filed with a merge: [`entries`](Mapping::entries) lists it, [`inverse`](Mapping::inverse) reads it
/// backwards, and [`then`](Mapping::then) puts two together. Mappings are equal where they have the same entries.
///
/// ```
/// use warzhigo::{Ignore, Mapping, NewOperation, Store, operation_eq};
///
/// let mut store = Store::new();
/// let [a, b] = [3, 3].map(|kind| store.new_operation(&NewOperation { kind, ..Default::default() }).unwrap());
/// let mut mapping = Mapping::new();
/// operation_eq(&store, &mut mapping, a, b, &Ignore::NOTHING)?;
/// assert_eq!(mapping.ops().collect::<Vec<_>>(), [(a, b)]);
/// assert_eq!(operation_eq(&store.clone(), &mut mapping, a, b, &Ignore::NOTHING).unwrap_err().number(), 8);
/// # Ok::<(), warzhigo::Refused>(())
/// ```
#[derive(Clone)]
pub struct Mapping {
    pub(crate) words: AllowedWords,
    touched: Touched,
}

impl Mapping {
    /// The empty mapping. It costs an allocation and 2,816 words: for one comparison after the other, [`clear`](Mapping::clear) one mapping in
    /// between.
    pub fn new() -> Mapping {
        Mapping { words: AllowedWords::empty(), touched: Touched::NOTHING }
    }

    /// The mapping that words from elsewhere hold, for use in this store. They are tested once, and refused by 8 where they are of wrong
    /// length or name what isn't in the store.
    pub fn from_words(store: &Store, words: impl Into<Box<[u32]>>) -> Result<Mapping, Refused> {
        let words = AllowedWords::tested(words.into(), &store.sound)?;
        Ok(Mapping { words, touched: Touched::all() })
    }

    /// The mapping that has these words.
    pub(crate) fn of(words: AllowedWords) -> Mapping {
        let touched = Touched::of(words.words());
        Mapping { words, touched }
    }

    /// The words, laid out as docs/STORE.md says: to keep, copy or send.
    pub fn words(&self) -> &[u32] {
        self.words.words()
    }

    /// Takes all entries out. It costs what was entered since the mapping was empty; where several comparisons were lent it in between,
    /// or words from elsewhere made it, all 2,816 entries.
    #[inline]
    pub fn clear(&mut self) {
        if self.touched.is_empty() {
            return;
        }
        self.words.remove(&self.touched.0);
        self.touched = Touched::NOTHING;
    }

    /// Has it no entries?
    pub fn is_empty(&self) -> bool {
        self.touched.0.iter().all(|entries| self.words()[entries.clone()].iter().all(|image| *image == NONE))
    }

    /// Notes what a comparison has entered.
    #[inline]
    pub(crate) fn note(&mut self, store: &Store, sort: Sort, lhs: u32, paired: u32) {
        if paired == 0 {
            return;
        }
        self.touched = if self.touched.is_empty() { entered(store.words(), self.words.words(), sort, lhs, paired) } else { Touched::all() };
    }

    /// Notes that a copy of this operation has replaced all entries: those from it to its copy are there, so many of operations and blocks.
    pub(crate) fn note_copy(&mut self, store: &Store, op: u32, copied: u32) {
        self.touched = entered(store.words(), self.words.words(), Sort::Op, op, copied);
    }

    /// Enters that value `from` corresponds to `to`. A later entry replaces an earlier one. Refused by 8 where the two, and the entries
    /// that are there, are not of one store. Of ids that were given after their store went back to a mark, or name what has gone, it may be
    /// the next comparison that finds out, and refuses the mapping by 8.
    pub fn map_value(&mut self, from: ValueId, to: ValueId) -> Result<(), Refused> {
        self.words.enter(from, to)?;
        self.touched.values(from.number()..from.number() + 1);
        Ok(())
    }

    /// Enters that block `from` corresponds to `to`; as [`map_value`](Mapping::map_value).
    pub fn map_block(&mut self, from: BlockId, to: BlockId) -> Result<(), Refused> {
        self.words.enter(from, to)?;
        self.touched.block(from.number());
        Ok(())
    }

    /// Enters that operation `from` corresponds to `to`; as [`map_value`](Mapping::map_value).
    pub fn map_op(&mut self, from: OpId, to: OpId) -> Result<(), Refused> {
        self.words.enter(from, to)?;
        self.touched.op(from.number());
        Ok(())
    }

    /// What value `from` corresponds to, if it has an entry.
    pub fn lookup_value(&self, from: ValueId) -> Option<ValueId> {
        self.words.image(from)
    }

    /// What block `from` corresponds to, if it has an entry.
    pub fn lookup_block(&self, from: BlockId) -> Option<BlockId> {
        self.words.image(from)
    }

    /// What operation `from` corresponds to, if it has an entry.
    pub fn lookup_op(&self, from: OpId) -> Option<OpId> {
        self.words.image(from)
    }

    /// What value `from` corresponds to: its entry, or itself where there is none.
    pub fn lookup_value_or_default(&self, from: ValueId) -> ValueId {
        self.words.image(from).unwrap_or(from)
    }

    /// What block `from` corresponds to: its entry, or itself where there is none.
    pub fn lookup_block_or_default(&self, from: BlockId) -> BlockId {
        self.words.image(from).unwrap_or(from)
    }

    /// The entries of values, by rising left number; as ids that were good when they were made.
    pub fn values(&self) -> impl Iterator<Item = (ValueId, ValueId)> + '_ {
        self.words.entries()
    }

    /// The entries of blocks, by rising left number.
    pub fn blocks(&self) -> impl Iterator<Item = (BlockId, BlockId)> + '_ {
        self.words.entries()
    }

    /// The entries of operations, by rising left number.
    pub fn ops(&self) -> impl Iterator<Item = (OpId, OpId)> + '_ {
        self.words.entries()
    }
}

impl Default for Mapping {
    fn default() -> Mapping {
        Mapping::new()
    }
}

impl fmt::Debug for Mapping {
    fn fmt(&self, f: &mut fmt::Formatter<'_>) -> fmt::Result {
        f.debug_map().entries(self.values()).entries(self.blocks()).entries(self.ops()).finish()
    }
}
