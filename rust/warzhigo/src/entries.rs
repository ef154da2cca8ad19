//! The mapping as a document: its entries one by one, the same read backwards, and one mapping followed by another.

use core::fmt;

use crate::ids::{BlockId, OpId, ValueId};
use crate::mapping::Mapping;
use crate::refused::Refused;

/// An entry of a [`Mapping`]: what is on the left, and what on the right corresponds to it.
#[derive(Clone, Copy, PartialEq, Eq, Hash, Debug)]
pub enum Entry {
    /// Two values.
    Value(ValueId, ValueId),
    /// Two blocks.
    Block(BlockId, BlockId),
    /// Two operations.
    Op(OpId, OpId),
}

/// As `calls` prints it: `v0>2`, `b0>1`, `o1>3`.
impl fmt::Display for Entry {
    fn fmt(&self, f: &mut fmt::Formatter<'_>) -> fmt::Result {
        match self {
            Entry::Value(left, right) => write!(f, "v{left}>{right}"),
            Entry::Block(left, right) => write!(f, "b{left}>{right}"),
            Entry::Op(left, right) => write!(f, "o{left}>{right}"),
        }
    }
}

/// The mapping as a document. What has no entry is no part of it.
impl Mapping {
    /// All entries: those of values, then of blocks, then of operations, each by rising left number; as ids that were good when they were
    /// made.
    ///
    /// After a comparison that was lent an empty mapping and found two fragments equal, there is an entry for exactly what the left one
    /// defines, and on the right of them stands exactly what the right one defines, each once. That is proved (docs/AUDIT.md). Where the two
    /// are unequal, or the mapping had entries before, it needn't be so.
    ///
    /// ```
    /// use warzhigo::{Entry, Ignore, Mapping, NewOperation, Store, operation_eq};
    ///
    /// let mut store = Store::new();
    /// let l = store.new_operation(&NewOperation { kind: 8, result_types: &[3], ..Default::default() })?;
    /// let r = store.new_operation(&NewOperation { kind: 8, result_types: &[3], ..Default::default() })?;
    /// let mut mapping = Mapping::new();
    /// assert!(operation_eq(&store, &mut mapping, l, r, &Ignore::NOTHING)?.is_eq());
    /// let [typed, again] = [l, r].map(|op| store.operation(op).unwrap().results().next().unwrap());
    /// assert_eq!(mapping.entries().collect::<Vec<_>>(), [Entry::Value(typed, again), Entry::Op(l, r)]);
    /// assert_eq!(mapping.entries().map(|entry| entry.to_string()).collect::<Vec<_>>(), ["v0>1", "o0>1"]);
    /// # Ok::<(), warzhigo::Refused>(())
    /// ```
    pub fn entries(&self) -> impl Iterator<Item = Entry> + '_ {
        let values = self.values().map(|(left, right)| Entry::Value(left, right));
        let blocks = self.blocks().map(|(left, right)| Entry::Block(left, right));
        values.chain(blocks).chain(self.ops().map(|(left, right)| Entry::Op(left, right)))
    }

    /// The mapping read backwards: each entry from right to left. None where two entries of a sort have the same number on the right, as
    /// entries by hand and several comparisons into one mapping may leave it.
    ///
    /// One comparison into an empty mapping never does. If it found the two equal, this is the mapping that the comparison the other way
    /// enters into an empty one, where that finds them equal too, as it does under the premise of the laws (docs/AUDIT.md).
    ///
    /// ```
    /// use warzhigo::{Ignore, Mapping, NewOperation, Store, operation_eq};
    ///
    /// let mut store = Store::new();
    /// let [l, r] = [3, 3].map(|kind| store.new_operation(&NewOperation { kind, ..Default::default() }).unwrap());
    /// let [mut mapping, mut back] = [Mapping::new(), Mapping::new()];
    /// operation_eq(&store, &mut mapping, l, r, &Ignore::NOTHING)?;
    /// operation_eq(&store, &mut back, r, l, &Ignore::NOTHING)?;
    /// assert_eq!(mapping.inverse(), Some(back));
    /// mapping.map_op(r, r)?;
    /// assert_eq!(mapping.inverse(), None, "both have the image r");
    /// # Ok::<(), warzhigo::Refused>(())
    /// ```
    pub fn inverse(&self) -> Option<Mapping> {
        self.words.inverse().map(Mapping::of)
    }

    /// This mapping followed by another, entry by entry: `l` has the entry `r` where it has `c` here, and `c` has `r` in the other. Where
    /// an image has no entry in the other, there is none; so there are none at all where either is empty. Refused by 8 where the two have
    /// entries of different stores; of entries by hand, as far as the ids tell, as for [`map_value`](Mapping::map_value).
    ///
    /// After comparisons that were lent empty mappings and found left and middle equal, and middle and right, this is the mapping that
    /// comparing left with right enters, where that finds them equal too, as it does under the premise of the laws (docs/AUDIT.md).
    ///
    /// ```
    /// use warzhigo::{Ignore, Mapping, NewOperation, Store, operation_eq};
    ///
    /// let mut store = Store::new();
    /// let [l, c, r] = [3, 3, 3].map(|kind| store.new_operation(&NewOperation { kind, ..Default::default() }).unwrap());
    /// let [mut to_middle, mut from_middle, mut whole] = [Mapping::new(), Mapping::new(), Mapping::new()];
    /// operation_eq(&store, &mut to_middle, l, c, &Ignore::NOTHING)?;
    /// operation_eq(&store, &mut from_middle, c, r, &Ignore::NOTHING)?;
    /// operation_eq(&store, &mut whole, l, r, &Ignore::NOTHING)?;
    /// assert_eq!(to_middle.then(&from_middle)?, whole);
    /// assert!(from_middle.then(&to_middle)?.is_empty());
    /// # Ok::<(), warzhigo::Refused>(())
    /// ```
    pub fn then(&self, other: &Mapping) -> Result<Mapping, Refused> {
        self.words.then(&other.words).map(Mapping::of)
    }
}

/// They have the same entries, of the same ids.
impl PartialEq for Mapping {
    fn eq(&self, other: &Mapping) -> bool {
        self.entries().eq(other.entries())
    }
}

impl Eq for Mapping {}
