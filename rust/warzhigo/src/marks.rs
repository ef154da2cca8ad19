//! Marks to go back to.

use core::fmt;

use crate::columns::{self, Column, Count, REPLACED};
use crate::refused::Refused;
use crate::store::Store;

/// A mark, by its number. Marks 1 to 8 can be set in a store; any other number is refused by 16.
#[derive(Clone, Copy, PartialEq, Eq, PartialOrd, Ord, Hash, Debug)]
pub struct MarkId(pub u32);

impl fmt::Display for MarkId {
    fn fmt(&self, f: &mut fmt::Formatter<'_>) -> fmt::Result {
        self.0.fmt(f)
    }
}

impl Store {
    /// Sets a mark: it names the store as it stands, for [`go_back`](Store::go_back). One that is set already moves here, behind all others.
    /// From the first on, replacements are [remembered](Store::remembered). Refused by 16 where it is not one of 1 to 8.
    ///
    /// ```
    /// use warzhigo::{MarkId, NewOperation, Store};
    ///
    /// let mut store = Store::new();
    /// let title = store.new_operation(&NewOperation { kind: 8, ..Default::default() })?;
    /// store.mark(MarkId(1))?;
    /// let tried = store.new_operation(&NewOperation { kind: 9, ..Default::default() })?;
    /// store.go_back(MarkId(1))?;
    /// assert!(store.operation(title).is_ok());
    /// assert_eq!(store.operation(tried).unwrap_err().number(), 2);
    /// let tried_next = store.new_operation(&NewOperation { kind: 4, ..Default::default() })?;
    /// assert_eq!(tried_next.number(), tried.number());
    /// assert_eq!(store.operation(tried).unwrap_err().number(), 2);
    /// assert_eq!(store.mark(MarkId(9)).unwrap_err().number(), 16);
    /// # Ok::<(), warzhigo::Refused>(())
    /// ```
    pub fn mark(&mut self, mark: MarkId) -> Result<(), Refused> {
        self.sound.set_mark(mark.0).accepted().map(|_| ())
    }

    /// Goes back to a mark: all is as it was when it was last set. What was made since has gone: its ids name nothing any more, and its
    /// numbers are given again. Ids of what was there stay good. The mark stays set, those set after it are void. Refused by 16 where it
    /// is not set.
    ///
    /// ```
    /// use warzhigo::{Attribute, Inherent, MarkId, NewOperation, Store};
    ///
    /// let mut store = Store::new();
    /// let title = store.new_operation(&NewOperation::default())?;
    /// let size = Attribute { key: 1, kind: 0, content: 20, inherent: Inherent::Yes };
    /// store.set_attribute(title, size)?;
    /// store.mark(MarkId(1))?;
    /// store.set_attribute(title, Attribute { content: 24, inherent: Inherent::No, ..size })?;
    /// store.go_back(MarkId(1))?;
    /// assert_eq!(store.operation(title)?.attributes().next(), Some(size));
    /// assert_eq!(store.go_back(MarkId(2)).unwrap_err().number(), 16);
    /// # Ok::<(), warzhigo::Refused>(())
    /// ```
    pub fn go_back(&mut self, mark: MarkId) -> Result<(), Refused> {
        self.sound.go_back(mark.0).accepted().map(|_| ())
    }

    /// The marks that are set, the oldest first. One that was set again counts from then on.
    ///
    /// ```
    /// use warzhigo::{MarkId, Store};
    ///
    /// let mut store = Store::new();
    /// for mark in [1, 2, 3, 1] {
    ///     store.mark(MarkId(mark))?;
    /// }
    /// assert_eq!(store.marks().collect::<Vec<_>>(), [2, 3, 1].map(MarkId));
    /// store.go_back(MarkId(3))?;
    /// assert_eq!(store.marks().collect::<Vec<_>>(), [2, 3].map(MarkId));
    /// # Ok::<(), warzhigo::Refused>(())
    /// ```
    pub fn marks(&self) -> impl ExactSizeIterator<Item = MarkId> + Clone + '_ {
        let set = columns::count(self.words(), Count::Marks);
        columns::part(self.words(), Column::MarkNumber, 0..set).iter().map(|number| MarkId(*number))
    }

    /// How many replacements are remembered: those since the oldest set mark, without the ones that going back has undone. Each operand
    /// that is set is one, and each attribute that is set on a key already there. At 1,024 a further one is refused by 17. Without a mark
    /// nothing is remembered, and nothing refused.
    ///
    /// ```
    /// use warzhigo::{Attribute, Inherent, MarkId, NewOperation, Store};
    ///
    /// let mut store = Store::new();
    /// let op = store.new_operation(&NewOperation::default())?;
    /// store.mark(MarkId(1))?;
    /// let attribute = Attribute { key: 1, kind: 0, content: 7, inherent: Inherent::No };
    /// store.set_attribute(op, attribute)?;
    /// assert_eq!(store.remembered(), 0, "a new key replaces nothing");
    /// for _ in 0..1024 {
    ///     store.set_attribute(op, attribute)?;
    /// }
    /// assert_eq!(store.remembered(), 1024);
    /// assert_eq!(store.set_attribute(op, attribute).unwrap_err().number(), 17);
    /// store.mark(MarkId(1))?;
    /// assert_eq!(store.remembered(), 0, "what lies before the oldest mark is forgotten");
    /// # Ok::<(), warzhigo::Refused>(())
    /// ```
    pub fn remembered(&self) -> u32 {
        match columns::count(self.words(), Count::Marks) {
            0 => 0,
            _ => columns::at(self.words(), Column::JournalCounts, REPLACED),
        }
    }
}
