//! Copying an operation, with the name that pliron's `irbuild::cloning` has.

use crate::ids::{BlockId, Id, OpId};
use crate::mapping::Mapping;
use crate::refused::Refused;
use crate::store::Store;

impl Store {
    /// Copies an operation with all inside it, to the end of a block, or without a parent, and gives the copy. Names of what is inside
    /// become the copy's, others are kept; so are kinds, types, locations and attributes, inherent ones as such. Each thing that is
    /// copied gets the next number of its sort, in the order in which a comparison enters them.
    ///
    /// The mapping then has an entry from each thing that the operation defines to its copy, and no others: those it had before are gone.
    /// It is the one that comparing the operation with its copy enters into an empty mapping, and that comparison is equal whatever is
    /// ignored. A [mark](Store::mark) remembers nothing of a copy, and going back takes it away.
    ///
    /// Refused by 8 where the mapping has entries of another store, or of what has gone; by 2; by 18 where the block lies inside the
    /// operation; by 19 where an operand or successor names something inside that a comparison hasn't entered by then, as an operand that
    /// was set to a later value may; by 5; or by 3. Store and mapping are then as they were.
    ///
    /// ```
    /// use warzhigo::{Entry, Ignore, Mapping, NewOperation, Store, operation_eq};
    ///
    /// let mut store = Store::new();
    /// let form = store.new_operation(&NewOperation { kind: 7, regions: 1, ..Default::default() })?;
    /// let region = store.operation(form)?.regions().next().unwrap();
    /// let page = store.new_block(region, 0, &[3])?;
    /// let typed: Vec<_> = store.block(page)?.arguments().collect();
    /// let check = store.new_operation(&NewOperation { kind: 9, parent: Some(page), operands: &typed, ..Default::default() })?;
    ///
    /// let mut mapping = Mapping::new();
    /// let copy = store.clone_operation(form, None, &mut mapping)?;
    /// let copied_check = mapping.lookup_op(check).unwrap();
    /// assert_eq!(store.operation(copied_check)?.operands().next(), mapping.lookup_value(typed[0]));
    /// let mut compared = Mapping::new();
    /// assert!(operation_eq(&store, &mut compared, form, copy, &Ignore::NOTHING)?.is_eq());
    /// assert_eq!(mapping, compared);
    ///
    /// // within the page it names what it named; inside itself it has no room
    /// let second = store.clone_operation(check, Some(page), &mut mapping)?;
    /// assert_eq!(store.operation(second)?.operands().next(), Some(typed[0]));
    /// assert_eq!(mapping.entries().collect::<Vec<_>>(), [Entry::Op(check, second)]);
    /// assert_eq!(store.clone_operation(form, Some(page), &mut mapping).unwrap_err().number(), 18);
    /// # Ok::<(), warzhigo::Refused>(())
    /// ```
    pub fn clone_operation(&mut self, op: OpId, parent: Option<BlockId>, mapping: &mut Mapping) -> Result<OpId, Refused> {
        let original = op.number_in(self.eras());
        let parent = parent.map(|block| block.number_in(self.eras()));
        let before = self.paired_things();
        let copy = self.sound.clone_operation(original, parent, &mut mapping.words)?.accepted()?;
        mapping.note_copy(self, original, self.paired_things() - before);
        Ok(OpId::existing(copy, self.eras().newest()))
    }

    /// How many operations and blocks there are: what a comparison counts as paired.
    fn paired_things(&self) -> u32 {
        let totals = self.totals();
        totals.operations + totals.blocks
    }
}
