//! Repeated runs of operations inside a block.

use crate::ffi::RunAnswer;
use crate::ids::{BlockId, Id};
use crate::refused::Refused;
use crate::renamed::Options;
use crate::store::Store;

/// Two equal runs of operations in one block, by their starts, which count from 0 in the block. They don't overlap.
#[derive(Clone, Copy, PartialEq, Eq, Hash, Debug)]
pub struct Run {
    /// Where the earlier one begins.
    pub left: u32,
    /// Where the later one begins.
    pub right: u32,
}

impl RunAnswer {
    pub(crate) fn result(self) -> Result<Option<Run>, Refused> {
        let RunAnswer { code, left, right } = self;
        match code {
            0 => Ok(Some(Run { left, right })),
            1 => Ok(None),
            _ => Err(Refused::by(left)),
        }
    }
}

impl Store {
    /// Two runs of so many operations of a block that are equal and don't overlap: their operations, pair by pair, as two blocks of them would
    /// be compared from an empty mapping, the earlier run on the left. Of several the one with the smallest right start, and then with the
    /// smallest left. None is given exactly where there are none. Refused by 2, or by 15 for a length of 0 or over 256.
    ///
    /// ```
    /// use warzhigo::{Ignore, NewOperation, Run, Store};
    ///
    /// let mut store = Store::new();
    /// let form = store.new_operation(&NewOperation { kind: 7, regions: 1, ..Default::default() })?;
    /// let region = store.operation(form)?.regions().next().unwrap();
    /// let page = store.new_block(region, 0, &[])?;
    /// for kind in [8, 9, 4, 8, 9] {
    ///     store.new_operation(&NewOperation { kind, parent: Some(page), ..Default::default() })?;
    /// }
    /// assert_eq!(store.repeated_run(page, 2, &Ignore::NOTHING)?, Some(Run { left: 0, right: 3 }));
    /// assert_eq!(store.repeated_run(page, 3, &Ignore::NOTHING)?, None);
    /// # Ok::<(), warzhigo::Refused>(())
    /// ```
    pub fn repeated_run<'a>(&self, block: BlockId, length: u32, ignore: impl Into<Options<'a>>) -> Result<Option<Run>, Refused> {
        self.sound.repeated_run(block.number_in(self.eras()), length, ignore.into()).result()
    }
}
