//! Independence of two fragments, and the twins among a store's operations.

use alloc::vec;
use alloc::vec::Vec;

use crate::columns::{self, Count};
use crate::equivalence::Fragment;
use crate::ffi::{Grouped, Independence};
use crate::ids::OpId;
use crate::refused::Refused;
use crate::renamed::Options;
use crate::store::Store;

impl Independence {
    #[inline]
    pub(crate) fn result(self) -> Result<bool, Refused> {
        match self.code {
            0 => Ok(false),
            1 => Ok(true),
            _ => Err(Refused::by(self.cause)),
        }
    }
}

impl Grouped {
    /// How many operations there are.
    pub(crate) fn result(self) -> Result<usize, Refused> {
        match self.code {
            0 => Ok(self.operations),
            _ => Err(Refused::by(self.cause)),
        }
    }
}

/// The word of an operation without a twin.
const NO_TWIN: u32 = u32::MAX;

impl Store {
    /// Are two fragments independent, each with all inside it? They are ids of one sort: two operations, two blocks or two regions. The same
    /// fragment is, and so are two that share no operation or block and of which neither names a value or block that the other defines.
    ///
    /// That is the premise of the laws (docs/AUDIT.md): of independent fragments equality is symmetric and transitive, and equal ones have one
    /// hash and one key. No type is read, and nothing is ignored. Refused by 2.
    ///
    /// ```
    /// use warzhigo::{NewOperation, Store};
    ///
    /// let mut store = Store::new();
    /// let field = store.new_operation(&NewOperation { kind: 8, result_types: &[5], ..Default::default() })?;
    /// let typed = store.operation(field)?.results().next().unwrap();
    /// let check = store.new_operation(&NewOperation { kind: 9, operands: &[typed], ..Default::default() })?;
    /// let other = store.new_operation(&NewOperation { kind: 9, operands: &[typed], ..Default::default() })?;
    /// assert!(!store.independent(field, check)?, "the check names what the field defines");
    /// assert!(store.independent(check, other)?);
    /// # Ok::<(), warzhigo::Refused>(())
    /// ```
    #[inline]
    #[allow(private_bounds)] // the ids of operations, blocks and regions
    pub fn independent<I: Fragment>(&self, lhs: I, rhs: I) -> Result<bool, Refused> {
        let pair = (lhs.number_in(self.eras()), rhs.number_in(self.eras()));
        self.sound.independent(I::SORT, pair).result()
    }

    /// The twin of each operation, by rising number: the first operation before it that is [independent](Store::independent) of it and, compared
    /// from an empty mapping, equal to it. None is given exactly where there is none. No store is refused.
    ///
    /// An operation that stands for others has no twin itself, and all for which it stands are twins of each other, in this store. Nothing is
    /// said of a store that a merge has changed: of twins one inside another merge the outermost. An operation inside one that goes may
    /// itself stand for others.
    ///
    /// ```
    /// use warzhigo::{Ignore, NewOperation, Store};
    ///
    /// let mut store = Store::new();
    /// let first = store.new_operation(&NewOperation { kind: 8, location: 1, ..Default::default() })?;
    /// store.new_operation(&NewOperation { kind: 9, location: 2, ..Default::default() })?;
    /// store.new_operation(&NewOperation { kind: 8, location: 3, ..Default::default() })?;
    /// assert_eq!(store.twins_of_operations(&Ignore::LOCATIONS)?, [None, None, Some(first)]);
    /// assert_eq!(store.twins_of_operations(&Ignore::NOTHING)?, [None; 3]);
    /// # Ok::<(), warzhigo::Refused>(())
    /// ```
    pub fn twins_of_operations<'a>(&self, ignore: impl Into<Options<'a>>) -> Result<Vec<Option<OpId>>, Refused> {
        let mut twins = vec![NO_TWIN; columns::count(self.words(), Count::Operations) as usize];
        self.sound.twins_of_operations(ignore.into(), &mut twins).result()?;
        Ok(twins.into_iter().map(|twin| self.op_id(twin)).collect())
    }
}
