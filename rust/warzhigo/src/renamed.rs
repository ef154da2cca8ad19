//! Renamed types, and what a call is asked to look past.

use alloc::vec::Vec;
use core::fmt;

use crate::equivalence::Ignore;
use crate::ffi::known::IndexWords;
use crate::refused::Refused;

/// Types that have been renamed: two types are the same where their present types are.
///
/// A list is tested once, when it is made, and lent to any number of calls, on any store, beside what is ignored.
///
/// ```
/// use warzhigo::{Ignore, Mapping, NewOperation, Renamed, Store, operation_eq, operation_hash};
///
/// let mut store = Store::new();
/// let l = store.new_operation(&NewOperation { kind: 8, result_types: &[3], ..Default::default() })?;
/// let r = store.new_operation(&NewOperation { kind: 8, result_types: &[7], ..Default::default() })?;
/// let types = Renamed::new(&[(3, 7)])?;
/// let mut mapping = Mapping::new();
/// assert!(!operation_eq(&store, &mut mapping, l, r, &Ignore::NOTHING)?.is_eq());
/// mapping.clear();
/// assert!(operation_eq(&store, &mut mapping, l, r, (&Ignore::NOTHING, &types))?.is_eq());
/// assert_eq!(operation_hash(&store, l, (&Ignore::NOTHING, &types))?, operation_hash(&store, r, &Ignore::NOTHING)?);
/// # Ok::<(), warzhigo::Refused>(())
/// ```
#[derive(Clone)]
pub struct Renamed {
    pub(crate) index: IndexWords,
}

/// No type is renamed.
static NONE: Renamed = Renamed::none();

impl Renamed {
    /// The empty list: no type is renamed.
    pub const fn none() -> Renamed {
        Renamed { index: IndexWords::none() }
    }

    /// These rows, each an old type and its present one. Refused by 14 where there are more than 64, an old type stands in two of them, or a
    /// present type has a row itself: a type is looked up once, and no chain is followed.
    ///
    /// ```
    /// use warzhigo::Renamed;
    ///
    /// assert!(Renamed::new(&[(1, 3), (2, 3)]).is_ok());
    /// assert_eq!(Renamed::new(&[(1, 2), (2, 3)]).unwrap_err().number(), 14);
    /// ```
    pub fn new(rows: &[(u32, u32)]) -> Result<Renamed, Refused> {
        let words: Vec<u32> = rows.iter().flat_map(|row| [row.0, row.1]).collect();
        Renamed::from_words(&words)
    }

    /// The same as words: old, present, old, present, as [`lent`](crate::lent) takes them. A half row is refused by 14 too.
    pub fn from_words(words: &[u32]) -> Result<Renamed, Refused> {
        Ok(Renamed { index: IndexWords::tested(words)? })
    }

    /// Its rows, in their order.
    pub fn rows(&self) -> impl Iterator<Item = (u32, u32)> + '_ {
        const BUCKETS: usize = 64; // ahead of the rows, three words each
        let rows = self.index.words().get(BUCKETS..).unwrap_or(&[]);
        rows.chunks_exact(3).map(|row| (row[0], row[1]))
    }
}

/// No type is renamed.
impl Default for Renamed {
    fn default() -> Renamed {
        Renamed::none()
    }
}

impl fmt::Debug for Renamed {
    fn fmt(&self, f: &mut fmt::Formatter<'_>) -> fmt::Result {
        f.debug_map().entries(self.rows()).finish()
    }
}

/// What a call is asked to look past: what is ignored, and which types are renamed.
///
/// Calls take anything that it can be made from: `&ignore` alone, where no type is renamed, or `(&ignore, &types)`.
#[derive(Clone, Copy, Debug)]
pub struct Options<'a> {
    /// What is ignored.
    pub ignore: Ignore,
    /// Which types are renamed.
    pub types: &'a Renamed,
}

impl Default for Options<'_> {
    fn default() -> Self {
        Options { ignore: Ignore::NOTHING, types: &NONE }
    }
}

impl From<&Ignore> for Options<'_> {
    #[inline]
    fn from(ignore: &Ignore) -> Self {
        Options { ignore: *ignore, types: &NONE }
    }
}

impl<'a> From<(&Ignore, &'a Renamed)> for Options<'a> {
    #[inline]
    fn from((ignore, types): (&Ignore, &'a Renamed)) -> Self {
        Options { ignore: *ignore, types }
    }
}
