//! Comparison and hash, measured: every shape in every size, and one fragment in an empty and in a full store.

use oracle::Verdict;

use crate::cases::{Case, SIZES, Shape, case, twenty};
use crate::race::{Effort, Figure, Rounds, Series, race};
use crate::sides::{Asked, Inner, Offered, Pliron};

/// Nanoseconds on each side.
#[derive(Clone, Copy)]
pub struct Times {
    pub inner: Figure,
    pub offered: Figure,
    pub pliron: Figure,
}

impl Times {
    pub fn inner_ratio(self) -> Figure {
        self.inner / self.pliron
    }

    pub fn offered_ratio(self) -> Figure {
        self.offered / self.pliron
    }
}

/// A case, measured.
#[derive(Clone, Copy)]
pub struct Measured {
    pub comparison: Times,
    /// The inner comparison with a mapping of its own.
    pub fresh: Figure,
    pub hash: Times,
}

impl Measured {
    pub fn fresh_ratio(&self) -> Figure {
        self.fresh / self.comparison.pliron
    }
}

/// The sizes of a shape, measured.
pub struct Row {
    pub shape: Shape,
    pub sizes: Vec<Measured>,
}

/// Comparison and hash on three sides, and the inner comparison with a mapping of its own.
pub type Fragments = Series<Case, 7>;

/// All shapes in all sizes.
pub fn shapes(effort: Effort) -> Fragments {
    let cases = Shape::ALL.into_iter().flat_map(|shape| SIZES.map(|n| checked(case(shape, n), shape != Shape::Unequal)));
    Series::new("comparison and hash", cases.collect(), effort, measure)
}

/// The same, by shapes.
pub fn by_shape(fragments: Fragments) -> Vec<Row> {
    let measured = measured(fragments);
    let rows = Shape::ALL.into_iter().zip(measured.chunks(SIZES.len()));
    rows.map(|(shape, sizes)| Row { shape, sizes: sizes.to_vec() }).collect()
}

/// 20 operations in a store with nothing else, and in a full one.
pub fn around(effort: Effort) -> Fragments {
    let cases = [false, true].map(|full| checked(twenty(full), true));
    Series::new("the store around", cases.into(), effort, measure)
}

pub fn measured(fragments: Fragments) -> Vec<Measured> {
    let measured = fragments.rows().map(|(_, [a, b, c, d, e, f, fresh])| Measured {
        comparison: Times { inner: a, offered: b, pliron: c },
        fresh,
        hash: Times { inner: d, offered: e, pliron: f },
    });
    measured.collect()
}

/// A case of which all sides answer the same, and what is expected.
fn checked(case: Case, equal: bool) -> Case {
    let (inner, offered, pliron) = (Asked::<Inner>::new(&case), Asked::<Offered>::new(&case), Asked::<Pliron>::new(&case));
    let answers = pliron.answers();
    assert_eq!(inner.answers(), answers, "the library and pliron answer differently");
    assert_eq!(offered.answers(), answers, "the library on lent words and pliron answer differently");
    assert_eq!(answers.0 == Verdict::Eq, equal, "the case isn't what it should be");
    assert!(inner.side.store.words() == offered.side.words, "the two ways to build give different stores");
    case
}

/// The comparison on the three sides, then the hash, then the comparison with a mapping of its own.
fn measure(case: &Case, effort: Effort) -> Rounds<7> {
    let (inner, offered, pliron) = (Asked::<Inner>::new(case), Asked::<Offered>::new(case), Asked::<Pliron>::new(case));
    let ([a, d], [b, e], [c, f]) = (inner.runners(), offered.runners(), pliron.runners());
    race([a, b, c, d, e, f, inner.fresh()], effort)
}
