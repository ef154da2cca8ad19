//! The sides that are measured, behind one interface: the library on a store known to be sound (inner), the library on lent words
//! (offered), and pliron's own text. All take building calls by numbers.

mod inner;
mod offered;
mod pliron;

use std::hint::black_box;

use oracle::Verdict;
use warzhigo::{Ignore, Mapping, operation_eq};

use crate::cases::Case;
use crate::race::{Runner, runner};
use crate::shapes::Call;

pub use inner::Inner;
pub use offered::{Offered, empty_mapping};
pub use pliron::Pliron;

/// One side's store.
pub trait Side: Sized {
    /// What a comparison is lent, empty, and leaves empty.
    type Mapping: 'static;
    type Op: Copy;
    type Answer;

    fn empty() -> Self;
    /// The same store without anything in it, in the same memory where that can be.
    fn emptied(self) -> Self;
    fn make(&mut self, call: &Call);
    fn mapping() -> Self::Mapping;
    fn op(&self, number: u32) -> Self::Op;
    fn compare(&self, mapping: &mut Self::Mapping, left: Self::Op, right: Self::Op) -> Self::Answer;
    fn hash(&self, op: Self::Op) -> u64;
    /// An answer in pliron's form.
    fn verdict(answer: Self::Answer) -> Verdict;

    fn build(&mut self, calls: &[Call]) {
        for call in calls {
            self.make(call);
        }
    }
}

/// What a building call gives; none is refused here.
fn accepted<T>(made: Result<T, warzhigo::Refused>) {
    black_box(made.expect("an accepted call"));
}

/// A case on one side.
pub struct Asked<S: Side> {
    pub side: S,
    left: S::Op,
    right: S::Op,
}

impl<S: Side> Asked<S> {
    pub fn new(case: &Case) -> Asked<S> {
        let mut side = S::empty();
        side.build(&case.calls);
        Asked { left: side.op(case.left), right: side.op(case.right), side }
    }

    /// The verdict, and the hashes of the left and the right fragment.
    pub fn answers(&self) -> (Verdict, u64, u64) {
        let answer = self.side.compare(&mut S::mapping(), self.left, self.right);
        (S::verdict(answer), self.side.hash(self.left), self.side.hash(self.right))
    }

    /// The comparison, and the hash of the left fragment.
    pub fn runners(&self) -> [Runner<'_>; 2] {
        let mut mapping = S::mapping();
        let compare = move || {
            let Asked { side, left, right } = black_box(self);
            black_box(side.compare(&mut mapping, *left, *right));
        };
        let hash = move || {
            let Asked { side, left, .. } = black_box(self);
            black_box(side.hash(*left));
        };
        [runner(compare), runner(hash)]
    }
}

impl Asked<Inner> {
    /// The comparison with a mapping that is made for it and dropped, as pliron's is.
    pub fn fresh(&self) -> Runner<'_> {
        runner(move || {
            let Asked { side, left, right } = black_box(self);
            let mut mapping = Mapping::new();
            black_box(operation_eq(&side.store, &mut mapping, *left, *right, &Ignore::NOTHING).expect("an answer"));
        })
    }
}
