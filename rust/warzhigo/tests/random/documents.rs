//! Mappings as documents: those of equal comparisons, under any ignore rule and list of renamed types.

use warzhigo::{Entry, Renamed};

use crate::common::document::Asked;
use crate::common::question::Question;
use crate::counts::Counts;
use crate::trial::Trial;

impl Trial {
    /// Two fragments, and often a third; the list is often empty, and where it doesn't hold it is.
    pub fn document(&mut self, counts: &mut Counts) {
        let Question { sort, lhs, rhs, ignore } = self.question();
        let words = if self.random.chance(60) { self.types() } else { Vec::new() };
        let types = Renamed::from_words(&words).unwrap_or_default();
        let any = self.random.below(self.count(sort));
        let third = self.random.pick(&[lhs, rhs, any, any, any]);
        let of = format!("seed {}", self.seed);
        let asked = Asked { store: &self.store, picture: &self.picture, sort, ignore, types: &types, of: &of };
        let Some(mapping) = asked.filed(lhs, rhs) else { return };
        counts.documents += 1;
        counts.documents_renamed += (types.rows().count() > 0) as u64;
        match asked.reads_backwards(lhs, rhs, &mapping) {
            true => counts.backwards += 1,
            false => counts.one_way += 1,
        }
        if asked.followed([lhs, rhs, third]).is_some() {
            counts.followed += 1;
            counts.followed_by_a_third += (lhs != rhs && rhs != third && third != lhs) as u64;
        }
        let own = asked.filed(lhs, lhs).expect("a fragment is equal to itself");
        assert!(own.entries().all(is_identity), "{of}: {sort:?} {lhs} with itself");
        assert_eq!(own.then(&mapping), Ok(mapping), "{of}: {sort:?} {lhs}, {rhs}");
    }
}

fn is_identity(entry: Entry) -> bool {
    match entry {
        Entry::Value(left, right) => left == right,
        Entry::Block(left, right) => left == right,
        Entry::Op(left, right) => left == right,
    }
}
