//! The mapping as a document: what holds of the mappings that equal comparisons enter into empty ones.

use std::collections::BTreeMap;

use oracle::Verdict;
use warzhigo::{Ignore, Mapping, Renamed, Store};

use super::defined::Defined;
use super::picture::Picture;
use super::premise;
use super::question::{Question, Sort};
use super::walk::Entries;

/// In which store fragments of which sort are compared, and what is looked past; and a name for all that.
pub struct Asked<'a> {
    pub store: &'a Store,
    pub picture: &'a Picture,
    pub sort: Sort,
    pub ignore: Ignore,
    pub types: &'a Renamed,
    pub of: &'a str,
}

/// Exactly what left defines has an entry, and exactly what right defines is an image, each once.
fn pairs_all(entries: &BTreeMap<u32, u32>, left: &[u32], right: &[u32], context: &str) {
    let sorted = |mut numbers: Vec<u32>| {
        numbers.sort();
        numbers
    };
    assert_eq!(entries.keys().copied().collect::<Vec<_>>(), sorted(left.to_vec()), "{context}: what has an entry");
    assert_eq!(sorted(entries.values().copied().collect()), sorted(right.to_vec()), "{context}: images");
}

impl Asked<'_> {
    fn context(&self, fragments: &[u32]) -> String {
        format!("{}: {:?} {fragments:?}, {:?}, {:?}", self.of, self.sort, self.ignore, self.types)
    }

    /// The mapping that a comparison enters into an empty one, if the two are equal: a bijection, which is the two orders of definition side
    /// by side.
    pub fn filed(&self, lhs: u32, rhs: u32) -> Option<Mapping> {
        let (context, mut mapping) = (self.context(&[lhs, rhs]), Mapping::new());
        let question = Question { sort: self.sort, lhs, rhs, ignore: self.ignore };
        let found = question.inner_under(self.types, self.store, &mut mapping).expect(&context);
        assert!(mapping.inverse().is_some(), "{context}: an image comes twice, equal or not");
        if found.verdict != Verdict::Eq {
            return None;
        }
        let [left, right] = [lhs, rhs].map(|n| Defined::by(self.picture, self.sort, n));
        let entries = Entries::of_mapping(&mapping);
        pairs_all(&entries.values, &left.values, &right.values, &context);
        pairs_all(&entries.blocks, &left.blocks, &right.blocks, &context);
        pairs_all(&entries.ops, &left.ops, &right.ops, &context);
        assert_eq!(mapping.entries().collect::<Vec<_>>(), left.beside(&right).listed(self.store), "{context}: side by side");
        Some(mapping)
    }

    /// Of the mapping of two equal ones: read backwards it is that of the comparison the other way, which is equal where the premise holds.
    /// Gives whether it is.
    pub fn reads_backwards(&self, lhs: u32, rhs: u32, mapping: &Mapping) -> bool {
        let context = self.context(&[lhs, rhs]);
        let inverse = mapping.inverse().expect(&context);
        assert_eq!(inverse.inverse().as_ref(), Some(mapping), "{context}: backwards twice");
        match self.filed(rhs, lhs) {
            Some(back) => {
                assert_eq!(inverse, back, "{context}: backwards");
                assert!(inverse.words() == back.words(), "{context}: backwards, as words");
                true
            }
            None => {
                assert!(!premise::holds(self.picture, self.sort, lhs, rhs), "{context}: equal one way only");
                false
            }
        }
    }

    /// Of a fragment that is equal to the next one, and that to the last: the first mapping followed by the second is that of the first and
    /// the last, which are equal where the premise holds of both pairs. None if they are not.
    pub fn followed(&self, fragments: [u32; 3]) -> Option<Mapping> {
        let (context, [left, middle, right]) = (self.context(&fragments), fragments);
        let (one, other) = self.filed(left, middle).zip(self.filed(middle, right))?;
        let both = one.then(&other).expect(&context);
        match self.filed(left, right) {
            Some(whole) => {
                assert_eq!(both, whole, "{context}: one after the other");
                assert!(both.words() == whole.words(), "{context}: one after the other, as words");
                Some(both)
            }
            None => {
                let holds = |l, r| premise::holds(self.picture, self.sort, l, r);
                assert!(!holds(left, middle) || !holds(middle, right), "{context}: equal by pairs only");
                None
            }
        }
    }
}
