//! Hashes, keys and extents in every way, and the laws.

use oracle::Verdict;
use warzhigo::{Attribute, BlockId, Ignore, Inherent, Mapping, OpId, compare_keys};

use crate::common::bytes_model;
use crate::common::extents_model;
use crate::common::premise;
use crate::common::question::{Question, Sort, extent_inner, extent_is, hash_inner, hash_lent, key_inner, key_is};
use crate::common::walk::Found;
use crate::counts::Counts;
use crate::trial::Trial;

/// Those that are inherent.
fn inherent(attributes: &[Attribute]) -> Vec<Attribute> {
    attributes.iter().copied().filter(|attribute| attribute.inherent == Inherent::Yes).collect()
}

impl Trial {
    /// The hash of one, which is the same in every way.
    pub fn hashed(&self, sort: Sort, n: u32, ignore: Ignore, counts: &mut Counts) -> u64 {
        let context = format!("seed {}: hash of {sort:?} {n}, {ignore:?}", self.seed);
        let hash = hash_inner(&self.store, sort, n, &ignore).expect(&context);
        assert_eq!(hash_lent(self.store.words(), sort, n, &ignore), Ok(hash), "{context}");
        assert_eq!(self.oracle.hash(sort, n, ignore.locations, ignore.bits), hash, "{context}");
        assert_eq!(bytes_model::hash(&self.picture, sort, n, ignore), hash, "{context}");
        counts.hashes += 1;
        hash
    }

    /// The key of one, which is the same in every way.
    pub fn keyed(&self, sort: Sort, n: u32, ignore: Ignore, counts: &mut Counts) -> Vec<u8> {
        let context = format!("seed {}: key of {sort:?} {n}, {ignore:?}", self.seed);
        let key = bytes_model::key(&self.picture, sort, n, ignore);
        key_is(&self.store, sort, n, &ignore, &key, &context);
        let extent = extents_model::extent(&self.picture, sort, n, &ignore);
        extent_is(&self.store, sort, n, &ignore, extent, &context);
        counts.deepest_extent = counts.deepest_extent.max(extent.nesting);
        counts.keys += 1;
        counts.longest_key = counts.longest_key.max(key.len());
        key
    }

    /// Fragments with the same key are equal; equal ones have the same key where the left one names nothing that the right one defines.
    fn filed(&self, question: &Question, equal: bool, counts: &mut Counts) {
        let Question { sort, lhs, rhs, ignore } = *question;
        let context = format!("seed {}: {question:?}", self.seed);
        let [left, right] = [lhs, rhs].map(|n| self.keyed(sort, n, ignore, counts));
        assert_eq!(compare_keys(&left, &right), left.cmp(&right), "{context}: the order of keys");
        assert_eq!(compare_keys(&right, &left), right.cmp(&left), "{context}: the order of keys");
        assert!(equal || left != right, "{context}: unequal, and one key");
        if equal && premise::left_holds(&self.picture, sort, lhs, rhs) {
            assert_eq!(left, right, "{context}: equal, and two keys");
            counts.equal_and_one_key += (lhs != rhs) as u64;
        }
        counts.equal_and_two_keys += (equal && left != right) as u64;
    }

    /// The keys of all operations, blocks or regions of a store stand in one order, by the library as in Rust.
    pub fn shelf(&mut self, counts: &mut Counts) {
        let Question { sort, ignore, .. } = self.question();
        let context = format!("seed {}: keys of {sort:?}, {ignore:?}", self.seed);
        let keys = (0..self.count(sort)).map(|n| key_inner(&self.store, sort, n, &ignore).expect(&context));
        let mut shelf: Vec<Vec<u8>> = keys.collect();
        let mut sorted = shelf.clone();
        sorted.sort();
        shelf.sort_by(|l, r| compare_keys(l, r));
        assert_eq!(shelf, sorted, "{context}");
        // keys of one sort under one rule end where they end: none is a proper beginning of another
        assert!(shelf.windows(2).all(|two| two[0] == two[1] || !two[1].starts_with(&two[0])), "{context}");
        counts.shelves += (shelf.len() > 2) as u64;
    }

    /// What corresponds in two equal fragments has the same inherent attributes, key by key, whatever is ignored.
    fn same_inherent(&self, mapping: &Mapping, ignore: Ignore, context: &str, counts: &mut Counts) {
        let op = |n: OpId| inherent(&self.picture.ops[n.number() as usize].attributes);
        let block = |n: BlockId| inherent(&self.picture.blocks[n.number() as usize].attributes);
        let ops = mapping.ops().map(|(l, r)| [op(l), op(r)]);
        for [left, right] in ops.chain(mapping.blocks().map(|(l, r)| [block(l), block(r)])) {
            assert_eq!(left, right, "{context}: equal, and other inherent attributes");
            counts.inherent_on_both += !left.is_empty() as u64;
            counts.never_ignored += left.iter().any(|attribute| ignore.bits >> attribute.kind & 1 == 1) as u64;
        }
    }

    /// An equal comparison from an empty mapping pairs the operations and the blocks of either fragment, whatever is ignored.
    fn paired_as_counted(&self, found: Found, sort: Sort, two: [u32; 2], context: &str) {
        let ignore = Ignore { locations: true, bits: u64::MAX };
        for n in two.into_iter().filter(|_| found.verdict == Verdict::Eq) {
            let extent = extent_inner(&self.store, sort, n, &ignore).expect(context);
            assert_eq!(found.paired, extent.operations + extent.blocks, "{context}: extent of {n}");
        }
    }

    /// Reflexive; and where the premise holds, equal gives symmetric and equal hashes.
    pub fn laws(&mut self, mapping: &mut Mapping, counts: &mut Counts) {
        let question = self.question();
        let context = format!("seed {}: {question:?}", self.seed);
        let Question { sort, lhs, rhs, ignore } = question;
        let mut is_equal = |lhs, rhs| {
            let found = Question { lhs, rhs, ..question }.inner(&self.store, mapping).expect(&context);
            self.paired_as_counted(found, sort, [lhs, rhs], &context);
            if found.verdict == Verdict::Eq && lhs != rhs {
                self.same_inherent(mapping, ignore, &context, counts);
            }
            self.cleared(mapping);
            found.verdict == Verdict::Eq
        };
        assert!(is_equal(lhs, lhs) && is_equal(rhs, rhs), "{context}: not reflexive");
        let (equal, back) = (is_equal(lhs, rhs), is_equal(rhs, lhs));
        counts.reflexive += 2;
        self.filed(&question, equal, counts);
        if !premise::holds(&self.picture, sort, lhs, rhs) {
            counts.equal_without_premise += equal as u64;
            return;
        }
        assert_eq!(equal, back, "{context}: not symmetric");
        if equal {
            assert_eq!(self.hashed(sort, lhs, ignore, counts), self.hashed(sort, rhs, ignore, counts), "{context}: equal, and two hashes");
            counts.premise_and_equal += 1;
        }
    }
}
