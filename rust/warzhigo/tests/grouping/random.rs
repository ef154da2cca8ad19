//! Random stores: independence against the premise as the tests read it, and twins against a plain search.

use std::collections::{BTreeMap, BTreeSet};

use warzhigo::{Ignore, Mapping, Renamed, Store};

use crate::common::numbers::Random;
use crate::common::offered::SORTS;
use crate::common::picture::Picture;
use crate::common::premise;
use crate::common::question::{Question, Sort, hash_inner, ignore_rule, independent_inner, independent_lent, key_inner};
use crate::counts::Counts;
use crate::stores;
use crate::{Twins, twins_under};

/// How many stores are made.
const STORES: u64 = 600;

/// Fewer fragments than this are asked about in all pairs.
const FEW: u32 = 16;

/// A store, and what is asked of it.
struct Trial {
    random: Random,
    store: Store,
    picture: Picture,
    ignore: Ignore,
    list: Vec<u32>,
    types: Renamed,
    context: String,
}

impl Trial {
    fn new(seed: u64) -> Trial {
        let (store, mut random) = (stores::store(seed), Random::new(!seed));
        let picture = Picture::of(&store, &format!("seed {seed}"));
        let (ignore, list) = (ignore_rule(&mut random), list(&mut random, &picture));
        let context = format!("seed {seed}, {ignore:?} under {list:?}");
        let types = Renamed::from_words(&list).expect("a list that holds");
        Trial { random, store, picture, ignore, list, types, context }
    }

    fn count(&self, sort: Sort) -> u32 {
        let count = match sort {
            Sort::Op => self.picture.ops.len(),
            Sort::Block => self.picture.blocks.len(),
            Sort::Region => self.picture.regions.len(),
        };
        count as u32
    }

    /// Pairs of one sort: all, or many of them.
    fn pairs(&mut self, sort: Sort) -> Vec<(u32, u32)> {
        match self.count(sort) {
            0 => Vec::new(),
            count if count < FEW => (0..count).flat_map(|l| (0..count).map(move |r| (l, r))).collect(),
            count => (0..FEW * FEW).map(|_| (self.random.below(count), self.random.below(count))).collect(),
        }
    }

    /// Independence is the premise, by ids and, of some pairs, on lent words.
    fn independence(&mut self, counts: &mut Counts) {
        for sort in SORTS {
            for (l, r) in self.pairs(sort) {
                let context = format!("{}: {sort:?} {l} and {r}", self.context);
                let holds = premise::holds(&self.picture, sort, l, r);
                assert_eq!(independent_inner(&self.store, sort, l, r), Ok(holds), "{context}");
                if self.random.chance(10) {
                    assert_eq!(independent_lent(self.store.words(), sort, l, r), Ok(holds), "{context}");
                }
                counts.independent += (holds && l != r) as u64;
                if !holds {
                    self.count_names(sort, l, r, counts);
                }
            }
        }
    }

    /// Why two aren't independent.
    fn count_names(&self, sort: Sort, l: u32, r: u32, counts: &mut Counts) {
        match [(l, r), (r, l)].map(|(l, r)| premise::left_holds(&self.picture, sort, l, r)) {
            [true, true] => counts.sharing += 1,
            [false, false] => counts.named_both_ways += 1,
            _ => counts.named_one_way += 1,
        }
    }

    /// Is the left operation equal to the right one, compared from an empty mapping?
    fn is_equal(&self, mapping: &mut Mapping, lhs: u32, rhs: u32) -> bool {
        let question = Question { sort: Sort::Op, lhs, rhs, ignore: self.ignore };
        let found = question.inner_under(&self.types, &self.store, mapping).expect(&self.context);
        mapping.clear();
        found.verdict == oracle::Verdict::Eq
    }

    fn holds(&self, l: u32, r: u32) -> bool {
        premise::holds(&self.picture, Sort::Op, l, r)
    }

    /// Of each operation the first one before it that is equal to it and under the premise, of all before it.
    fn plain(&self, mapping: &mut Mapping, counts: &mut Counts) -> Twins {
        let mut twin = |n| {
            let mut equal = (0..n).filter(|m| self.is_equal(mapping, *m, n));
            equal.find(|m| {
                let holds = self.holds(*m, n);
                counts.equal_and_named += !holds as u64;
                holds
            })
        };
        (0..self.count(Sort::Op)).map(&mut twin).collect()
    }

    /// Twins are those of the plain search; what is one has none, and those that have the same one are twins of each other.
    fn twins(&mut self, mapping: &mut Mapping, counts: &mut Counts) {
        let twins = twins_under(&self.store, &self.ignore, &self.list);
        assert_eq!(twins, self.plain(mapping, counts), "{}", self.context);
        for (first, group) in groups(&twins) {
            assert_eq!(twins[first as usize], None, "{}: {first} is a twin and has one", self.context);
            self.consistent(mapping, &group);
            counts.large_groups += (group.len() > 2) as u64;
        }
        self.count_twins(&twins, counts);
    }

    /// All of a group, its first included, are equal to each other, whichever is on the left, and under the premise, with one hash and one key.
    fn consistent(&self, mapping: &mut Mapping, group: &[u32]) {
        let (options, context) = ((&self.ignore, &self.types), format!("{}: the group {group:?}", self.context));
        let hash = |n: u32| hash_inner(&self.store, Sort::Op, n, options).expect(&context);
        let key = |n: u32| key_inner(&self.store, Sort::Op, n, options).expect(&context);
        for (i, l) in group.iter().copied().enumerate() {
            assert!(hash(l) == hash(group[0]) && key(l) == key(group[0]), "{context}: {l}");
            for r in group[i + 1..].iter().copied() {
                assert!(self.is_equal(mapping, l, r) && self.is_equal(mapping, r, l) && self.holds(l, r), "{context}: {l} and {r}");
            }
        }
    }

    fn count_twins(&self, twins: &Twins, counts: &mut Counts) {
        let ops = &self.picture.ops;
        let [without_list, without_rule] = [(&self.ignore, &[][..]), (&Ignore::NOTHING, &self.list)];
        let alone = |(ignore, list)| {
            let others = twins_under(&self.store, ignore, list);
            twins.iter().zip(others).filter(|(twin, other)| twin.is_some() && other.is_none()).count() as u64
        };
        counts.by_list += alone(without_list);
        counts.by_rule += alone(without_rule);
        for (op, _) in ops.iter().zip(twins).filter(|(_, twin)| twin.is_some()) {
            counts.twins += 1;
            counts.twins_inside += op.parent.is_some() as u64;
            counts.twins_with_regions += !op.regions.is_empty() as u64;
        }
    }
}

/// A list of renamed types that makes types of the store one, or an empty one.
fn list(random: &mut Random, picture: &Picture) -> Vec<u32> {
    let types: BTreeSet<u32> = picture.values.iter().map(|value| value.ty).collect();
    let renamed = if random.chance(60) { 0 } else { 80 };
    let olds = types.into_iter().filter(|_| random.chance(renamed)).take(64);
    olds.flat_map(|old| [old, 2_000_000]).collect()
}

/// The groups: those that have the same twin, behind that one.
fn groups(twins: &Twins) -> BTreeMap<u32, Vec<u32>> {
    let mut groups = BTreeMap::new();
    for (n, twin) in (0..).zip(twins) {
        if let Some(first) = twin {
            groups.entry(*first).or_insert_with(|| vec![*first]).push(n);
        }
    }
    groups
}

#[test]
fn independence_is_the_premise_and_twins_are_those_of_a_plain_search() {
    let (mut counts, mut mapping) = (Counts::default(), Mapping::new());
    for seed in 0..STORES {
        let mut trial = Trial::new(seed);
        trial.independence(&mut counts);
        trial.twins(&mut mapping, &mut counts);
        counts.stores += 1;
    }
    println!("{counts:#?}");
    counts.often_enough();
}
