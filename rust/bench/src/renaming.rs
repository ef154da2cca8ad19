//! Calls under a list of 64 renamed types, measured beside the same calls under none: pliron has no such list.

use std::hint::black_box;

use warzhigo::{Ignore, Mapping, OpId, Renamed, Store, lent, operation_eq, operation_hash, operation_key_into};

use crate::cases::{SIZES, Shape, case, two_fit};
use crate::race::{Effort, Figure, Runner, Series, race, runner};
use crate::sides::{Inner, Side};

/// Where the types of values begin in the words of a store.
const VALUE_TYPE: usize = 9224;

/// What a type is renamed to.
const RENAMED: u32 = 1000;

/// A store of two fragments, flat, and the same with the right one's types renamed already.
pub struct Listed {
    store: Store,
    other: Store,
    numbers: [u32; 2],
    words: Vec<u32>,
    types: Renamed,
}

/// Nanoseconds.
#[derive(Clone, Copy)]
pub struct Times {
    pub comparison: Figure,
    /// The same with a mapping of its own.
    pub comparison_fresh: Figure,
    /// The same under the list: no type differs.
    pub comparison_same: Figure,
    /// Under the list, where every type differs from the one it is compared with.
    pub comparison_other: Figure,
    pub hash: Figure,
    pub hash_listed: Figure,
    pub key: Figure,
    pub key_listed: Figure,
    /// The offered hash, lent the list as it is: it is tested and indexed.
    pub offered: Figure,
    pub offered_listed: Figure,
    /// `Renamed::from_words`.
    pub made: Figure,
}

pub type Lists = Series<Listed, 11>;

/// The flat shape, in the sizes of which two fit.
pub fn sizes() -> impl Iterator<Item = u32> {
    SIZES.into_iter().filter(|n| two_fit(*n))
}

pub fn lists(effort: Effort) -> Lists {
    Series::new("renamed types", sizes().map(Listed::new).collect(), effort, |listed, effort| race(listed.runners(), effort))
}

pub fn rows(lists: Lists) -> Vec<Times> {
    let times = |(_, [comparison, comparison_fresh, comparison_same, comparison_other, others @ ..]): (Listed, [Figure; 11])| {
        let [hash, hash_listed, key, key_listed, offered, offered_listed, made] = others;
        Times {
            comparison,
            comparison_fresh,
            comparison_same,
            comparison_other,
            hash,
            hash_listed,
            key,
            key_listed,
            offered,
            offered_listed,
            made,
        }
    };
    lists.rows().map(times).collect()
}

impl Listed {
    fn new(n: u32) -> Listed {
        let case = case(Shape::Flat, n);
        let mut side = Inner::empty();
        side.build(&case.calls);
        let store = side.store;
        let values = store.values().count();
        let mut words = store.words().to_vec();
        let right = &mut words[VALUE_TYPE..][values / 2..values];
        right.iter_mut().for_each(|t| *t += RENAMED);
        let other = Store::from_words(words).expect("a store with other types");
        let rows: Vec<u32> = (0..64).flat_map(|t| [t, t + RENAMED]).collect();
        let types = Renamed::from_words(&rows).expect("a list that holds");
        let listed = Listed { store, other, numbers: [case.left, case.right], words: rows, types };
        assert!(listed.compare(&listed.other, &mut Mapping::new(), &listed.types), "unequal under the list");
        assert!(!listed.compare(&listed.other, &mut Mapping::new(), &Renamed::none()), "equal under no list");
        listed
    }

    fn ids(&self, store: &Store) -> [OpId; 2] {
        self.numbers.map(|n| store.op_id(n).expect("an operation"))
    }

    fn compare(&self, store: &Store, mapping: &mut Mapping, types: &Renamed) -> bool {
        let [l, r] = self.ids(store);
        let equal = operation_eq(store, mapping, l, r, (&Ignore::NOTHING, types)).expect("an answer").is_eq();
        mapping.clear();
        equal
    }

    fn comparison<'a>(&'a self, store: &'a Store, types: &'a Renamed) -> Runner<'a> {
        let mut mapping = Mapping::new();
        runner(move || {
            black_box(black_box(self).compare(store, &mut mapping, types));
        })
    }

    /// Under no list, with a mapping of its own.
    fn fresh(&self) -> Runner<'_> {
        let [l, r] = self.ids(&self.store);
        runner(move || {
            let mut mapping = Mapping::new();
            black_box(operation_eq(black_box(&self.store), &mut mapping, l, r, &Ignore::NOTHING).expect("an answer"));
        })
    }

    fn hash<'a>(&'a self, types: &'a Renamed) -> Runner<'a> {
        let [l, _] = self.ids(&self.store);
        runner(move || {
            black_box(operation_hash(black_box(&self.store), l, (&Ignore::NOTHING, types)).expect("a hash"));
        })
    }

    fn key<'a>(&'a self, types: &'a Renamed) -> Runner<'a> {
        let [l, _] = self.ids(&self.store);
        let mut bytes = vec![0; lent::key_bytes()];
        runner(move || {
            black_box(operation_key_into(black_box(&self.store), l, (&Ignore::NOTHING, types), &mut bytes).expect("a key"));
        })
    }

    fn offered<'a>(&'a self, words: &'a [u32]) -> Runner<'a> {
        runner(move || {
            black_box(lent::operation_hash(black_box(self.store.words()), words, self.numbers[0], &Ignore::NOTHING).expect("a hash"));
        })
    }

    fn runners(&self) -> [Runner<'_>; 11] {
        static NONE: Renamed = Renamed::none();
        let made = runner(|| {
            black_box(Renamed::from_words(black_box(&self.words)).expect("a list that holds"));
        });
        [
            self.comparison(&self.store, &NONE),
            self.fresh(),
            self.comparison(&self.store, &self.types),
            self.comparison(&self.other, &self.types),
            self.hash(&NONE),
            self.hash(&self.types),
            self.key(&NONE),
            self.key(&self.types),
            self.offered(&[]),
            self.offered(&self.words),
            made,
        ]
    }
}
