//! The twins of a store's operations, beside the same in Rust over pliron's own hash and comparison.

use std::collections::HashMap;
use std::hash::{BuildHasher, BuildHasherDefault, Hasher, RandomState};
use std::hint::black_box;

use oracle::{Oracle, Sort, Verdict};
use warzhigo::{Ignore, lent};

use crate::fragments::Times;
use crate::race::{Effort, Figure, Runner, Series, race, runner};
use crate::shapes::{Call, Sketch};
use crate::sides::{Inner, Offered, Pliron, Side};

/// As many operations as a store has room for: one with a block, and all others in it.
pub const OPERATIONS: u32 = 512;

/// How many of the operations in the block are alike.
#[derive(Clone, Copy)]
enum Filling {
    /// None.
    Different,
    /// Eight of each kind.
    Kinds,
    /// All.
    Alike,
}

impl Filling {
    const ALL: [Filling; 3] = [Filling::Different, Filling::Kinds, Filling::Alike];

    fn name(self) -> &'static str {
        match self {
            Filling::Different => "no two alike",
            Filling::Kinds => "64 kinds, by turns",
            Filling::Alike => "all alike",
        }
    }

    fn kind(self, i: u32) -> u32 {
        match self {
            Filling::Different => 100 + i,
            Filling::Kinds => 100 + i % 64,
            Filling::Alike => 100,
        }
    }

    /// The twin of the operation of this number; the first is the one that all others are in.
    fn twin(self, number: u32) -> Option<u32> {
        let first = match self {
            Filling::Different => return None,
            Filling::Kinds => 1 + number.checked_sub(1)? % 64,
            Filling::Alike => 1,
        };
        (first < number).then_some(first)
    }

    fn calls(self) -> Vec<Call> {
        let mut sketch = Sketch::default();
        let form = sketch.root(7, None);
        let (block, argument) = sketch.block(form.region, 1);
        for i in 0..OPERATIONS - 1 {
            sketch.leaf(self.kind(i), block, argument);
        }
        sketch.calls
    }
}

/// A store on each side.
pub struct Grouped {
    filling: Filling,
    inner: Inner,
    offered: Offered,
    pliron: Pliron,
}

/// What stands in the store, and nanoseconds for its twins: pliron's side with the quick hasher.
pub struct Row {
    pub name: &'static str,
    pub times: Times,
    /// pliron's side with the hasher that a `HashMap` has of itself.
    pub by_default: Figure,
}

pub type Twins = Series<Grouped, 4>;

pub fn twins(effort: Effort) -> Twins {
    let stores = Filling::ALL.map(Grouped::new);
    Series::new("twins of operations", stores.into(), effort, |grouped, effort| race(grouped.runners(), effort))
}

pub fn rows(twins: Twins) -> Vec<Row> {
    let row = |(grouped, [inner, offered, pliron, by_default]): (Grouped, [Figure; 4])| Row {
        name: grouped.filling.name(),
        times: Times { inner, offered, pliron },
        by_default,
    };
    twins.rows().map(row).collect()
}

/// A quick hasher, for words that are hashes already: one product, whose upper bits find the bucket.
#[derive(Default)]
struct QuickHasher(u64);

impl Hasher for QuickHasher {
    /// Hashes come by `write_u64`; the trait asks for this one too.
    fn write(&mut self, bytes: &[u8]) {
        bytes.iter().for_each(|byte| self.write_u64(u64::from(*byte)));
    }

    fn write_u64(&mut self, word: u64) {
        self.0 = (self.0 ^ word).wrapping_mul(0x9e3779b97f4a7c15);
    }

    fn finish(&self) -> u64 {
        self.0.rotate_left(26)
    }
}

type Quick = BuildHasherDefault<QuickHasher>;

/// The first operation before each that is equal to it: of those that have its hash, the first that its comparison finds. That the two are
/// independent isn't asked.
fn hashed_and_compared<S: BuildHasher + Default>(oracle: &Oracle) -> Vec<Option<u32>> {
    let mut by_hash: HashMap<u64, Vec<u32>, S> = HashMap::default();
    let twin = |n| {
        let earlier = by_hash.entry(oracle.hash(Sort::Op, n, false, 0)).or_default();
        let twin = earlier.iter().copied().find(|m| is_equal(oracle, *m, n));
        earlier.push(n);
        twin
    };
    (0..OPERATIONS).map(twin).collect()
}

fn is_equal(oracle: &Oracle, lhs: u32, rhs: u32) -> bool {
    oracle.compare(&mut oracle::Mapping::new(), Sort::Op, lhs, rhs, false, 0) == Verdict::Eq
}

impl Grouped {
    /// A store whose twins are known, and the same on all sides.
    fn new(filling: Filling) -> Grouped {
        let (mut inner, mut offered, mut pliron) = (Inner::empty(), Offered::empty(), Pliron::empty());
        let calls = filling.calls();
        inner.build(&calls);
        offered.build(&calls);
        pliron.build(&calls);
        let grouped = Grouped { filling, inner, offered, pliron };
        let expected: Vec<Option<u32>> = (0..OPERATIONS).map(|n| filling.twin(n)).collect();
        let mut words = [0; OPERATIONS as usize];
        grouped.offered(&mut words);
        let by_ids: Vec<Option<u32>> = grouped.inner().into_iter().map(|twin| twin.map(|op| op.number())).collect();
        assert_eq!(by_ids, expected, "{}", filling.name());
        assert!(words.iter().copied().eq(expected.iter().map(|twin| twin.unwrap_or(u32::MAX))), "{}, on lent words", filling.name());
        assert_eq!(hashed_and_compared::<Quick>(&grouped.pliron.0), expected, "{}, by pliron", filling.name());
        assert_eq!(hashed_and_compared::<RandomState>(&grouped.pliron.0), expected, "{}, by pliron", filling.name());
        grouped
    }

    fn inner(&self) -> Vec<Option<warzhigo::OpId>> {
        self.inner.store.twins_of_operations(&Ignore::NOTHING).expect("the twins")
    }

    fn offered(&self, words: &mut [u32]) {
        lent::twins_of_operations(&self.offered.words, &[], &Ignore::NOTHING, words).expect("the twins");
    }

    fn runners(&self) -> [Runner<'_>; 4] {
        let inner = runner(move || {
            black_box(black_box(self).inner());
        });
        let mut words = [0; OPERATIONS as usize];
        let offered = runner(move || black_box(self).offered(black_box(&mut words)));
        let pliron = runner(move || {
            black_box(hashed_and_compared::<Quick>(black_box(&self.pliron.0)));
        });
        let by_default = runner(move || {
            black_box(hashed_and_compared::<RandomState>(black_box(&self.pliron.0)));
        });
        [inner, offered, pliron, by_default]
    }
}
