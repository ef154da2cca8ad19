//! Copies, measured: a fragment copied once in a store that holds nothing else, beside pliron's own clone of it.

use std::hint::black_box;
use std::time::Instant;

use warzhigo::{Ignore, Mapping, Store, lent, operation_eq};

use crate::cases::{Shape, fragment};
use crate::fragments::Times;
use crate::race::{Effort, Runner, Series, race};
use crate::shapes::{Call, Sketch};
use crate::sides::{Inner, Pliron, Side, empty_mapping};

/// The sizes, in operations: two fit into a store.
pub const SIZES: [u32; 8] = [1, 3, 5, 10, 20, 50, 150, 250];

const SHAPES: [Shape; 6] = [Shape::Flat, Shape::Nested, Shape::Attributes, Shape::Operands, Shape::Blocks, Shape::Interleaved];

/// Stores that are copied in at one go, so that reading the clock doesn't count.
const AT_ONE_GO: usize = 4;

/// What is copied, and the store with it.
pub struct Original {
    calls: Vec<Call>,
    op: u32,
    store: Store,
}

/// A shape, and nanoseconds for a copy of each size.
pub struct Row {
    pub shape: Shape,
    pub sizes: Vec<Times>,
}

/// Copies on three sides.
pub type Copies = Series<Original, 3>;

pub fn shapes(effort: Effort) -> Copies {
    let originals = SHAPES.into_iter().flat_map(|shape| SIZES.map(|n| Original::new(shape, n)));
    Series::new("copies", originals.collect(), effort, |original, effort| race(original.runners(), effort))
}

pub fn by_shape(copies: Copies) -> Vec<Row> {
    let times: Vec<Times> = copies.rows().map(|(_, [inner, offered, pliron])| Times { inner, offered, pliron }).collect();
    let rows = SHAPES.into_iter().zip(times.chunks(SIZES.len()));
    rows.map(|(shape, sizes)| Row { shape, sizes: sizes.to_vec() }).collect()
}

impl Original {
    /// A fragment whose copy is the same on all sides, as far as hashes see it.
    fn new(shape: Shape, n: u32) -> Original {
        let mut sketch = Sketch::default();
        let op = fragment(&mut sketch, shape, n, 7);
        let mut side = Inner::empty();
        side.build(&sketch.calls);
        let original = Original { calls: sketch.calls, op, store: side.store };
        let (mut store, mut words) = (original.store.clone(), original.store.words().to_vec());
        let mut pliron = original.pliron();
        let id = store.op_id(op).expect("an operation");
        let copy = store.clone_operation(id, None, &mut Mapping::new()).expect("a copy");
        assert_eq!(lent::clone_operation(&mut words, op, None, &mut empty_mapping()), Ok(copy.number()), "another number on lent words");
        assert!(words == store.words(), "another copy on lent words");
        assert_eq!(pliron.0.clone_operation(&mut oracle::Mapping::new(), op, None), copy.number(), "another number in pliron");
        let hash = warzhigo::operation_hash(&store, copy, &Ignore::NOTHING).expect("a hash");
        assert_eq!(pliron.hash(copy.number()), hash, "the library and pliron copy differently");
        original
    }

    fn pliron(&self) -> Pliron {
        let mut side = Pliron::empty();
        side.build(&self.calls);
        side
    }

    /// Each begins with stores as they were, and leaves empty mappings.
    fn runners(&self) -> [Runner<'_>; 3] {
        let op = self.op;
        let mut words: [Box<[u32]>; AT_ONE_GO] = std::array::from_fn(|_| self.store.words().into());
        let mut mappings: [Mapping; AT_ONE_GO] = std::array::from_fn(|_| Mapping::new());
        let inner = runner(move || {
            let mut stores = words.each_mut().map(|words| self.known(words));
            let ids = stores.each_ref().map(|store| store.op_id(op).expect("an operation"));
            // a mapping that was used in the store before
            for ((store, id), mapping) in stores.iter().zip(ids).zip(&mut mappings) {
                operation_eq(store, mapping, id, id, &Ignore::NOTHING).expect("an answer");
                mapping.clear();
            }
            let nanos = timed(|| {
                for ((store, id), mapping) in stores.iter_mut().zip(ids).zip(&mut mappings) {
                    black_box(store.clone_operation(black_box(id), None, mapping).expect("a copy"));
                    mapping.clear();
                }
            });
            words.iter_mut().zip(stores).for_each(|(words, store)| *words = store.into_words());
            nanos
        });
        let mut words: [Box<[u32]>; AT_ONE_GO] = std::array::from_fn(|_| self.store.words().into());
        let mut mapping = empty_mapping();
        let offered = runner(move || {
            words.iter_mut().for_each(|words| words.copy_from_slice(self.store.words()));
            timed(|| {
                for words in &mut words {
                    black_box(lent::clone_operation(words, black_box(op), None, &mut mapping).expect("a copy"));
                    mapping.fill(u32::MAX);
                }
            })
        });
        let pliron = runner(move || {
            let mut sides: [Pliron; AT_ONE_GO] = std::array::from_fn(|_| self.pliron());
            timed(|| {
                for side in &mut sides {
                    black_box(side.0.clone_operation(&mut oracle::Mapping::new(), black_box(op), None));
                }
            })
        });
        [inner, offered, pliron]
    }

    /// The store as it was, in these words.
    fn known(&self, words: &mut Box<[u32]>) -> Store {
        words.copy_from_slice(self.store.words());
        Store::from_words(std::mem::take(words)).expect("a sound store")
    }
}

/// Times what a go of all stores says that it took.
fn runner<'a>(mut go: impl FnMut() -> u64 + 'a) -> Runner<'a> {
    Box::new(move |times| (0..times).map(|_| go()).sum::<u64>() / AT_ONE_GO as u64)
}

fn timed(calls: impl FnOnce()) -> u64 {
    let start = Instant::now();
    calls();
    start.elapsed().as_nanos() as u64
}
