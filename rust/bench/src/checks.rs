//! What the offered calls do beside their work, measured: the tests of what they are lent; and emptying a mapping.

use std::hint::black_box;
use std::time::Instant;

use warzhigo::{Ignore, Mapping, OpId, Store, lent};

use crate::cases::{self, SIZES, Shape};
use crate::race::{Effort, Figure, Runner, Series, race, runner};
use crate::shapes::{Call, Sketch};
use crate::sides::{Inner, Side, empty_mapping};

/// A store, and what is lent beside it.
pub struct Lent {
    name: String,
    store: Store,
    mapping: Vec<u32>,
}

impl Lent {
    fn new(name: impl ToString, calls: &[Call]) -> Lent {
        let mut side = Inner::empty();
        side.build(calls);
        assert!(lent::is_sound(side.store.words()), "a store that was built isn't sound");
        Lent { name: name.to_string(), store: side.store, mapping: empty_mapping() }
    }
}

/// The test of a store.
pub struct Soundness {
    pub name: String,
    /// Words in use.
    pub live: u32,
    pub nanos: Figure,
}

/// The test of a mapping, in nanoseconds.
pub struct Allowed {
    pub name: String,
    /// A comparison that tests the store and the mapping, and is then refused.
    pub call: Figure,
    /// The test of the store alone.
    pub sound: Figure,
    /// `Mapping::from_words`, with the copy that it is given.
    pub from_words: Figure,
}

/// `lent::is_sound` in stores that hold more and more.
pub fn soundness(effort: Effort) -> Series<Lent, 1> {
    let mut stores = vec![Lent::new("empty", &[])];
    stores.extend(SIZES.map(|n| one(Shape::Flat, n)));
    let shapes = [Shape::Nested, Shape::Attributes, Shape::Operands, Shape::Blocks, Shape::Interleaved];
    stores.extend(shapes.map(|shape| one(shape, 500)));
    stores.push(Lent::new("at every limit", &cases::full()));
    Series::new("tests of stores", stores, effort, |lent, effort| race([sound(&lent.store)], effort))
}

/// A store with one fragment and nothing else.
fn one(shape: Shape, n: u32) -> Lent {
    let mut sketch = Sketch::default();
    cases::fragment(&mut sketch, shape, n, 7);
    Lent::new(format!("{}, {}", operations(n), shape.name()), &sketch.calls)
}

fn operations(n: u32) -> String {
    format!("{n} operation{}", if n == 1 { "" } else { "s" })
}

fn sound(store: &Store) -> Runner<'_> {
    runner(|| {
        black_box(lent::is_sound(black_box(store.words())));
    })
}

pub fn sound_rows(series: Series<Lent, 1>) -> Vec<Soundness> {
    series.rows().map(|(lent, [nanos])| Soundness { live: live(&lent.store), name: lent.name, nanos }).collect()
}

/// The words in use: the counts, and the rows of everything that there is.
fn live(store: &Store) -> u32 {
    let t = store.totals();
    7 + 14 * t.operations + 3 * t.regions + 9 * t.blocks + 2 * t.values + t.operands + t.successors + 3 * t.attributes
}

/// The test of a lent mapping. No call does that alone: a comparison of what doesn't exist tests the store, then the mapping, and is
/// refused by 2.
pub fn allowed(effort: Effort) -> Series<Lent, 3> {
    let empty = Lent::new("empty mapping beside an empty store", &[]);
    let full = Lent::new("every entry beside a store at every limit", &cases::full());
    let itself = (0..2048).chain(0..256).chain(0..512).collect();
    let cases = vec![empty, Lent { mapping: itself, ..full }];
    Series::new("tests of mappings", cases, effort, |lent, effort| race(tests(&lent.store, &lent.mapping), effort))
}

fn tests<'a>(store: &'a Store, mapping: &'a [u32]) -> [Runner<'a>; 3] {
    let nothing = u32::MAX;
    let mut lent_mapping = mapping.to_vec();
    let mut refused = move || lent::operation_eq(black_box(store.words()), &[], &mut lent_mapping, nothing, nothing, &Ignore::NOTHING);
    assert_eq!(refused().expect_err("there is no such operation").number(), 2, "the mapping isn't allowed");
    let call = runner(move || {
        let _ = black_box(refused());
    });
    let from_words = runner(move || {
        black_box(Mapping::from_words(store, black_box(mapping)).expect("an allowed mapping"));
    });
    [call, sound(store), from_words]
}

pub fn allowed_rows(series: Series<Lent, 3>) -> Vec<Allowed> {
    series.rows().map(|(lent, [call, sound, from_words])| Allowed { name: lent.name, call, sound, from_words }).collect()
}

/// Emptying: all words of a lent mapping, and `Mapping::clear` after a comparison of so many operations; and a mapping made and dropped.
pub fn emptying(effort: Effort) -> Series<Lent, 3> {
    let sizes = [1, 20, 150, 500].map(|n| Lent::new(format!("{}, flat", operations(n)), &cases::case(Shape::Flat, n).calls));
    // The comparison that is not timed takes longer than the clearing that is: short rounds suffice.
    let effort = Effort { round: 2_000, ..effort };
    Series::new("emptying", sizes.into(), effort, |lent, effort| {
        let mut words = lent.mapping.clone();
        let fill = runner(move || black_box(&mut words).fill(u32::MAX));
        let fresh = runner(|| {
            black_box(Mapping::new());
        });
        race([fill, clearing(&lent.store), fresh], effort)
    })
}

/// What was compared, with the nanoseconds of filling all words, of `Mapping::clear` and of a mapping made and dropped.
pub fn emptying_rows(series: Series<Lent, 3>) -> Vec<(String, [Figure; 3])> {
    series.rows().map(|(lent, times)| (lent.name, times)).collect()
}

/// Mappings that are cleared at one go, so that reading the clock doesn't count.
const AT_ONE_GO: usize = 16;

/// Clears mappings; the comparison that fills them isn't timed.
fn clearing(store: &Store) -> Runner<'_> {
    let ops: Vec<OpId> = store.operations().filter(|op| op.parent().is_none()).map(|op| op.id()).collect();
    let (left, right) = (ops[0], ops[ops.len() - 1]);
    let mut mappings: [Mapping; AT_ONE_GO] = std::array::from_fn(|_| Mapping::new());
    Box::new(move |times| {
        let mut nanos = 0;
        for _ in 0..times {
            for mapping in &mut mappings {
                warzhigo::operation_eq(store, mapping, left, right, &Ignore::NOTHING).expect("an answer");
            }
            let start = Instant::now();
            for mapping in black_box(&mut mappings) {
                mapping.clear();
            }
            nanos += start.elapsed().as_nanos() as u64;
        }
        nanos / AT_ONE_GO as u64
    })
}
