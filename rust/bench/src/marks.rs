//! Marks, measured: one set and gone back to, beside a copy of all words, which is what one makes without marks; building calls with a mark
//! set; and the test of a store that has marks. pliron has none.

use std::hint::black_box;
use std::time::Instant;

use warzhigo::{MarkId, Store, lent};

use crate::building::{self, Calls};
use crate::cases::{self, Shape};
use crate::race::{Effort, Figure, Pass, Runner, Series, race, runner};
use crate::shapes::{self, Call, NewOperation, Sketch};
use crate::sides::{Inner, Side};
use crate::table::thousands;

const MARK: MarkId = MarkId(1);

/// All that is measured.
pub struct Marks {
    trips: Series<Trip, 3>,
    calls: Series<Calls, 2>,
    soundness: Series<Marked, 3>,
}

/// The same, with names and nanoseconds.
pub struct Rows {
    /// A mark set and gone back to: on a store known to be sound, on lent words, and by copies.
    pub trips: Vec<(String, [Figure; 3])>,
    /// One building call, with how many were measured: without a mark, and with one.
    pub calls: Vec<(&'static str, usize, [Figure; 2])>,
    /// The test of a store without a mark, with one and with eight.
    pub soundness: Vec<(String, [Figure; 3])>,
}

pub fn all(middle: Effort, short: Effort) -> Marks {
    Marks { trips: trips(middle), calls: building::marked_calls(middle), soundness: soundness(short) }
}

impl Pass for Marks {
    fn name(&self) -> &'static str {
        "marks"
    }

    fn pass(&mut self) {
        let parts: [&mut dyn Pass; 3] = [&mut self.trips, &mut self.calls, &mut self.soundness];
        parts.into_iter().for_each(|part| part.pass());
    }
}

impl Marks {
    pub fn rows(self) -> Rows {
        Rows {
            trips: self.trips.rows().map(|(trip, nanos)| (trip.name, nanos)).collect(),
            calls: building::marked_rows(self.calls),
            soundness: self.soundness.rows().map(|(marked, nanos)| (marked.name, nanos)).collect(),
        }
    }
}

/// A store, and what is changed in it since the mark.
struct Trip {
    name: String,
    before: Vec<Call>,
    since: Vec<Call>,
}

fn trips(effort: Effort) -> Series<Trip, 3> {
    let trips = [(20, 0, 0), (20, 10, 10), (150, 10, 10), (500, 10, 10), (400, 100, 100), (400, 1000, 100)];
    let trips = trips.map(|(operations, replacements, new)| Trip::new(operations, replacements, new));
    Series::new("marks set and gone back to", trips.into(), effort, |trip, effort| race(trip.runners(), effort))
}

/// Stores that are taken along at one go, so that reading the clock doesn't count.
const AT_ONE_GO: usize = 4;

impl Trip {
    /// A flat fragment, and replaced operands and new operations in its block.
    fn new(operations: u32, replacements: u32, new: u32) -> Trip {
        let mut sketch = Sketch::default();
        shapes::flat(&mut sketch, 7, operations, shapes::PLAIN);
        let before = sketch.calls.len();
        for i in 0..new {
            sketch.leaf(8, 0, i % 2);
        }
        let mut since = sketch.calls.split_off(before);
        since.extend((0..replacements).map(|i| Call::Operand { op: 1 + i % (operations - 1), index: i % 2, value: i % 7 }));
        let name = format!("{operations} operations; since then {} replacements, {new} new operations", thousands(replacements.into()));
        let trip = Trip { name, before: sketch.calls, since };
        let mut store = trip.built().store;
        let before = root_hash(&store);
        store.mark(MARK).expect("a mark");
        let mut changed = Inner::of(store);
        changed.build(&trip.since);
        changed.store.go_back(MARK).expect("a mark that is set");
        assert_eq!(root_hash(&changed.store), before, "{}: not what it was", trip.name);
        trip
    }

    fn built(&self) -> Inner {
        let mut side = Inner::empty();
        side.build(&self.before);
        side
    }

    fn runners(&self) -> [Runner<'_>; 3] {
        let mut kept: [Inner; AT_ONE_GO] = std::array::from_fn(|_| self.built());
        let inner = self.runner(move |changes| {
            let set = timed(|| kept.iter_mut().for_each(|side| side.store.mark(MARK).expect("a mark")));
            kept.iter_mut().for_each(|side| side.build(changes));
            set + timed(|| kept.iter_mut().for_each(|side| side.store.go_back(MARK).expect("a mark that is set")))
        });
        let mut words: [Box<[u32]>; AT_ONE_GO] = std::array::from_fn(|_| self.built().store.into_words());
        let offered = self.runner(move |changes| {
            let set = timed(|| words.iter_mut().for_each(|words| lent::set_mark(words, MARK.0).expect("a mark")));
            words.iter_mut().for_each(|words| change(words, changes));
            set + timed(|| words.iter_mut().for_each(|words| lent::go_back(words, MARK.0).expect("a mark that is set")))
        });
        let mut words: [Box<[u32]>; AT_ONE_GO] = std::array::from_fn(|_| self.built().store.into_words());
        let mut copies = words.clone();
        let copied = self.runner(move |changes| {
            let set = timed(|| words.iter().zip(&mut copies).for_each(|(words, copy)| copy.copy_from_slice(words)));
            words.iter_mut().for_each(|words| change(words, changes));
            set + timed(|| words.iter_mut().zip(&copies).for_each(|(words, copy)| words.copy_from_slice(copy)))
        });
        [inner, offered, copied]
    }

    /// Times what a trip of all stores says that it took.
    fn runner<'a>(&'a self, mut trip: impl FnMut(&[Call]) -> u64 + 'a) -> Runner<'a> {
        Box::new(move |times| (0..times).map(|_| trip(black_box(&self.since))).sum::<u64>() / AT_ONE_GO as u64)
    }
}

fn timed(calls: impl FnOnce()) -> u64 {
    let start = Instant::now();
    calls();
    start.elapsed().as_nanos() as u64
}

/// Changes lent words by the quicker calls: these are not timed.
fn change(words: &mut Box<[u32]>, calls: &[Call]) {
    let mut side = Inner::of(Store::from_words(std::mem::take(words)).expect("a sound store"));
    side.build(calls);
    *words = side.store.into_words();
}

/// The hash of the fragment that every store here begins with.
fn root_hash(store: &Store) -> u64 {
    let root = store.op_id(0).expect("an operation");
    warzhigo::operation_hash(store, root, &warzhigo::Ignore::NOTHING).expect("a hash")
}

/// The same store without a mark, with one and with eight.
struct Marked {
    name: String,
    stores: [Store; 3],
}

fn soundness(effort: Effort) -> Series<Marked, 3> {
    let flat = |n| {
        let mut sketch = Sketch::default();
        cases::fragment(&mut sketch, Shape::Flat, n, 7);
        sketch.calls
    };
    let operations = |n: u32| (0..n).map(|_| Call::Operation(NewOperation::default())).collect();
    let stores: [(&str, Vec<Call>); 5] = [
        ("8 operations alone", operations(8)),
        ("20 operations, flat", flat(20)),
        ("150 operations, flat", flat(150)),
        ("500 operations, flat", flat(500)),
        ("at every limit", cases::full()),
    ];
    let stores = stores.map(|(name, calls)| Marked { name: name.to_string(), stores: [0, 1, 8].map(|marks| marked(&calls, marks)) });
    Series::new("tests of stores with marks", stores.into(), effort, |marked, effort| race(marked.stores.each_ref().map(sound), effort))
}

/// A store in which so many marks are set, at equal distances.
fn marked(calls: &[Call], marks: u32) -> Store {
    let mut side = Inner::empty();
    let place = |mark: u32| calls.len() * mark as usize / (marks as usize + 1);
    for mark in 1..=marks {
        side.build(&calls[place(mark - 1)..place(mark)]);
        side.store.mark(MarkId(mark)).expect("a mark");
    }
    side.build(&calls[place(marks)..]);
    assert!(lent::is_sound(side.store.words()), "a store with {marks} marks isn't sound");
    side.store
}

fn sound(store: &Store) -> Runner<'_> {
    runner(|| {
        black_box(lent::is_sound(black_box(store.words())));
    })
}
