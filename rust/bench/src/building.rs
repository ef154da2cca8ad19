//! The building calls, measured: one sort of call in a row, and whole stores made anew.

use std::hint::black_box;
use std::time::Instant;

use warzhigo::{Inherent, MarkId};

use crate::cases::{Shape, case, full};
use crate::fragments::Times;
use crate::race::{Effort, Figure, Runner, Series, race, runner};
use crate::shapes::{self, Call, NewOperation, Sketch};
use crate::sides::{Inner, Offered, Pliron, Side};

/// Building calls, of which those from `timed` on are measured.
pub struct Calls {
    name: &'static str,
    calls: Vec<Call>,
    timed: usize,
}

impl Calls {
    /// How many calls are measured.
    fn measured(&self) -> usize {
        self.calls.len() - self.timed
    }
}

/// Building calls, measured.
pub struct Built {
    pub name: &'static str,
    /// How many calls were measured.
    pub calls: usize,
    /// Nanoseconds for all of them.
    pub times: Times,
}

/// Building on three sides.
pub type Building = Series<Calls, 3>;

/// Each sort of call by itself: only these calls are timed, in a store that was emptied before, in the same memory.
pub fn each_call(effort: Effort) -> Building {
    let measure = |calls: &Calls, effort| {
        race([section::<Inner>(calls, nothing), section::<Offered>(calls, nothing), section::<Pliron>(calls, nothing)], effort)
    };
    let inherent = attributes("an inherent attribute", Inherent::Yes);
    let calls = [operations(), blocks(), plain_attributes(), inherent, operands(511)].map(checked);
    Series::new("building calls", calls.into(), effort, measure)
}

/// The same in a store known to be sound, without a mark and with one: up to as many replacements as are remembered.
pub fn marked_calls(effort: Effort) -> Series<Calls, 2> {
    let measure = |calls: &Calls, effort| race([section::<Inner>(calls, nothing), section(calls, mark)], effort);
    let calls = [operations(), blocks(), plain_attributes(), replaced_attributes(), operands(256)];
    Series::new("building calls with a mark", calls.into(), effort, measure)
}

/// Calls of a sort, how many were measured, and the nanoseconds for each.
pub fn marked_rows(series: Series<Calls, 2>) -> Vec<(&'static str, usize, [Figure; 2])> {
    let each = |calls: &Calls, nanos: Figure| nanos / calls.measured() as f64;
    series.rows().map(|(calls, nanos)| (calls.name, calls.measured(), nanos.map(|nanos| each(&calls, nanos)))).collect()
}

/// Nothing is done between the calls before and those that are timed.
fn nothing<S: Side>(_: &mut S) {}

fn mark(side: &mut Inner) {
    side.store.mark(MarkId(1)).expect("a mark");
}

/// Whole stores: the store is made anew, filled and dropped.
pub fn whole_stores(effort: Effort) -> Building {
    let shapes = [
        ("flat 500", Shape::Flat),
        ("nested 500", Shape::Nested),
        ("500 x 2 attributes", Shape::Attributes),
        ("500 x 4 operands", Shape::Operands),
        ("249 blocks x 2", Shape::Blocks),
    ];
    let mut stores: Vec<Calls> = shapes.into_iter().map(|(name, shape)| Calls { name, calls: case(shape, 500).calls, timed: 0 }).collect();
    stores.push(Calls { name: "a store at every limit", calls: full(), timed: 0 });
    let measure = |calls: &Calls, effort| race([anew::<Inner>(calls), anew::<Offered>(calls), anew::<Pliron>(calls)], effort);
    Series::new("whole stores", stores.into_iter().map(checked).collect(), effort, measure)
}

pub fn built(building: Building) -> Vec<Built> {
    let built = building.rows().map(|(calls, [inner, offered, pliron])| Built {
        name: calls.name,
        calls: calls.measured(),
        times: Times { inner, offered, pliron },
    });
    built.collect()
}

/// Calls that build the same on all sides, as far as hashes see it.
fn checked(calls: Calls) -> Calls {
    let (inner, offered, pliron): (Inner, Offered, Pliron) = (whole(&calls), whole(&calls), whole(&calls));
    assert!(inner.store.words() == offered.words, "{}: the two ways to build give different stores", calls.name);
    for op in 0..inner.store.totals().operations {
        assert_eq!(inner.hash(inner.op(op)), pliron.hash(op), "{}: the library and pliron build differently", calls.name);
    }
    calls
}

/// The store that all calls make.
fn whole<S: Side>(calls: &Calls) -> S {
    let mut side = S::empty();
    side.build(black_box(&calls.calls));
    side
}

fn section<S: Side + 'static>(calls: &Calls, between: fn(&mut S)) -> Runner<'_> {
    let (before, timed) = calls.calls.split_at(calls.timed);
    let mut kept = Some(S::empty());
    Box::new(move |times| {
        let mut nanos = 0;
        for _ in 0..times {
            let mut side = kept.take().expect("the store of the run before").emptied();
            side.build(before);
            between(&mut side);
            let start = Instant::now();
            side.build(black_box(timed));
            nanos += start.elapsed().as_nanos() as u64;
            kept = Some(side);
        }
        nanos
    })
}

fn anew<S: Side>(calls: &Calls) -> Runner<'_> {
    runner(|| {
        black_box(&whole::<S>(calls));
    })
}

/// 511 operations at the end of one block, each with a result and two operands.
fn operations() -> Calls {
    let mut sketch = Sketch::default();
    shapes::flat(&mut sketch, 7, 512, shapes::PLAIN);
    Calls { name: "an operation", calls: sketch.calls, timed: 2 }
}

/// 256 blocks at the end of one region, each with two arguments.
fn blocks() -> Calls {
    let mut sketch = Sketch::default();
    let region = sketch.root(7, None).region;
    for _ in 0..256 {
        sketch.block(region, 2);
    }
    Calls { name: "a block", calls: sketch.calls, timed: 1 }
}

fn plain_attributes() -> Calls {
    attributes("an attribute", Inherent::No)
}

/// 8 attributes on each of 128 operations, by keys that neither rise nor fall.
fn attributes(name: &'static str, inherent: Inherent) -> Calls {
    let mut sketch = Sketch::default();
    for _ in 0..128 {
        sketch.operation(NewOperation::default());
    }
    for op in 0..128 {
        [0, 5, 2, 7, 4, 1, 6, 3].into_iter().for_each(|key| sketch.attribute(op, key, op, inherent));
    }
    Calls { name, calls: sketch.calls, timed: 128 }
}

/// The same attributes, set once more.
fn replaced_attributes() -> Calls {
    let Calls { mut calls, timed, .. } = plain_attributes();
    let again = calls[timed..].to_vec();
    let timed = calls.len();
    calls.extend(again);
    Calls { name: "an attribute on a key already there", calls, timed }
}

/// Each of 4 operands of so many operations, of 511, is set to another value.
fn operands(of: u32) -> Calls {
    let mut sketch = Sketch::default();
    shapes::flat(&mut sketch, 7, 512, shapes::Each { attributes: 0, operands: 4 });
    let mut calls = sketch.calls;
    let timed = calls.len();
    calls.extend((0..of * 4).map(|i| Call::Operand { op: 1 + i / 4, index: i % 4, value: i * 7 % 513 }));
    Calls { name: "an operand", calls, timed }
}
