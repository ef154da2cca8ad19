//! The search for repeated runs in one block, beside a plain one: pliron has none.

mod plain;

use std::hint::black_box;

use warzhigo::{BlockId, Ignore, NewOperation, RegionId, Run, Store, ValueId};

use crate::race::{Effort, Figure, Runner, Series, race, runner};
use plain::Plain;

/// The operations of a block, and how long the runs are.
pub const SIZES: [u32; 4] = [50, 200, 400, 511];
pub const LENGTHS: [u32; 4] = [1, 8, 64, 200];

/// What stands in the block.
#[derive(Clone, Copy, PartialEq, Eq)]
pub enum Filling {
    /// No two operations are alike: no sum agrees with another.
    Different,
    /// All operations are alike, and each names another value: every sum agrees, and no two runs are equal.
    Names,
    /// All are alike, and all but the first of each so many as a run has name one value: every sum agrees, the names of first operations mostly do,
    /// and no two runs are equal.
    Late,
    /// Every seventh operation is the same again.
    Period,
}

impl Filling {
    pub const ALL: [Filling; 4] = [Filling::Different, Filling::Period, Filling::Names, Filling::Late];

    pub fn name(self) -> &'static str {
        match self {
            Filling::Different => "no two alike",
            Filling::Names => "alike, other names",
            Filling::Late => "alike, names differ late",
            Filling::Period => "period 7",
        }
    }
}

pub struct Filled {
    store: Store,
    block: BlockId,
    plain: Plain,
    length: u32,
}

pub type Runs = Series<Filled, 2>;

/// A row of the page: a filling and a size, and nanoseconds by length, of the library and of the plain search.
pub struct Row {
    pub filling: Filling,
    pub size: u32,
    pub nanos: Vec<[Figure; 2]>,
}

pub fn runs(effort: Effort) -> Runs {
    let cases = rows_of().flat_map(|(filling, size)| LENGTHS.map(|length| Filled::new(filling, size, length)));
    Series::new("repeated runs", cases.collect(), effort, |filled, effort| race(filled.runners(), effort))
}

fn rows_of() -> impl Iterator<Item = (Filling, u32)> {
    Filling::ALL.into_iter().flat_map(|filling| SIZES.map(|size| (filling, size)))
}

pub fn rows(runs: Runs) -> Vec<Row> {
    let nanos: Vec<[Figure; 2]> = runs.rows().map(|(_, nanos)| nanos).collect();
    let by_row = nanos.chunks(LENGTHS.len()).map(<[_]>::to_vec);
    rows_of().zip(by_row).map(|((filling, size), nanos)| Row { filling, size, nanos }).collect()
}

impl Filled {
    /// A block whose answer is known.
    fn new(filling: Filling, size: u32, length: u32) -> Filled {
        let mut store = Store::new();
        let form = store.new_operation(&NewOperation { kind: 7, regions: 2, ..Default::default() }).expect("a form");
        let [region, outside] = [0, 1].map(|i| store.operation(form).expect("it").regions().nth(i).expect("its region"));
        let block = store.new_block(region, 0, &[1]).expect("a block");
        let argument = store.block(block).expect("it").arguments().next().expect("its argument");
        let others = arguments(&mut store, outside, size);
        for (i, other) in (0..size).zip(others) {
            let kind = match filling {
                Filling::Different => 100 + i,
                Filling::Period => 100 + i % 7,
                Filling::Names | Filling::Late => 9,
            };
            let operand = match filling {
                Filling::Names => other,
                Filling::Late if i % length == 0 => other,
                _ => argument,
            };
            let new = NewOperation { kind, parent: Some(block), result_types: &[1], operands: &[operand], ..Default::default() };
            store.new_operation(&new).expect("an operation");
        }
        let plain = Plain::of(&store, block);
        let filled = Filled { store, block, plain, length };
        let right = length.next_multiple_of(7);
        let expected = (filling == Filling::Period && right + length <= size).then_some(Run { left: 0, right });
        assert_eq!(filled.search(), expected, "{}, {size}, {length}", filling.name());
        assert_eq!(filled.plain.search(length as usize), expected, "{}, {size}, {length}, plain", filling.name());
        filled
    }

    fn search(&self) -> Option<Run> {
        self.store.repeated_run(self.block, self.length, &Ignore::NOTHING).expect("an answer")
    }

    fn runners(&self) -> [Runner<'_>; 2] {
        let ours = runner(move || {
            black_box(black_box(self).search());
        });
        let plain = runner(move || {
            black_box(black_box(&self.plain).search(self.length as usize));
        });
        [ours, plain]
    }
}

/// So many arguments, of blocks in this region.
fn arguments(store: &mut Store, region: RegionId, count: u32) -> Vec<ValueId> {
    let mut values = Vec::new();
    while values.len() < count as usize {
        let block = store.new_block(region, 0, &[1; 16]).expect("a block");
        values.extend(store.block(block).expect("it").arguments());
    }
    values
}
