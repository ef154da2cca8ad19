//! Three fragments of one sketch, at random, each perhaps disguised by what is looked past: all that holds of the mappings between them.

use warzhigo::{Attribute, Ignore, Inherent, Renamed, Store};

use crate::common::call::{Call, apply};
use crate::common::document::Asked;
use crate::common::instance::NOTHING;
use crate::common::numbers::Random;
use crate::common::offered::SORTS;
use crate::common::plan::Plan;
use crate::common::question::Sort;
use crate::common::sketch::Sketch;

const STORES: u64 = 100;

/// What disguises are looked past by.
const PAST: Ignore = Ignore { locations: true, bits: u64::MAX };

/// A type that a list makes the same as those of most sketches.
const PRESENT: u32 = 1_000_000;

fn types() -> Renamed {
    Renamed::new(&[(0, PRESENT), (1, PRESENT)]).unwrap()
}

/// The calls of a sketch, half of the time with other locations, types and attributes.
fn disguised(sketch: &mut Sketch<'_>) -> Vec<Call> {
    let mut calls = sketch.calls.clone();
    if sketch.random.chance(50) {
        calls.iter_mut().for_each(|call| disguise(sketch.random, call));
    }
    calls
}

/// Changes what is looked past, now and then.
fn disguise(random: &mut Random, call: &mut Call) {
    let (location, types) = match call {
        Call::Operation(new) => (&mut new.location, &mut new.result_types),
        Call::Block { location, argument_types, .. } => (location, argument_types),
        Call::Attribute(_, Attribute { content, inherent: Inherent::No, .. }) => {
            *content ^= random.below(2);
            return;
        }
        Call::Attribute(..) | Call::Operand { .. } | Call::Copy { .. } => return,
    };
    *location ^= random.below(2);
    let renamed = types.iter_mut().filter(|ty| **ty < 2);
    renamed.for_each(|ty| *ty = random.pick(&[*ty, 0, 1, PRESENT]));
}

/// A store with three fragments of one sketch; by sort, those of the three that correspond.
fn built(seed: u64) -> (Store, Plan, [Vec<[u32; 3]>; 3]) {
    let plan = Plan::of_one_sketch(seed, |sketch| (0..3).map(|_| disguised(sketch)).collect());
    let mut store = Store::new();
    for (call, expected) in &plan.calls {
        assert_eq!(apply(&mut store, call, "three of one sketch"), *expected, "seed {seed}: {call:?}");
    }
    let corresponding = SORTS.map(|sort| {
        let numbers = [0, 1, 2].map(|side| match sort {
            Sort::Op => &plan.twins[side].ops,
            Sort::Block => &plan.twins[side].blocks,
            Sort::Region => &plan.twins[side].regions,
        });
        let three = (0..numbers[0].len()).map(|n| numbers.map(|side| side[n]));
        three.filter(|three| !three.contains(&NOTHING)).collect()
    });
    (store, plan, corresponding)
}

/// What was met: mappings followed by that to the third and by that to the first again; and of these mappings, those of two that are equal
/// by what is looked past only.
#[derive(Default, Debug)]
struct Met {
    followed: u64,
    there_and_back: u64,
    disguised: u64,
}

impl Met {
    fn ask(&mut self, asked: &Asked<'_>, [a, b, c]: [u32; 3]) {
        let Some(mapping) = asked.filed(a, b) else { return };
        asked.reads_backwards(a, b, &mapping);
        self.followed += asked.followed([a, b, c]).is_some() as u64;
        self.there_and_back += asked.followed([a, b, a]).is_some() as u64;
        let plainly = Asked { ignore: Ignore::NOTHING, types: &Renamed::none(), ..*asked };
        self.disguised += plainly.filed(a, b).is_none() as u64;
    }
}

#[test]
fn three_of_one_sketch() {
    let mut met = Met::default();
    for seed in 0..STORES {
        let (store, plan, corresponding) = built(seed);
        let (mut random, of, types, none) = (Random::new(!seed), format!("seed {seed}"), types(), Renamed::none());
        for (sort, three) in SORTS.into_iter().zip(corresponding) {
            for (ignore, types) in [(Ignore::NOTHING, &none), (PAST, &types)] {
                let asked = Asked { store: &store, picture: &plan.picture, sort, ignore, types, of: &of };
                let Some([a, b, c]) = random.any(&three) else { continue };
                for three in [[a, b, c], [c, a, b], [b, b, c]] {
                    met.ask(&asked, three);
                }
            }
        }
    }
    let Met { followed, there_and_back, disguised } = met;
    assert!(followed > 5 * STORES && there_and_back > 5 * STORES && disguised > STORES / 2, "too few: {met:?}");
}
