//! Near twins: the calls of a fragment, twice, with at most one small change on one side.

use warzhigo::{Attribute, Inherent};

use super::call::{Call, New};
use super::sketch::Sketch;

/// The calls of both sides.
pub fn near_twins(sketch: &mut Sketch<'_>) -> [Vec<Call>; 2] {
    let [mut left, mut right] = [sketch.calls.clone(), sketch.calls.clone()];
    match sketch.random.below(9) {
        0..2 => {}
        2 => other_order(sketch, &mut right),
        3 | 4 => change(sketch, &mut right),
        5 | 6 => right.extend(one_more(sketch)),
        7 => unlike_ends(sketch, &mut left, &mut right),
        _ => other_flag(sketch, &mut right),
    }
    if sketch.random.chance(50) { [left, right] } else { [right, left] }
}

/// Moves one call that sets an attribute before the one that it follows, where that one sets one too.
fn other_order(sketch: &mut Sketch<'_>, calls: &mut [Call]) {
    let sets = |call: &Call| matches!(call, Call::Attribute(..));
    let places: Vec<usize> = (1..calls.len()).filter(|i| sets(&calls[*i]) && sets(&calls[i - 1])).collect();
    if let Some(place) = sketch.random.any(&places) {
        calls.swap(place - 1, place);
    }
}

/// Changes whether one attribute is inherent, if there is an attribute.
fn other_flag(sketch: &mut Sketch<'_>, calls: &mut [Call]) {
    let flags = calls.iter_mut().filter_map(|call| match call {
        Call::Attribute(_, attribute) => Some(&mut attribute.inherent),
        _ => None,
    });
    let mut flags: Vec<&mut Inherent> = flags.collect();
    let place = sketch.random.below(flags.len() as u32) as usize;
    if let Some(inherent) = flags.get_mut(place) {
        **inherent = other(**inherent);
    }
}

fn other(inherent: Inherent) -> Inherent {
    match inherent {
        Inherent::No => Inherent::Yes,
        Inherent::Yes => Inherent::No,
    }
}

/// One more block, operation, attribute or set operand, behind all others.
fn one_more(sketch: &mut Sketch<'_>) -> Option<Call> {
    match sketch.random.below(6) {
        0 | 1 => sketch.block(),
        2 | 3 => sketch.placed_operation(),
        4 => Some(sketch.attribute()),
        _ => sketch.operand(),
    }
}

/// One more operation on both sides, of which the right one has one thing more.
fn unlike_ends(sketch: &mut Sketch<'_>, left: &mut Vec<Call>, right: &mut Vec<Call>) {
    let Some(Call::Operation(new)) = sketch.placed_operation() else { return };
    left.push(Call::Operation(new.clone()));
    right.push(Call::Operation(larger(sketch, new)));
}

fn larger(sketch: &mut Sketch<'_>, mut new: New) -> New {
    match sketch.random.below(4) {
        0 => new.regions += 1,
        1 => new.result_types.push(0),
        2 => new.operands.extend(sketch.value()),
        _ => new.successors.extend(sketch.successor()),
    }
    new
}

/// Changes one thing in one call, but no list's length: so numbers stay what they are.
fn change(sketch: &mut Sketch<'_>, calls: &mut [Call]) {
    let place = sketch.random.below(calls.len() as u32) as usize;
    match &mut calls[place] {
        Call::Operation(new) => change_operation(sketch, new),
        Call::Block { location, argument_types, .. } => match sketch.random.below(2) {
            0 => *location ^= 1,
            _ => flip_one(sketch, argument_types),
        },
        Call::Attribute(_, Attribute { key, kind, content, inherent }) => match sketch.random.below(4) {
            0 => *key ^= 1,
            1 => *kind ^= 1,
            2 => *content ^= 1,
            _ => *inherent = other(*inherent),
        },
        Call::Operand { value, .. } => *value = sketch.value().unwrap_or(*value),
        Call::Copy { .. } => unreachable!("no sketch has a copy"),
    }
}

fn change_operation(sketch: &mut Sketch<'_>, new: &mut New) {
    match sketch.random.below(5) {
        0 => new.kind ^= 1,
        1 => new.location ^= 1,
        2 => flip_one(sketch, &mut new.result_types),
        // What is named may be made later only; then the call is refused.
        3 => {
            let value = sketch.value();
            exchange_one(sketch, &mut new.operands, value);
        }
        _ => {
            let block = sketch.successor();
            exchange_one(sketch, &mut new.successors, block);
        }
    }
}

fn flip_one(sketch: &mut Sketch<'_>, items: &mut [u32]) {
    let place = sketch.random.below(items.len() as u32) as usize;
    if let Some(item) = items.get_mut(place) {
        *item ^= 1;
    }
}

fn exchange_one(sketch: &mut Sketch<'_>, items: &mut [u32], other: Option<u32>) {
    let place = sketch.random.below(items.len() as u32) as usize;
    if let (Some(item), Some(other)) = (items.get_mut(place), other) {
        *item = other;
    }
}
