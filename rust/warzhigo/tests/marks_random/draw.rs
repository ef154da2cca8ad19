//! The next call of a list, at random, by what is there.

use warzhigo::Attribute;
use warzhigo::lent::Owner;

use crate::common::call::{Call, New};
use crate::common::marked::{Marked, Step};
use crate::common::numbers::Random;
use crate::common::picture::Picture;

/// How often each call is made, beside the others: new operation, new block, set attribute, set operand, copy, set mark, go back.
type Weights = [u32; 7];

const USUAL: Weights = [8, 5, 11, 8, 3, 6, 5];
/// Marks upon marks.
const MARKING: Weights = [3, 2, 4, 3, 1, 8, 5];

/// What a list is like.
#[derive(Clone, Copy)]
pub struct Nature {
    weights: Weights,
    pub calls: u32,
    /// In how many of 100 cases a call is followed by many replacements.
    pub bursts: u32,
    /// How many keys and marks are in use.
    keys: u32,
    marks: u32,
}

impl Nature {
    pub fn new(random: &mut Random) -> Nature {
        let usual = Nature { weights: USUAL, calls: 40, bursts: 0, keys: 3, marks: 3 };
        match random.below(40) {
            0 => Nature { bursts: 10, marks: 8, ..usual },
            1..10 => Nature { weights: MARKING, marks: 8, ..usual },
            10..15 => Nature { keys: 12, ..usual },
            _ => usual,
        }
    }

    pub fn step(&self, random: &mut Random, model: &Marked) -> Step {
        let picture = &model.picture;
        let mut weights = self.weights;
        // few calls of what there is nothing for yet
        let no_ops = picture.ops.is_empty();
        let empty = [false, picture.regions.is_empty(), no_ops, picture.values.is_empty(), no_ops];
        weights.iter_mut().zip(empty).filter(|(_, empty)| *empty).for_each(|(weight, _)| *weight = 1);
        let mut n = random.below(weights.iter().sum());
        let below = |weight: &u32| {
            let found = n < *weight;
            n = n.saturating_sub(*weight);
            found
        };
        match weights.iter().position(below) {
            Some(0) => operation(random, picture),
            Some(1) => block(random, picture),
            Some(2) => self.attribute(random, picture),
            Some(3) => operand(random, picture),
            Some(4) => copy(random, picture),
            Some(5) => Step::Mark(self.mark(random)),
            _ => self.back(random, model),
        }
    }

    fn mark(&self, random: &mut Random) -> u32 {
        if random.chance(3) { random.pick(&[0, 9, u32::MAX]) } else { random.below(self.marks) + 1 }
    }

    /// Mostly to a mark that is set.
    fn back(&self, random: &mut Random, model: &Marked) -> Step {
        let numbers: Vec<u32> = model.marks.iter().map(|mark| mark.number).collect();
        let set = random.any(&numbers).filter(|_| random.chance(85));
        Step::Back(set.unwrap_or_else(|| self.mark(random)))
    }

    fn attribute(&self, random: &mut Random, picture: &Picture) -> Step {
        let owner = match picture.blocks.is_empty() || random.chance(60) {
            true => Owner::Op(number(random, picture.ops.len())),
            false => Owner::Block(number(random, picture.blocks.len())),
        };
        let kind = if random.chance(2) { 64 } else { random.below(64) };
        let (key, content, inherent) = (random.below(self.keys), random.below(3), random.inherent());
        Step::Build(Call::Attribute(owner, Attribute { key, kind, content, inherent }))
    }
}

/// One of the operations that have operands, if there are any.
pub fn with_operands(random: &mut Random, picture: &Picture) -> Option<u32> {
    let numbers: Vec<u32> = (0..).zip(&picture.ops).filter(|(_, op)| !op.operands.is_empty()).map(|(n, _)| n).collect();
    random.any(&numbers)
}

/// A number that there is, or now and then one that there isn't.
fn number(random: &mut Random, count: usize) -> u32 {
    match random.below(50) {
        0 => count as u32,
        1 => random.word(),
        _ => random.below(count as u32),
    }
}

fn operation(random: &mut Random, picture: &Picture) -> Step {
    let [operands, results, successors] = [2, 2, 1].map(|most| random.below(most + 1));
    let long = random.chance(2);
    let parent = if picture.blocks.is_empty() || random.chance(30) { None } else { Some(number(random, picture.blocks.len())) };
    let named = |random: &mut Random, count: usize, length: u32| match count {
        0 => Vec::new(),
        _ => (0..length).map(|_| number(random, count)).collect(),
    };
    Step::Build(Call::Operation(New {
        kind: random.below(3),
        parent,
        location: random.below(2),
        regions: if long { 9 } else { random.below(3) },
        result_types: (0..results).map(|_| random.below(3)).collect(),
        operands: named(random, picture.values.len(), operands),
        successors: named(random, picture.blocks.len(), successors),
    }))
}

fn block(random: &mut Random, picture: &Picture) -> Step {
    let (region, location) = (number(random, picture.regions.len()), random.below(2));
    let arguments = if random.chance(2) { 17 } else { random.below(3) };
    let argument_types = (0..arguments).map(|_| random.below(3)).collect();
    Step::Build(Call::Block { region, location, argument_types })
}

fn operand(random: &mut Random, picture: &Picture) -> Step {
    let op = match with_operands(random, picture) {
        Some(op) if random.chance(90) => op,
        _ => number(random, picture.ops.len()),
    };
    let operands = picture.ops.get(op as usize).map_or(0, |op| op.operands.len());
    let index = if random.chance(2) { operands as u32 } else { random.below(operands as u32) };
    Step::Build(Call::Operand { op, index, value: number(random, picture.values.len()) })
}

/// Often of an operation that has regions.
fn copy(random: &mut Random, picture: &Picture) -> Step {
    let outer: Vec<u32> = (0..).zip(&picture.ops).filter(|(_, op)| !op.regions.is_empty()).map(|(n, _)| n).collect();
    let op = match random.any(&outer) {
        Some(op) if random.chance(60) => op,
        _ => number(random, picture.ops.len()),
    };
    let blocks = picture.blocks.len();
    let parent = if random.chance(30) { None } else { Some(number(random, blocks)) };
    Step::Build(Call::Copy { op, parent: parent.filter(|_| blocks > 0) })
}
