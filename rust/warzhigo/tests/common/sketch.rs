//! Calls that make one fragment, at random, by numbers within the fragment: so the same calls can make it again elsewhere.

use warzhigo::Attribute;
use warzhigo::lent::Owner;

use super::call::{Call, New};
use super::numbers::Random;
use super::picture::Picture;
use super::shape::Shape;

/// The bit in a name that is a number of the store outside, not one of the fragment.
pub const OUTSIDE: u32 = 1 << 31;

/// How many values and blocks there are outside.
#[derive(Clone, Copy, Default)]
pub struct Outside {
    pub values: u32,
    pub blocks: u32,
}

pub struct Sketch<'a> {
    pub random: &'a mut Random,
    pub shape: Shape,
    pub outside: Outside,
    /// What the calls so far have made.
    pub picture: Picture,
    pub calls: Vec<Call>,
}

impl<'a> Sketch<'a> {
    pub fn new(random: &'a mut Random, shape: Shape, outside: Outside) -> Sketch<'a> {
        Sketch { random, shape, outside, picture: Picture::default(), calls: Vec::new() }
    }

    /// An operation, at the top or in a block outside, and what the shape puts into it.
    pub fn draw(&mut self) {
        let parent = if self.random.chance(self.shape.outside) { self.outer_block() } else { None };
        let new = self.operation();
        self.add(Call::Operation(New { parent, regions: new.regions.max(1), ..new }));
        for _ in 0..self.shape.calls {
            self.step();
        }
    }

    fn step(&mut self) {
        let [operation, block, attribute, operand] = self.shape.weights;
        let n = self.random.below(operation + block + attribute + operand);
        let call = match n {
            n if n < operation => self.placed_operation(),
            n if n < operation + block => self.block(),
            n if n < operation + block + attribute => Some(self.attribute()),
            _ => self.operand(),
        };
        if let Some(call) = call {
            self.add(call);
        }
    }

    /// Adds a call that is good within the fragment.
    pub fn add(&mut self, call: Call) {
        match &call {
            Call::Operation(new) => {
                let parent = new.parent.filter(|block| block & OUTSIDE == 0);
                self.picture.new_operation(&New { parent, ..new.clone() });
            }
            Call::Block { region, location, argument_types } => {
                self.picture.new_block(*region, *location, argument_types);
            }
            Call::Attribute(owner, attribute) => self.picture.set_attribute(*owner, *attribute),
            Call::Operand { .. } => {}
            Call::Copy { .. } => unreachable!("no sketch has a copy"),
        }
        self.calls.push(call);
    }

    fn outer_block(&mut self) -> Option<u32> {
        (self.outside.blocks > 0).then(|| OUTSIDE | self.random.below(self.outside.blocks))
    }

    pub fn letter(&mut self) -> u32 {
        if self.random.chance(2) { self.random.word() } else { self.random.below(self.shape.letters) }
    }

    fn letters(&mut self, most: u32) -> Vec<u32> {
        (0..self.random.below(most + 1)).map(|_| self.letter()).collect()
    }

    /// A number below the count, often the last; none where there are none.
    fn recent(&mut self, count: usize) -> Option<u32> {
        let newest = (count as u32).checked_sub(1)?;
        Some(if self.random.chance(self.shape.deepening) { newest } else { self.random.below(count as u32) })
    }

    pub fn value(&mut self) -> Option<u32> {
        let outside = self.outside.values > 0 && self.random.chance(self.shape.outside);
        match self.picture.values.len() as u32 {
            _ if outside => Some(OUTSIDE | self.random.below(self.outside.values)),
            0 => None,
            count => Some(self.random.below(count)),
        }
    }

    pub fn successor(&mut self) -> Option<u32> {
        let outside = self.outside.blocks > 0 && self.random.chance(self.shape.outside);
        match self.picture.blocks.len() as u32 {
            _ if outside => self.outer_block(),
            0 => None,
            count => Some(self.random.below(count)),
        }
    }

    fn operation(&mut self) -> New {
        let [operands, successors] = [self.shape.operands, self.shape.successors].map(|most| self.random.below(most + 1));
        New {
            kind: self.letter(),
            parent: None,
            location: self.letter(),
            regions: self.random.below(self.shape.regions + 1).max(self.shape.fewest_regions),
            result_types: self.letters(self.shape.results),
            operands: (0..operands).filter_map(|_| self.value()).collect(),
            successors: (0..successors).filter_map(|_| self.successor()).collect(),
        }
    }

    pub fn placed_operation(&mut self) -> Option<Call> {
        let parent = Some(self.recent(self.picture.blocks.len())?);
        Some(Call::Operation(New { parent, ..self.operation() }))
    }

    pub fn block(&mut self) -> Option<Call> {
        let region = self.recent(self.picture.regions.len())?;
        let location = self.letter();
        Some(Call::Block { region, location, argument_types: self.letters(self.shape.arguments) })
    }

    pub fn attribute(&mut self) -> Call {
        let (ops, blocks) = (self.picture.ops.len() as u32, self.picture.blocks.len() as u32);
        let owner = match self.random.below(ops + blocks) {
            n if n < ops => Owner::Op(n),
            n => Owner::Block(n - ops),
        };
        let kind = if self.random.chance(50) { self.random.pick(&[0, 1, 31, 32, 62, 63]) } else { self.random.below(64) };
        let key = if self.random.chance(2) { self.random.word() } else { self.random.below(self.shape.keys) };
        Call::Attribute(owner, Attribute { key, kind, content: self.letter(), inherent: self.random.inherent() })
    }

    /// Sets an operand that an operation has to any value, so also to a later one.
    pub fn operand(&mut self) -> Option<Call> {
        let op = self.recent(self.picture.ops.len())?;
        let count = self.picture.ops[op as usize].operands.len() as u32;
        let value = self.value()?;
        (count > 0).then(|| Call::Operand { op, index: self.random.below(count), value })
    }
}
