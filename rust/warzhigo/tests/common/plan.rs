//! A whole store at random, as calls with the answers that the rules give, and what they make.

use warzhigo::Attribute;
use warzhigo::lent::Owner;

use super::call::{Answer, Call, New};
use super::instance::Instance;
use super::numbers::Random;
use super::picture::Picture;
use super::shape::{self, Shape};
use super::sketch::{Outside, Sketch};
use super::twin::near_twins;

pub struct Plan {
    pub random: Random,
    pub calls: Vec<(Call, Answer)>,
    pub picture: Picture,
    /// Fragments that are near twins of one another.
    pub twins: Vec<Instance>,
    /// In how many of 100 cases a call is followed by one that the rules mostly refuse.
    spoiled: u32,
}

impl Plan {
    pub fn new(seed: u64) -> Plan {
        let mut random = Random::new(seed);
        let spoiled = random.pick(&[0, 0, 10]);
        let mut plan = Plan { random, calls: Vec::new(), picture: Picture::default(), twins: Vec::new(), spoiled };
        match plan.random.below(100) {
            0..8 => plan.single(shape::USUAL.as_slice()),
            8..16 => plan.nested(),
            16 => plan.single(&[shape::FULL]),
            _ => plan.several(|sketch| near_twins(sketch).into()),
        }
        plan
    }

    /// Several fragments that are made of one sketch.
    pub fn of_one_sketch(seed: u64, sides: impl FnOnce(&mut Sketch<'_>) -> Vec<Vec<Call>>) -> Plan {
        let (random, picture) = (Random::new(seed), Picture::default());
        let mut plan = Plan { random, calls: Vec::new(), picture, twins: Vec::new(), spoiled: 0 };
        plan.several(sides);
        plan
    }

    fn outside(&self) -> Outside {
        Outside { values: self.picture.values.len() as u32, blocks: self.picture.blocks.len() as u32 }
    }

    /// Makes a call, accepted or not.
    fn issue(&mut self, call: Call) -> Answer {
        let answer = self.picture.apply(&call);
        self.calls.push((call, answer));
        answer
    }

    /// One fragment after the other.
    fn single(&mut self, shapes: &[Shape]) {
        for _ in 0..self.random.below(3) + 1 {
            let (outside, shape) = (self.outside(), self.random.pick(shapes));
            let mut sketch = Sketch::new(&mut self.random, shape, outside);
            sketch.draw();
            let calls = sketch.calls;
            self.build(&[calls]);
        }
    }

    /// Deep fragments, alone in the store, so that the first levels are not spent outside.
    fn nested(&mut self) {
        let mut sketch = Sketch::new(&mut self.random, shape::NESTED, Outside::default());
        sketch.draw();
        let sides = near_twins(&mut sketch);
        self.twins = self.build(&sides);
    }

    /// Something outside, and fragments of one sketch that may name it.
    fn several(&mut self, sides: impl FnOnce(&mut Sketch<'_>) -> Vec<Vec<Call>>) {
        if self.random.chance(60) {
            self.single(&[shape::PLAIN]);
        }
        let (outside, shape) = (self.outside(), self.random.pick(&shape::USUAL));
        let mut sketch = Sketch::new(&mut self.random, shape, outside);
        sketch.draw();
        let sides = sides(&mut sketch);
        self.twins = self.build(&sides);
        if self.random.chance(25) {
            self.cross();
        }
    }

    /// Makes several fragments, one behind the other, or call by call in turn.
    fn build(&mut self, fragments: &[Vec<Call>]) -> Vec<Instance> {
        let mut made = vec![Instance::default(); fragments.len()];
        let in_turn = self.random.chance(50);
        let longest = fragments.iter().map(Vec::len).max().unwrap_or(0);
        let mut places: Vec<(usize, usize)> = (0..fragments.len()).flat_map(|f| (0..longest).map(move |i| (f, i))).collect();
        if in_turn {
            places.sort_by_key(|(fragment, i)| (*i, *fragment));
        }
        for (fragment, i) in places {
            if let Some(call) = fragments[fragment].get(i) {
                let placed = made[fragment].placed(call);
                let answer = self.issue(placed);
                made[fragment].note(call, answer, &self.picture);
                self.spoil();
            }
        }
        made
    }

    /// Sets the same operand of an operation and of its twin to one value, whichever: so one side may name what the other defines.
    fn cross(&mut self) {
        for _ in 0..self.random.below(3) + 1 {
            let count = self.twins.iter().map(|twin| twin.ops.len() as u32).min().unwrap_or(0);
            let (n, value) = (self.random.below(count) as usize, self.random.below(self.picture.values.len() as u32));
            let index = self.random.below(2);
            for op in self.twins.iter().map(|twin| twin.ops[n]).collect::<Vec<_>>() {
                let _ = self.issue(Call::Operand { op, index, value });
            }
        }
    }

    /// Sometimes makes a call with a number or a list that is mostly too large. It is kept if it is refused.
    fn spoil(&mut self) {
        if !self.random.chance(self.spoiled) {
            return;
        }
        let call = self.bad();
        if let Err(cause) = self.picture.allows(&call) {
            self.calls.push((call, Err(cause)));
        }
    }

    /// A number that exists, is the first that doesn't, or is any.
    fn number(&mut self, count: usize) -> u32 {
        match self.random.below(5) {
            0 => count as u32,
            1 => self.random.word(),
            _ => self.random.below(count as u32),
        }
    }

    fn numbers(&mut self, limit: u32, count: usize) -> Vec<u32> {
        let length = self.random.pick(&[0, 1, limit, limit + 1, limit + 2]);
        let good = self.random.chance(80);
        (0..length).map(|_| if good { self.random.below(count as u32) } else { self.number(count) }).collect()
    }

    fn bad(&mut self) -> Call {
        let totals = self.picture.totals();
        let [ops, blocks, regions] = [totals.operations, totals.blocks, totals.regions].map(|n| n as usize);
        let values = totals.values as usize;
        match self.random.below(4) {
            0 => Call::Operation(New {
                parent: if self.random.chance(50) { Some(self.number(blocks)) } else { None },
                regions: self.random.pick(&[0, 8, 9, u32::MAX]),
                result_types: self.numbers(16, 3),
                operands: self.numbers(16, values),
                successors: self.numbers(8, blocks),
                ..New::default()
            }),
            1 => Call::Block { region: self.number(regions), location: 0, argument_types: self.numbers(16, 3) },
            2 => {
                let owner = if self.random.chance(50) { Owner::Op(self.number(ops)) } else { Owner::Block(self.number(blocks)) };
                let (key, kind) = (self.random.word(), self.number(64));
                Call::Attribute(owner, Attribute { key, kind, content: 0, inherent: self.random.inherent() })
            }
            _ => Call::Operand { op: self.number(ops), index: self.number(3), value: self.number(values) },
        }
    }
}
