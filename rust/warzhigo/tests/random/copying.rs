//! Copies, one after the other, of what there was and of what was copied; beside pliron's own text.

use warzhigo::{Ignore, Mapping};

use crate::common::copying::{Copying, pliron_maps_successors};
use crate::common::defined::Defined;
use crate::common::picture::Picture;
use crate::common::question::{Question, Sort, ignore_rule};
use crate::common::walk::Entries;
use crate::counts::Counts;
use crate::trial::Trial;

/// How many copies are asked for in a store.
const COPIES: u32 = 4;

impl Trial {
    /// Into one mapping, which begins with entered images and is cleared now and then.
    pub fn copies(&mut self, mapping: &mut Mapping, counts: &mut Counts) {
        let context = format!("seed {}", self.seed);
        let of_trial = self.picture.ops.len() as u32;
        let op = self.random.below(of_trial);
        let question = Question { sort: Sort::Op, lhs: op, rhs: op, ignore: Ignore::NOTHING };
        let entered = if self.random.chance(50) { self.entered(&question) } else { Entries::default() };
        entered.enter(&self.store, mapping).expect(&context);
        let mut same = true;
        for _ in 0..COPIES {
            let (op, parent) = self.copy_asked_for();
            let ignore = [Ignore::NOTHING, ignore_rule(&mut self.random), Ignore { locations: true, bits: u64::MAX }];
            let copying = Copying { op, parent, ignore: &ignore };
            match copying.make(&mut self.store, &mut self.picture, mapping, &context) {
                Ok(copy) => {
                    counts.copied(&self.picture, op, of_trial);
                    same = same && self.as_pliron(&copying, copy, mapping, counts);
                }
                Err(cause) => counts.copies_refused[cause as usize] += 1,
            }
            if self.random.chance(20) {
                self.cleared(mapping);
            }
        }
        self.cleared(mapping);
    }

    /// pliron's text makes the same copy and mapping, but where it doesn't map a successor. Gives whether both stores are still the same.
    fn as_pliron(&mut self, copying: &Copying, copy: Option<u32>, mapping: &Mapping, counts: &mut Counts) -> bool {
        let Copying { op, parent, .. } = *copying;
        let context = format!("seed {}: copy of {op} to {parent:?}", self.seed);
        let mut theirs = oracle::Mapping::new();
        assert_eq!(Some(self.oracle.clone_operation(&mut theirs, op, parent)), copy, "{context}");
        self.oracle.number_values();
        assert_eq!(Entries::of_oracle(&self.oracle, &theirs), Entries::of_mapping(mapping), "{context}");
        let same = pliron_maps_successors(&self.picture, op);
        assert_eq!(self.oracle.dump() == self.picture.dump(), same, "{context}");
        counts.copies_as_pliron += same as u64;
        counts.copies_unlike_pliron += !same as u64;
        same
    }

    /// Often an operation that others are in, or the newest; to any block, to one inside it, or to none.
    fn copy_asked_for(&mut self) -> (u32, Option<u32>) {
        let (random, picture) = (&mut self.random, &self.picture);
        let (ops, blocks) = (picture.ops.len() as u32, picture.blocks.len() as u32);
        let around = |block: u32| picture.regions[picture.blocks[block as usize].region as usize].op;
        let outer: Vec<u32> = picture.ops.iter().filter_map(|op| op.parent).map(around).collect();
        let op = match random.below(20) {
            0 => ops,
            1 => random.word(),
            2..5 => ops - 1,
            5..15 => random.any(&outer).unwrap_or(0),
            _ => random.below(ops),
        };
        let inside = match picture.ops.get(op as usize) {
            Some(_) => Defined::by(picture, Sort::Op, op).blocks,
            None => Vec::new(),
        };
        let parent = match random.below(20) {
            0 => Some(blocks),
            1..3 => random.any(&inside),
            3..13 if blocks > 0 => Some(random.below(blocks)),
            13..15 if blocks > 0 => Some(blocks - 1),
            _ => None,
        };
        (op, parent)
    }
}

impl Counts {
    fn copied(&mut self, picture: &Picture, op: u32, of_trial: u32) {
        let inside = Defined::by(picture, Sort::Op, op);
        let names: Vec<u32> = inside.ops.iter().flat_map(|n| picture.ops[*n as usize].operands.iter().copied()).collect();
        self.copies += 1;
        self.copies_of_several += (inside.ops.len() > 1) as u64;
        self.copies_of_copies += (op >= of_trial) as u64;
        self.copies_naming_inside += names.iter().any(|name| inside.values.contains(name)) as u64;
        self.copies_naming_others += names.iter().any(|name| !inside.values.contains(name)) as u64;
        self.largest_copy = self.largest_copy.max(inside.ops.len() as u64);
    }
}
