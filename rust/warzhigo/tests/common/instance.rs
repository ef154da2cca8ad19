//! A fragment's calls, made in a store: which number of the store each number of the fragment is.

use warzhigo::lent::Owner;

use super::call::{Answer, Call, New};
use super::picture::Picture;
use super::sketch::OUTSIDE;

/// The number of what was refused.
pub const NOTHING: u32 = u32::MAX;

#[derive(Clone, Debug, Default)]
pub struct Instance {
    pub ops: Vec<u32>,
    pub blocks: Vec<u32>,
    pub regions: Vec<u32>,
    pub values: Vec<u32>,
}

fn named(numbers: &[u32], name: u32) -> u32 {
    if name & OUTSIDE == 0 { numbers.get(name as usize).copied().unwrap_or(NOTHING) } else { name & !OUTSIDE }
}

impl Instance {
    /// The call by numbers of the store.
    pub fn placed(&self, call: &Call) -> Call {
        match call {
            Call::Operation(new) => Call::Operation(New {
                parent: new.parent.map(|block| named(&self.blocks, block)),
                operands: new.operands.iter().map(|value| named(&self.values, *value)).collect(),
                successors: new.successors.iter().map(|block| named(&self.blocks, *block)).collect(),
                ..new.clone()
            }),
            Call::Block { region, location, argument_types } => {
                Call::Block { region: named(&self.regions, *region), location: *location, argument_types: argument_types.clone() }
            }
            Call::Attribute(Owner::Op(n), attribute) => Call::Attribute(Owner::Op(named(&self.ops, *n)), *attribute),
            Call::Attribute(Owner::Block(n), attribute) => Call::Attribute(Owner::Block(named(&self.blocks, *n)), *attribute),
            Call::Operand { op, index, value } => {
                Call::Operand { op: named(&self.ops, *op), index: *index, value: named(&self.values, *value) }
            }
            Call::Copy { .. } => unreachable!("no sketch has a copy"),
        }
    }

    /// Notes the numbers that a call was given: the newest of the store, or nothing where it was refused.
    pub fn note(&mut self, call: &Call, answer: Answer, after: &Picture) {
        let newest = |all: usize, count: usize| {
            let numbers = (all - count.min(all)..all).map(|n| n as u32);
            if answer.is_ok() { numbers.collect() } else { vec![NOTHING; count] }
        };
        match call {
            Call::Operation(new) => {
                self.ops.extend(newest(after.ops.len(), 1));
                self.regions.extend(newest(after.regions.len(), new.regions as usize));
                self.values.extend(newest(after.values.len(), new.result_types.len()));
            }
            Call::Block { argument_types, .. } => {
                self.blocks.extend(newest(after.blocks.len(), 1));
                self.values.extend(newest(after.values.len(), argument_types.len()));
            }
            Call::Attribute(..) | Call::Operand { .. } | Call::Copy { .. } => {}
        }
    }
}
