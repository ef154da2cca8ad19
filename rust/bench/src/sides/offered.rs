//! The library on lent words.

use oracle::Verdict;
use warzhigo::{EqResult, Ignore, lent};

use super::{Side, accepted};
use crate::shapes::{Call, NewOperation};

/// The calls of `lent`: each tests the words that it is lent.
pub struct Offered {
    pub words: Vec<u32>,
}

/// The words of an empty mapping.
pub fn empty_mapping() -> Vec<u32> {
    vec![u32::MAX; lent::mapping_words()]
}

impl Side for Offered {
    type Mapping = Vec<u32>;
    type Op = u32;
    type Answer = lent::EqResult;

    fn empty() -> Offered {
        Offered { words: vec![0; lent::store_words()] }
    }

    fn emptied(mut self) -> Offered {
        self.words.fill(0);
        self
    }

    fn make(&mut self, call: &Call) {
        let store = &mut self.words;
        match call {
            Call::Operation(new) => accepted(lent::new_operation(store, &lent_operation(new))),
            Call::Block { region, location, types } => accepted(lent::new_block(store, *region, *location, types)),
            Call::Attribute(op, attribute) => accepted(lent::set_attribute(store, lent::Owner::Op(*op), *attribute)),
            Call::Operand { op, index, value } => accepted(lent::set_operand(store, *op, *index, *value)),
        }
    }

    fn mapping() -> Vec<u32> {
        empty_mapping()
    }

    fn op(&self, number: u32) -> u32 {
        number
    }

    /// Who lends words doesn't know where the entries are, so all of them are emptied.
    fn compare(&self, mapping: &mut Vec<u32>, left: u32, right: u32) -> lent::EqResult {
        let answer = lent::operation_eq(&self.words, &[], mapping, left, right, &Ignore::NOTHING);
        mapping.fill(u32::MAX);
        answer.expect("an answer")
    }

    fn hash(&self, op: u32) -> u64 {
        lent::operation_hash(&self.words, &[], op, &Ignore::NOTHING).expect("a hash")
    }

    fn verdict(answer: lent::EqResult) -> Verdict {
        match answer {
            EqResult::Eq { .. } => Verdict::Eq,
            EqResult::FirstNEQOps { lhs, rhs, .. } => Verdict::FirstNEQOps(lhs, rhs),
            EqResult::FirstNEQRegions { lhs, rhs, .. } => Verdict::FirstNEQRegions(lhs, rhs),
            EqResult::FirstNEQBlocks { lhs, rhs, .. } => Verdict::FirstNEQBlocks(lhs, rhs),
        }
    }
}

fn lent_operation(new: &NewOperation) -> lent::NewOperation<'_> {
    lent::NewOperation {
        kind: new.kind,
        parent: new.parent,
        location: new.location,
        regions: new.regions,
        result_types: &new.types,
        operands: &new.operands,
        successors: &new.successors,
    }
}
