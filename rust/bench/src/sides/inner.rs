//! The library on a store known to be sound.

use oracle::Verdict;
use warzhigo::{BlockId, EqResult, Ignore, Mapping, OpId, Store, ValueId};

use super::{Side, accepted};
use crate::shapes::{Call, NewOperation};

/// `Store` and `Mapping`: nothing is tested but what a call names.
pub struct Inner {
    pub store: Store,
    // The ids of one call's lists.
    operands: Vec<ValueId>,
    successors: Vec<BlockId>,
}

impl Inner {
    pub fn of(store: Store) -> Inner {
        Inner { store, operands: Vec::new(), successors: Vec::new() }
    }

    fn operation(&mut self, new: &NewOperation) {
        let Inner { store, operands, successors } = self;
        operands.clear();
        operands.extend(new.operands.iter().map(|value| store.value_id(*value).expect("a value made before")));
        successors.clear();
        successors.extend(new.successors.iter().map(|block| store.block_id(*block).expect("a block made before")));
        let parent = new.parent.map(|block| store.block_id(block).expect("a block made before"));
        let new = warzhigo::NewOperation {
            kind: new.kind,
            parent,
            location: new.location,
            regions: new.regions,
            result_types: &new.types,
            operands,
            successors,
        };
        accepted(store.new_operation(&new));
    }
}

impl Side for Inner {
    type Mapping = Mapping;
    type Op = OpId;
    type Answer = EqResult;

    fn empty() -> Inner {
        Inner::of(Store::new())
    }

    fn emptied(self) -> Inner {
        let mut words = self.store.into_words();
        words.fill(0);
        Inner::of(Store::from_words(words).expect("zeros are an empty store"))
    }

    fn make(&mut self, call: &Call) {
        match call {
            Call::Operation(new) => self.operation(new),
            Call::Block { region, location, types } => {
                let region = self.store.region_id(*region).expect("a region made before");
                accepted(self.store.new_block(region, *location, types));
            }
            Call::Attribute(op, attribute) => accepted(self.store.set_attribute(self.op(*op), *attribute)),
            Call::Operand { op, index, value } => {
                let value = self.store.value_id(*value).expect("a value made before");
                accepted(self.store.set_operand(self.op(*op), *index, value));
            }
        }
    }

    fn mapping() -> Mapping {
        Mapping::new()
    }

    fn op(&self, number: u32) -> OpId {
        self.store.op_id(number).expect("an operation made before")
    }

    fn compare(&self, mapping: &mut Mapping, left: OpId, right: OpId) -> EqResult {
        let answer = warzhigo::operation_eq(&self.store, mapping, left, right, &Ignore::NOTHING);
        mapping.clear();
        answer.expect("an answer")
    }

    fn hash(&self, op: OpId) -> u64 {
        warzhigo::operation_hash(&self.store, op, &Ignore::NOTHING).expect("a hash")
    }

    fn verdict(answer: EqResult) -> Verdict {
        match answer {
            EqResult::Eq { .. } => Verdict::Eq,
            EqResult::FirstNEQOps { lhs, rhs, .. } => Verdict::FirstNEQOps(lhs.number(), rhs.number()),
            EqResult::FirstNEQRegions { lhs, rhs, .. } => Verdict::FirstNEQRegions(lhs.number(), rhs.number()),
            EqResult::FirstNEQBlocks { lhs, rhs, .. } => Verdict::FirstNEQBlocks(lhs.number(), rhs.number()),
        }
    }
}
