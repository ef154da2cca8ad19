//! pliron's own text.

use std::hint::black_box;

use oracle::{Lists, NumberAttr, Oracle, Sort, Verdict};
use warzhigo::{Attribute, Inherent};

use super::Side;
use crate::shapes::Call;

/// pliron's own text.
pub struct Pliron(pub Oracle);

impl Side for Pliron {
    /// Each comparison makes a mapping and drops it.
    type Mapping = ();
    type Op = u32;
    type Answer = Verdict;

    fn empty() -> Pliron {
        Pliron(Oracle::new())
    }

    fn emptied(self) -> Pliron {
        Pliron::empty()
    }

    fn make(&mut self, call: &Call) {
        let oracle = &mut self.0;
        match call {
            Call::Operation(new) => {
                let lists = Lists { result_types: &new.types, operands: &new.operands, successors: &new.successors };
                black_box(oracle.new_operation(new.kind, new.parent, new.location, new.regions, lists));
            }
            Call::Block { region, location, types } => {
                black_box(oracle.new_block(*region, *location, types));
            }
            Call::Attribute(op, Attribute { key, kind, content, inherent }) => {
                let attr = NumberAttr { kind: *kind, content: *content, inherent: *inherent == Inherent::Yes };
                oracle.set_attribute(oracle::Owner::Op(*op), *key, attr);
            }
            Call::Operand { op, index, value } => oracle.set_operand(*op, *index, *value),
        }
    }

    fn mapping() {}

    fn op(&self, number: u32) -> u32 {
        number
    }

    fn compare(&self, _: &mut (), left: u32, right: u32) -> Verdict {
        self.0.compare(&mut oracle::Mapping::new(), Sort::Op, left, right, false, 0)
    }

    fn hash(&self, op: u32) -> u64 {
        self.0.hash(Sort::Op, op, false, 0)
    }

    fn verdict(answer: Verdict) -> Verdict {
        answer
    }
}
