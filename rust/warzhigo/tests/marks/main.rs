//! Marks to go back to: which are set, what is remembered, and what is restored. Each call is made in a store, on lent words and by the
//! model, which agree on its answer and on all that is there afterwards.

#[path = "../common/mod.rs"]
mod common;

mod remembering;
mod restoring;
mod setting;

use common::call::{Answer, Call, New};
use common::marked::{Marked, Step};
use warzhigo::lent::Owner;
use warzhigo::{Attribute, Inherent, Store};

/// A store, and the model of it.
#[derive(Default)]
struct Tried {
    store: Store,
    model: Marked,
}

const OK: Answer = Ok(None);

fn attribute(owner: Owner, key: u32, content: u32) -> Step {
    Step::Build(Call::Attribute(owner, Attribute { key, kind: 1, content, inherent: Inherent::No }))
}

fn operand(op: u32, index: u32, value: u32) -> Step {
    Step::Build(Call::Operand { op, index, value })
}

fn operation(new: New) -> Step {
    Step::Build(Call::Operation(new))
}

fn block(region: u32, arguments: usize) -> Step {
    Step::Build(Call::Block { region, location: 0, argument_types: vec![4; arguments] })
}

/// In block 0, with an operand, a result and a successor.
fn inner() -> New {
    New { parent: Some(0), operands: vec![0], result_types: vec![5], successors: vec![0], ..New::default() }
}

impl Tried {
    /// Operation 0 with region 0 and in it block 0, whose argument is value 0; in that block operation 1 with operand 0 and result 1, and
    /// attributes 7 and 9.
    fn small() -> Tried {
        let mut tried = Tried::default();
        let made = [operation(New { regions: 1, ..New::default() }), block(0, 1), operation(inner())];
        let keys = [9, 7].map(|key| attribute(Owner::Op(1), key, key));
        made.into_iter().chain(keys).for_each(|step| assert!(tried.ask(step).is_ok()));
        tried
    }

    fn ask(&mut self, step: Step) -> Answer {
        let expected = self.model.apply(&step);
        let answer = step.apply(&mut self.store, "a store made by hand");
        assert_eq!(answer, expected, "{step:?}");
        self.model.is(&self.store, &format!("{step:?}"));
        answer
    }

    fn mark(&mut self, mark: u32) -> Answer {
        self.ask(Step::Mark(mark))
    }

    fn back(&mut self, mark: u32) -> Answer {
        self.ask(Step::Back(mark))
    }

    /// So many replacements, all accepted.
    fn replace(&mut self, times: u32) {
        for n in 0..times {
            let step = if n % 2 == 0 { operand(1, 0, n / 2 % 2) } else { attribute(Owner::Op(1), 7, n) };
            assert_eq!(self.ask(step), OK, "replacement {n}");
        }
    }

    fn contents(&self) -> Vec<(u32, u32)> {
        self.model.picture.ops[1].attributes.iter().map(|attribute| (attribute.key, attribute.content)).collect()
    }
}
