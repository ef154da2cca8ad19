//! Random stores: many small operations of few kinds, a fragment several times over, or any store.

use warzhigo::{Attribute, BlockId, NewOperation, OpId, Store, ValueId};

use crate::common::numbers::Random;
use crate::common::plan::Plan;
use crate::common::twin::near_twins;

pub fn store(seed: u64) -> Store {
    match seed % 4 {
        0 => planned(&Plan::new(seed)),
        1 => planned(&several(seed)),
        _ => crowd(&mut Random::new(seed)),
    }
}

fn planned(plan: &Plan) -> Store {
    let mut store = Store::new();
    for (call, _) in &plan.calls {
        call.by_ids(&mut store);
    }
    store
}

/// A fragment and a near twin of it, each more than once.
fn several(seed: u64) -> Plan {
    Plan::of_one_sketch(seed, |sketch| {
        let [left, right] = near_twins(sketch);
        vec![left.clone(), right.clone(), left.clone(), right, left]
    })
}

/// Small operations side by side and in one another's blocks, of few kinds, types and locations. Some name what is made after them.
fn crowd(random: &mut Random) -> Store {
    let (mut store, mut blocks) = (Store::new(), Vec::new());
    for _ in 0..random.pick(&[5, 10, 20, 40]) {
        let op = one_more(random, &mut store, &blocks);
        blocks.extend(block_in(random, &mut store, op));
        if random.chance(20) {
            let attribute = Attribute { key: 1, kind: random.pick(&[0, 5]), content: random.below(2), inherent: random.inherent() };
            store.set_attribute(op, attribute).expect("an attribute");
        }
    }
    for _ in 0..random.below(6) {
        rename(random, &mut store);
    }
    store
}

fn one_more(random: &mut Random, store: &mut Store, blocks: &[BlockId]) -> OpId {
    let values: Vec<ValueId> = store.values().map(|value| value.id()).take(4).collect();
    let operands: Vec<ValueId> = (0..random.below(2)).filter_map(|_| random.any(&values)).collect();
    let successors: Vec<BlockId> = (0..random.below(5) / 4).filter_map(|_| random.any(blocks)).collect();
    let parent = if random.chance(50) { random.any(blocks) } else { None };
    let new = NewOperation {
        kind: random.pick(&[1, 1, 2]),
        parent,
        location: random.pick(&[0, 0, 0, 1]),
        regions: random.pick(&[0, 0, 1]),
        result_types: &[random.pick(&[3, 3, 3, 4])],
        operands: &operands,
        successors: &successors,
    };
    store.new_operation(&new).expect("an operation")
}

/// A block in an operation's region, mostly.
fn block_in(random: &mut Random, store: &mut Store, op: OpId) -> Option<BlockId> {
    let region = store.operation(op).expect("it").regions().next()?;
    random.chance(80).then(|| store.new_block(region, 0, &[3]).expect("a block"))
}

/// Sets the operand of one operation, and often of the one behind it, to any value.
fn rename(random: &mut Random, store: &mut Store) {
    let naming: Vec<OpId> = store.operations().filter(|op| op.operands().len() > 0).map(|op| op.id()).collect();
    let values: Vec<ValueId> = store.values().map(|value| value.id()).collect();
    let (first, value) = (random.below(naming.len() as u32) as usize, random.pick(&values));
    for op in naming.into_iter().skip(first).take(random.pick(&[1, 2, 2])) {
        store.set_operand(op, 0, value).expect("an operand");
    }
}
