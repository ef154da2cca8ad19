//! Ids and mappings of what has gone, when a store went back to a mark: each is an error and changes nothing, also where a number has been
//! given again. Ids and entries of what stays are good.

mod ids;
mod mappings;

use warzhigo::*;

const ONE: MarkId = MarkId(1);
const TWO: MarkId = MarkId(2);
const EVERYTHING: Ignore = Ignore::NOTHING;

/// The ids of an operation with a region, a block in it, and an operation with an operand and a result in that block.
#[derive(Clone, Copy, PartialEq, Debug)]
struct Form {
    ops: [OpId; 2],
    region: RegionId,
    block: BlockId,
    values: [ValueId; 2],
}

fn form(store: &mut Store) -> Form {
    let outer = store.new_operation(&NewOperation { kind: 7, regions: 1, ..Default::default() }).unwrap();
    let region = store.operation(outer).unwrap().regions().next().unwrap();
    let block = store.new_block(region, 0, &[3]).unwrap();
    let argument = store.block(block).unwrap().arguments().next().unwrap();
    let inner = NewOperation { kind: 8, parent: Some(block), result_types: &[3], operands: &[argument], ..Default::default() };
    let inner = store.new_operation(&inner).unwrap();
    let result = store.operation(inner).unwrap().results().next().unwrap();
    Form { ops: [outer, inner], region, block, values: [argument, result] }
}

/// A store with a form that stays and one that has gone.
fn gone() -> (Store, Form, Form) {
    let mut store = Store::new();
    let stays = form(&mut store);
    store.mark(ONE).unwrap();
    let gone = form(&mut store);
    store.go_back(ONE).unwrap();
    (store, stays, gone)
}

/// The cause, if it was refused.
fn cause<T>(answer: Result<T, Refused>) -> Option<u32> {
    answer.err().map(Refused::number)
}

/// What every call answers that reads, given ids of a form, beside one that is good.
fn reading_calls(store: &Store, form: &Form, good: &Form) -> [Option<u32>; 23] {
    let mut bytes = [0; 500];
    [
        cause(operation_eq(store, &mut Mapping::new(), form.ops[0], good.ops[0], &EVERYTHING)),
        cause(operation_eq(store, &mut Mapping::new(), good.ops[0], form.ops[0], &EVERYTHING)),
        cause(basic_block_eq(store, &mut Mapping::new(), form.block, good.block, &EVERYTHING)),
        cause(region_eq(store, &mut Mapping::new(), good.region, form.region, &EVERYTHING)),
        cause(operation_hash(store, form.ops[1], &EVERYTHING)),
        cause(basic_block_hash(store, form.block, &EVERYTHING)),
        cause(region_hash(store, form.region, &EVERYTHING)),
        cause(operation_key(store, form.ops[1], &EVERYTHING)),
        cause(basic_block_key(store, form.block, &EVERYTHING)),
        cause(region_key(store, form.region, &EVERYTHING)),
        cause(operation_key_into(store, form.ops[0], &EVERYTHING, &mut bytes)),
        cause(basic_block_key_into(store, form.block, &EVERYTHING, &mut bytes)),
        cause(region_key_into(store, form.region, &EVERYTHING, &mut bytes)),
        cause(store.key(form.ops[0], &EVERYTHING)),
        cause(store.extent(form.block, &EVERYTHING)),
        cause(store.repeated_run(form.block, 1, &EVERYTHING)),
        cause(store.independent(form.ops[0], good.ops[0])),
        cause(store.independent(good.block, form.block)),
        cause(store.independent(form.region, form.region)),
        cause(store.operation(form.ops[0])),
        cause(store.block(form.block)),
        cause(store.region(form.region)),
        cause(store.value(form.values[1])),
    ]
}

/// What every call answers that is given ids of a form, beside one that is good.
fn all_calls(store: &mut Store, form: &Form, good: &Form) -> Vec<Option<u32>> {
    let (new, some) = (NewOperation::default(), Attribute { key: 1, kind: 1, content: 1, inherent: Inherent::No });
    let mut answers = reading_calls(store, form, good).to_vec();
    answers.extend([
        cause(store.new_operation(&NewOperation { parent: Some(form.block), ..new })),
        cause(store.new_operation(&NewOperation { operands: &[good.values[0], form.values[0]], ..new })),
        cause(store.new_operation(&NewOperation { successors: &[form.block], ..new })),
        cause(store.new_block(form.region, 0, &[])),
        cause(store.set_attribute(form.ops[0], some)),
        cause(store.set_attribute(form.block, some)),
        cause(store.set_operand(form.ops[1], 0, good.values[0])),
        cause(store.set_operand(good.ops[1], 0, form.values[0])),
        cause(store.clone_operation(form.ops[0], None, &mut Mapping::new())),
        cause(store.clone_operation(good.ops[1], Some(form.block), &mut Mapping::new())),
    ]);
    answers
}
