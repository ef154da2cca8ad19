//! How a refusal presents itself. Causes 9, 10, 11 and 20 are only printed: no call gives them as a value.

use warzhigo::{Attribute, Ignore, Inherent, Mapping, MarkId, NewOperation, Refused, Renamed, Store, operation_eq, operation_key_into};

use crate::common::call::{Call, New};
use crate::stores::{deep, filled, small};

/// A store that can remember no more replacements, and one that is refused.
fn not_remembered() -> Option<Refused> {
    let mut store = small();
    let (op, value) = (store.op_id(1)?, store.value_id(0)?);
    store.mark(MarkId(1)).ok()?;
    (0..1025).find_map(|_| store.set_operand(op, 0, value).err())
}

/// A copy to a block in the operation, and one of an operation that names an argument in its own region.
fn not_copied() -> [Option<Refused>; 2] {
    let mut store = small();
    let mut mapping = Mapping::new();
    let (outer, inside, value) = (store.op_id(0), store.block_id(0), store.value_id(0));
    let inner = NewOperation { regions: 1, operands: &[value.unwrap()], ..Default::default() };
    let early = store.new_operation(&inner).unwrap();
    let region = store.operation(early).unwrap().regions().next().unwrap();
    let block = store.new_block(region, 0, &[1]).unwrap();
    let argument = store.block(block).unwrap().arguments().next().unwrap();
    store.set_operand(early, 0, argument).unwrap();
    let into_itself = store.clone_operation(outer.unwrap(), inside, &mut mapping).err();
    [into_itself, store.clone_operation(early, None, &mut mapping).err()]
}

/// One refusal by each cause from 1 to 8, and from 13 to 19.
fn refusals() -> [Option<Refused>; 15] {
    let (mut store, deepest) = deep();
    let (op, parent, foreign) = (store.op_id(0).unwrap(), store.block_id(deepest), small().op_id(0).unwrap());
    let typed = store.new_operation(&NewOperation { result_types: &[1], ..Default::default() }).unwrap();
    let value = store.operation(typed).unwrap().results().next().unwrap();
    let mut mapping = Mapping::new();
    mapping.map_op(foreign, foreign).unwrap();
    let [into_itself, too_early] = not_copied();
    let mut full = Store::new();
    filled(&mut full, 512, Call::Operation(New::default()));
    [
        Store::from_words([]).err(),
        store.operation(foreign).err(),
        full.new_operation(&NewOperation::default()).err(),
        store.new_operation(&NewOperation { regions: 9, ..Default::default() }).err(),
        store.new_operation(&NewOperation { parent, ..Default::default() }).err(),
        store.set_attribute(op, Attribute { key: 0, kind: 64, content: 0, inherent: Inherent::No }).err(),
        store.set_operand(op, 0, value).err(),
        operation_eq(&store, &mut mapping, op, op, &Ignore::NOTHING).err(),
        operation_key_into(&store, op, &Ignore::NOTHING, &mut []).err(),
        Renamed::new(&[(3, 3)]).err(),
        store.repeated_run(parent.unwrap(), 0, &Ignore::NOTHING).err(),
        store.go_back(MarkId(1)).err(),
        not_remembered(),
        into_itself,
        too_early,
    ]
}

#[test]
fn refusals_have_a_number_and_a_meaning() {
    for (refused, number) in refusals().into_iter().zip((1..=8).chain(13..=19)) {
        let refused = refused.expect("a refused call");
        assert_eq!(refused.number(), number);
        assert!(!refused.meaning().is_empty(), "{number}");
        assert!(refused.to_string().contains(&number.to_string()), "{refused}");
        assert!(refused.to_string().contains(refused.meaning()), "{refused}");
    }
}

#[test]
fn meanings_differ() {
    let mut meanings: Vec<&str> = refusals().into_iter().flatten().map(Refused::meaning).collect();
    meanings.sort();
    meanings.dedup();
    assert_eq!(meanings.len(), 15);
}
