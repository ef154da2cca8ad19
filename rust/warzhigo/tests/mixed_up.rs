//! What a caller can mix up: ids, mappings and clones of two stores. Each is an error, and changes nothing.

use warzhigo::*;

/// A form with a region, a block in it, and an operation with an operand and a result in the block.
struct Form {
    store: Store,
    ops: [OpId; 2],
    block: BlockId,
    region: RegionId,
    values: [ValueId; 2],
}

fn form() -> Form {
    let mut store = Store::new();
    let outer = store.new_operation(&NewOperation { kind: 7, regions: 1, ..Default::default() }).unwrap();
    let region = store.operation(outer).unwrap().regions().next().unwrap();
    let block = store.new_block(region, 0, &[3]).unwrap();
    let argument = store.block(block).unwrap().arguments().next().unwrap();
    let inner = NewOperation { kind: 8, parent: Some(block), result_types: &[3], operands: &[argument], ..Default::default() };
    let inner = store.new_operation(&inner).unwrap();
    let result = store.operation(inner).unwrap().results().next().unwrap();
    Form { store, ops: [outer, inner], block, region, values: [argument, result] }
}

/// The cause, if it was refused.
fn cause<T>(answer: Result<T, Refused>) -> Option<u32> {
    answer.err().map(Refused::number)
}

#[test]
fn ids_of_another_store_are_nothing_there() {
    let (mut form, other) = (form(), form());
    let before = form.store.words().to_vec();
    let store = &mut form.store;
    let new = NewOperation::default();
    assert_eq!(cause(store.new_operation(&NewOperation { parent: Some(other.block), ..new })), Some(2));
    assert_eq!(cause(store.new_operation(&NewOperation { operands: &[form.values[0], other.values[0]], ..new })), Some(2));
    assert_eq!(cause(store.new_operation(&NewOperation { successors: &[other.block], ..new })), Some(2));
    assert_eq!(cause(store.new_operation(&NewOperation { operands: &[other.values[0]; 17], ..new })), Some(2));
    assert_eq!(cause(store.new_block(other.region, 0, &[])), Some(2));
    let attribute = Attribute { key: 1, kind: 1, content: 1, inherent: Inherent::No };
    assert_eq!(cause(store.set_attribute(other.ops[0], attribute)), Some(2));
    assert_eq!(cause(store.set_attribute(other.block, attribute)), Some(2));
    assert_eq!(cause(store.set_operand(other.ops[1], 0, form.values[0])), Some(2));
    assert_eq!(cause(store.set_operand(form.ops[1], 0, other.values[0])), Some(2));
    let mut mapping = Mapping::new();
    assert_eq!(cause(store.clone_operation(other.ops[0], None, &mut mapping)), Some(2));
    assert_eq!(cause(store.clone_operation(form.ops[1], Some(other.block), &mut mapping)), Some(2));
    assert!(mapping.is_empty());
    assert_eq!(store.words(), before);
}

#[test]
fn causes_keep_their_order() {
    let (mut form, other) = (form(), form());
    let attribute = Attribute { key: 1, kind: 64, content: 1, inherent: Inherent::No };
    assert_eq!(cause(form.store.set_attribute(other.ops[0], attribute)), Some(6));
    assert_eq!(cause(form.store.set_operand(form.ops[1], 9, other.values[0])), Some(2));
    assert_eq!(cause(form.store.new_operation(&NewOperation { operands: &[form.values[0]; 17], ..Default::default() })), Some(4));
}

#[test]
fn nothing_of_another_store_is_read() {
    let (form, other) = (form(), form());
    assert_eq!(cause(form.store.operation(other.ops[0])), Some(2));
    assert_eq!(cause(form.store.block(other.block)), Some(2));
    assert_eq!(cause(form.store.region(other.region)), Some(2));
    assert_eq!(cause(form.store.value(other.values[0])), Some(2));
    assert_eq!(form.store.op_id(2), None);
    assert_eq!(form.store.op_id(1), Some(form.ops[1]));
    assert_eq!(form.store.block_id(1), None);
    assert_eq!(form.store.region_id(1), None);
    assert_eq!(form.store.value_id(2), None);
}

#[test]
fn fragments_of_another_store_are_not_compared_hashed_or_filed() {
    let (form, other) = (form(), form());
    let (mut mapping, ignore) = (Mapping::new(), Ignore::NOTHING);
    assert_eq!(cause(operation_eq(&form.store, &mut mapping, form.ops[0], other.ops[0], &ignore)), Some(2));
    assert_eq!(cause(operation_eq(&form.store, &mut mapping, other.ops[0], form.ops[0], &ignore)), Some(2));
    assert_eq!(cause(basic_block_eq(&form.store, &mut mapping, form.block, other.block, &ignore)), Some(2));
    assert_eq!(cause(region_eq(&form.store, &mut mapping, other.region, form.region, &ignore)), Some(2));
    assert!(mapping.is_empty());
    assert_eq!(cause(operation_hash(&form.store, other.ops[0], &ignore)), Some(2));
    assert_eq!(cause(basic_block_hash(&form.store, other.block, &ignore)), Some(2));
    assert_eq!(cause(region_hash(&form.store, other.region, &ignore)), Some(2));
    assert_eq!(cause(operation_key(&form.store, other.ops[0], &ignore)), Some(2));
    assert_eq!(cause(basic_block_key(&form.store, other.block, &ignore)), Some(2));
    assert_eq!(cause(region_key(&form.store, other.region, &ignore)), Some(2));
    assert_eq!(cause(operation_extent(&form.store, other.ops[0], &ignore)), Some(2));
    assert_eq!(cause(basic_block_extent(&form.store, other.block, &ignore)), Some(2));
    assert_eq!(cause(region_extent(&form.store, other.region, &ignore)), Some(2));
    assert_eq!(cause(form.store.independent(form.ops[0], other.ops[0])), Some(2));
    assert_eq!(cause(form.store.independent(other.block, form.block)), Some(2));
    assert_eq!(cause(form.store.independent(other.region, other.region)), Some(2));
    let mut bytes = [7; 100];
    assert_eq!(cause(operation_key_into(&form.store, other.ops[0], &ignore, &mut bytes)), Some(2));
    assert_eq!(cause(basic_block_key_into(&form.store, other.block, &ignore, &mut bytes)), Some(2));
    assert_eq!(cause(region_key_into(&form.store, other.region, &ignore, &mut bytes)), Some(2));
    assert_eq!(bytes, [7; 100]);
}

#[test]
fn a_mapping_with_entries_of_another_store_is_refused() {
    let (form, mut other) = (form(), form());
    let mut mapping = Mapping::new();
    assert!(operation_eq(&form.store, &mut mapping, form.ops[0], form.ops[0], &Ignore::NOTHING).unwrap().is_eq());
    let before = mapping.words().to_vec();
    // 8 comes before 2
    for op in [other.ops[0], form.ops[0]] {
        assert_eq!(cause(operation_eq(&other.store, &mut mapping, op, op, &Ignore::NOTHING)), Some(8));
    }
    assert_eq!(cause(other.store.clone_operation(other.ops[0], None, &mut mapping)), Some(8));
    assert_eq!(cause(mapping.map_op(other.ops[0], other.ops[1])), Some(8));
    assert_eq!(mapping.words(), before);
    assert_eq!(mapping.lookup_op(other.ops[0]), None);
    assert_eq!(mapping.lookup_op(form.ops[0]), Some(form.ops[0]));
    mapping.clear();
    assert!(operation_eq(&other.store, &mut mapping, other.ops[0], other.ops[0], &Ignore::NOTHING).unwrap().is_eq());
    assert_eq!(mapping.lookup_op(form.ops[0]), None);
}

#[test]
fn an_entry_is_of_one_store() {
    let (form, other) = (form(), form());
    let mut mapping = Mapping::new();
    assert_eq!(cause(mapping.map_value(form.values[0], other.values[0])), Some(8));
    assert!(mapping.is_empty());
    mapping.map_value(form.values[0], form.values[1]).unwrap();
    assert_eq!(cause(mapping.map_block(other.block, other.block)), Some(8));
    assert_eq!(mapping.lookup_value(form.values[0]), Some(form.values[1]));
    assert_eq!(mapping.lookup_value_or_default(form.values[1]), form.values[1]);
    assert_eq!(mapping.lookup_value_or_default(other.values[0]), other.values[0]);
    assert_eq!(mapping.values().collect::<Vec<_>>(), [(form.values[0], form.values[1])]);
    assert_eq!(mapping.blocks().count() + mapping.ops().count(), 0);
    mapping.clear();
    mapping.map_block(other.block, other.block).unwrap();
    assert_eq!(mapping.lookup_block_or_default(other.block), other.block);
}

#[test]
fn a_clone_is_a_store_of_its_own() {
    let form = form();
    let mut clone = form.store.clone();
    assert_eq!(clone.words(), form.store.words());
    assert_eq!(cause(clone.operation(form.ops[0])), Some(2));
    let op = clone.op_id(form.ops[0].number()).unwrap();
    assert_eq!(clone.operation(op).unwrap().kind(), 7);
    let later = clone.new_operation(&NewOperation::default()).unwrap();
    assert_eq!(cause(form.store.operation(later)), Some(2));
}

#[test]
fn words_of_a_mapping_are_held_to_the_store() {
    let form = form();
    let mut words = vec![u32::MAX; lent::mapping_words()];
    words[0] = 1;
    let mut mapping = Mapping::from_words(&form.store, words.clone()).unwrap();
    assert_eq!(mapping.values().collect::<Vec<_>>(), [(form.values[0], form.values[1])]);
    mapping.clear();
    assert!(mapping.words().iter().all(|image| *image == u32::MAX));
    words[0] = 2;
    assert_eq!(cause(Mapping::from_words(&form.store, words.clone())), Some(8));
    words.push(0);
    assert_eq!(cause(Mapping::from_words(&form.store, words)), Some(8));
}
