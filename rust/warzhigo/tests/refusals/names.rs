//! Cause 2: a named thing doesn't exist.

use warzhigo::lent::Owner;
use warzhigo::{Attribute, Ignore, Inherent, Mapping, NewOperation, Refused};

use crate::common::call::{Call, New};
use crate::common::offered::{SORTS, key_refused};
use crate::common::question::{Question, hash_lent, no_entries};
use crate::stores::{ask, attribute, block, small};

#[test]
fn cause_2_building_calls() {
    let calls = |missing: u32, there: u32| {
        let names = |parent, operand, successor| {
            Call::Operation(New { parent: Some(parent), operands: vec![operand], successors: vec![successor], ..New::default() })
        };
        [
            names(missing, there, there),
            names(there, missing, there),
            names(there, there, missing),
            block(missing, 0),
            attribute(Owner::Op(missing), 1, 1),
            attribute(Owner::Block(missing), 1, 1),
            Call::Operand { op: missing, index: 0, value: there },
            Call::Operand { op: 1, index: 0, value: missing },
        ]
    };
    // There are 2 operations and values, and 1 block and region.
    for missing in [2, 3, 65536, u32::MAX] {
        for call in calls(missing, 0) {
            assert_eq!(ask(&mut small(), call.clone()), Err(2), "{call:?}");
        }
    }
    for call in [block(1, 0), attribute(Owner::Block(1), 1, 1)] {
        assert_eq!(ask(&mut small(), call.clone()), Err(2), "{call:?}");
    }
    for call in [block(0, 0), attribute(Owner::Op(1), 1, 1), attribute(Owner::Block(0), 1, 1)] {
        assert!(ask(&mut small(), call.clone()).is_ok(), "{call:?}");
    }
    assert!(ask(&mut small(), Call::Operand { op: 1, index: 0, value: 1 }).is_ok());
}

#[test]
fn cause_2_comparisons_hashes_and_keys() {
    let store = small();
    for (sort, count) in SORTS.into_iter().zip([2, 1, 1]) {
        for missing in [count, u32::MAX] {
            for (lhs, rhs) in [(missing, 0), (0, missing), (missing, missing)] {
                let mut mapping = no_entries();
                let question = Question { sort, lhs, rhs, ignore: Ignore::NOTHING };
                assert_eq!(question.lent(store.words(), &mut mapping).map_err(Refused::number), Err(2), "{question:?}");
                assert!(mapping == no_entries(), "{question:?}");
            }
            let hash = hash_lent(store.words(), sort, missing, &Ignore::NOTHING);
            assert_eq!(hash.map_err(Refused::number), Err(2), "{sort:?} {missing}");
            key_refused(store.words(), sort, missing, 100, 2, "a store made by hand");
        }
        let last = Question { sort, lhs: count - 1, rhs: count - 1, ignore: Ignore::NOTHING };
        assert!(last.lent(store.words(), &mut no_entries()).is_ok(), "{last:?}");
        assert!(hash_lent(store.words(), sort, count - 1, &Ignore::NOTHING).is_ok(), "{last:?}");
    }
}

/// An id of another store names nothing, not even one of a clone, though the store has the number.
#[test]
fn cause_2_ids_of_another_store() {
    let mut store = small();
    let other = store.clone();
    let before = store.words().to_vec();
    let (op, block) = (other.op_id(0).unwrap(), other.block_id(0).unwrap());
    let (region, value) = (other.region_id(0).unwrap(), other.value_id(0).unwrap());
    let own = store.op_id(1).unwrap();
    let some = Attribute { key: 1, kind: 1, content: 1, inherent: Inherent::No };
    let mut mapping = Mapping::new();
    let answers = [
        store.new_operation(&NewOperation { parent: Some(block), ..Default::default() }).err(),
        store.new_operation(&NewOperation { operands: &[value], ..Default::default() }).err(),
        store.new_operation(&NewOperation { successors: &[block], ..Default::default() }).err(),
        store.new_block(region, 0, &[]).err(),
        store.set_attribute(op, some).err(),
        store.set_attribute(block, some).err(),
        store.set_operand(op, 0, store.value_id(0).unwrap()).err(),
        store.set_operand(own, 0, value).err(),
        store.clone_operation(op, None, &mut mapping).err(),
        store.clone_operation(own, Some(block), &mut mapping).err(),
        warzhigo::operation_eq(&store, &mut mapping, op, own, &Ignore::NOTHING).err(),
        warzhigo::operation_eq(&store, &mut mapping, own, op, &Ignore::NOTHING).err(),
        warzhigo::basic_block_eq(&store, &mut mapping, block, block, &Ignore::NOTHING).err(),
        warzhigo::region_eq(&store, &mut mapping, region, region, &Ignore::NOTHING).err(),
        warzhigo::operation_hash(&store, op, &Ignore::NOTHING).err(),
        warzhigo::basic_block_hash(&store, block, &Ignore::NOTHING).err(),
        warzhigo::region_hash(&store, region, &Ignore::NOTHING).err(),
        warzhigo::operation_key(&store, op, &Ignore::NOTHING).err(),
        warzhigo::basic_block_key(&store, block, &Ignore::NOTHING).err(),
        warzhigo::region_key(&store, region, &Ignore::NOTHING).err(),
        warzhigo::operation_key_into(&store, op, &Ignore::NOTHING, &mut []).err(),
        warzhigo::basic_block_key_into(&store, block, &Ignore::NOTHING, &mut []).err(),
        warzhigo::region_key_into(&store, region, &Ignore::NOTHING, &mut []).err(),
        store.operation(op).err(),
        store.block(block).err(),
        store.region(region).err(),
        store.value(value).err(),
    ];
    assert_eq!(answers.map(|refused| refused.map(Refused::number)), [Some(2); 27]);
    assert!(store.words() == before && mapping.is_empty());
}
