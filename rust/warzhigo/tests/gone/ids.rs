//! Ids.

use warzhigo::*;

use crate::{EVERYTHING, ONE, TWO, all_calls, cause, form, gone};

#[test]
fn an_id_of_what_has_gone_names_nothing() {
    let (mut store, stays, gone) = gone();
    let before = store.words().to_vec();
    assert_eq!(all_calls(&mut store, &gone, &stays), [Some(2); 33]);
    assert!(store.words() == before);
    // also where there is another of the same number
    let next = form(&mut store);
    assert_eq!(next.ops.map(OpId::number), gone.ops.map(OpId::number));
    assert_eq!(next.values.map(ValueId::number), gone.values.map(ValueId::number));
    assert_ne!(next, gone);
    let before = store.words().to_vec();
    assert_eq!(all_calls(&mut store, &gone, &stays), [Some(2); 33]);
    assert!(store.words() == before);
    assert_eq!(all_calls(&mut store, &next, &stays), [None; 33]);
}

#[test]
fn an_id_of_what_stays_is_good() {
    let (mut store, stays, _) = gone();
    assert_eq!(all_calls(&mut store, &stays, &stays), [None; 33]);
    let next = form(&mut store);
    assert_eq!(all_calls(&mut store, &stays, &next), [None; 33]);
    store.mark(TWO).unwrap();
    form(&mut store);
    store.go_back(TWO).unwrap();
    for form in [&stays, &next] {
        assert_eq!(all_calls(&mut store, form, &stays), [None; 33]);
    }
    store.go_back(ONE).unwrap();
    assert_eq!(all_calls(&mut store, &stays, &stays), [None; 33]);
    assert_eq!(all_calls(&mut store, &next, &stays), [Some(2); 33]);
}

/// Going back to where nothing was made since takes no id away.
#[test]
fn replacements_take_no_id_away() {
    let mut store = Store::new();
    let form = form(&mut store);
    store.mark(ONE).unwrap();
    store.set_operand(form.ops[1], 0, form.values[1]).unwrap();
    store.set_attribute(form.block, Attribute { key: 1, kind: 1, content: 1, inherent: Inherent::No }).unwrap();
    let mut mapping = Mapping::new();
    assert!(operation_eq(&store, &mut mapping, form.ops[0], form.ops[0], &EVERYTHING).unwrap().is_eq());
    store.go_back(ONE).unwrap();
    assert_eq!(mapping.lookup_op(form.ops[1]), Some(form.ops[1]));
    assert!(operation_eq(&store, &mut mapping, form.ops[0], form.ops[0], &EVERYTHING).unwrap().is_eq());
    assert_eq!(all_calls(&mut store, &form, &form), [None; 33]);
}

#[test]
fn readers_give_the_ids_that_calls_gave() {
    let (mut store, stays, gone) = gone();
    let next = form(&mut store);
    assert_eq!(store.operations().map(|op| op.id()).collect::<Vec<_>>(), [stays.ops, next.ops].concat());
    assert_eq!(store.blocks().map(|block| block.id()).collect::<Vec<_>>(), [stays.block, next.block]);
    assert_eq!(store.regions().map(|region| region.id()).collect::<Vec<_>>(), [stays.region, next.region]);
    assert_eq!(store.values().map(|value| value.id()).collect::<Vec<_>>(), [stays.values, next.values].concat());
    assert_eq!((store.op_id(3), store.value_id(3)), (Some(next.ops[1]), Some(next.values[1])));
    assert_ne!(store.op_id(3), Some(gone.ops[1]));
    store.set_operand(next.ops[1], 0, stays.values[1]).unwrap();
    assert_eq!(store.operation(next.ops[1]).unwrap().operands().collect::<Vec<_>>(), [stays.values[1]]);
    assert_eq!(store.value(next.values[0]).unwrap().owner(), Owner::Block(next.block));
    assert_eq!(store.operation(stays.ops[1]).unwrap().parent(), Some(stays.block));
    let unequal = operation_eq(&store, &mut Mapping::new(), stays.ops[0], next.ops[0], &EVERYTHING).unwrap();
    assert_eq!(unequal, EqResult::FirstNEQOps { lhs: stays.ops[1], rhs: next.ops[1], paired: 3 });
}

#[test]
fn a_clone_knows_none_of_the_ids() {
    let (mut store, stays, gone) = gone();
    let next = form(&mut store);
    let clone = store.clone();
    for form in [&stays, &gone, &next] {
        assert_eq!(cause(clone.operation(form.ops[0])), Some(2));
        assert_eq!(cause(operation_key(&clone, form.ops[0], &EVERYTHING)), Some(2));
    }
    assert_eq!(clone.operation(clone.op_id(next.ops[1].number()).unwrap()).unwrap().kind(), 8);
}
