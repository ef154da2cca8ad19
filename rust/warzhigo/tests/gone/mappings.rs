//! Mappings.

use warzhigo::*;

use crate::{EVERYTHING, Form, ONE, all_calls, cause, form, gone};

/// A mapping that a comparison of these two has filled.
fn filled(store: &Store, left: &Form, right: &Form) -> Mapping {
    let mut mapping = Mapping::new();
    assert!(operation_eq(store, &mut mapping, left.ops[0], right.ops[0], &EVERYTHING).unwrap().is_eq());
    mapping
}

fn lend(store: &Store, mapping: &mut Mapping, form: &Form) -> Option<u32> {
    cause(operation_eq(store, mapping, form.ops[0], form.ops[0], &EVERYTHING))
}

#[test]
fn a_mapping_of_what_has_gone_is_refused_until_it_is_cleared() {
    let mut store = Store::new();
    let stays = form(&mut store);
    store.mark(ONE).unwrap();
    let other = form(&mut store);
    let mappings = [(&stays, &other), (&other, &stays), (&other, &other)].map(|(left, right)| filled(&store, left, right));
    store.go_back(ONE).unwrap();
    let again = form(&mut store);
    for (mut mapping, (left, right)) in mappings.into_iter().zip([(stays, other), (other, stays), (other, other)]) {
        let before = mapping.words().to_vec();
        for form in [&stays, &again, &other] {
            assert_eq!(lend(&store, &mut mapping, form), Some(8), "8 comes before 2");
        }
        assert!(mapping.words() == before);
        // its entries are those that were made, by the ids that were good then
        assert_eq!(mapping.ops().collect::<Vec<_>>(), [(left.ops[0], right.ops[0]), (left.ops[1], right.ops[1])]);
        assert_eq!(mapping.lookup_value(left.values[1]), Some(right.values[1]));
        assert_eq!(mapping.lookup_block(again.block), None);
        mapping.clear();
        assert_eq!(lend(&store, &mut mapping, &again), None);
    }
}

#[test]
fn a_mapping_of_what_stays_is_taken() {
    let mut store = Store::new();
    let [first, second] = [(); 2].map(|()| form(&mut store));
    let mut mapping = filled(&store, &first, &second);
    store.mark(ONE).unwrap();
    form(&mut store);
    store.go_back(ONE).unwrap();
    assert_eq!(mapping.lookup_op(first.ops[0]), Some(second.ops[0]));
    let third = form(&mut store);
    assert_eq!(lend(&store, &mut mapping, &third), None);
    // entries of before and after are both there, each by its own ids
    let ops = [(first, second), (third, third)].map(|(l, r)| [(l.ops[0], r.ops[0]), (l.ops[1], r.ops[1])]);
    assert_eq!(mapping.ops().collect::<Vec<_>>(), ops.concat());
    assert_eq!(mapping.lookup_block(third.block), Some(third.block));
    assert_eq!(mapping.lookup_value(first.values[0]), Some(second.values[0]));
    store.go_back(ONE).unwrap();
    assert_eq!(lend(&store, &mut mapping, &first), Some(8));
    assert_eq!(format!("{mapping:?}"), "{v0: v2, v1: v3, v4: v4, v5: v5, b0: b1, b2: b2, o0: o2, o1: o3, o4: o4, o5: o5}");
}

#[test]
fn entries_by_hand() {
    let (mut store, stays, gone) = gone();
    let next = form(&mut store);
    // of before and after, both ways, and of what has gone
    for (from, to, refused) in [
        (stays, next, None),
        (next, stays, None),
        (next, next, None),
        (stays, gone, Some(8)),
        (gone, stays, Some(8)),
        (gone, next, Some(8)),
        (gone, gone, Some(8)),
    ] {
        let mut mapping = Mapping::new();
        let entered = [
            mapping.map_value(from.values[0], to.values[1]),
            mapping.map_block(from.block, to.block),
            mapping.map_op(from.ops[1], to.ops[1]),
        ];
        assert_eq!(entered, [Ok(()); 3], "{from:?} to {to:?}");
        assert_eq!(mapping.lookup_value(from.values[0]), Some(to.values[1]));
        assert_eq!(mapping.ops().collect::<Vec<_>>(), [(from.ops[1], to.ops[1])]);
        assert_eq!(lend(&store, &mut mapping, &stays), refused, "{from:?} to {to:?}");
        mapping.clear();
        assert!(mapping.is_empty() && mapping.words().iter().all(|image| *image == u32::MAX));
        assert_eq!(lend(&store, &mut mapping, &next), None);
    }
}

/// A later entry replaces an earlier one, good or not.
#[test]
fn entries_by_hand_replace_each_other() {
    let (mut store, stays, gone) = gone();
    let next = form(&mut store);
    let mut mapping = Mapping::new();
    mapping.map_op(gone.ops[0], gone.ops[1]).unwrap();
    assert_eq!(mapping.lookup_op(next.ops[0]), None);
    assert_eq!(lend(&store, &mut mapping, &stays), Some(8));
    mapping.map_op(next.ops[0], stays.ops[1]).unwrap();
    assert_eq!((mapping.lookup_op(next.ops[0]), mapping.lookup_op(gone.ops[0])), (Some(stays.ops[1]), None));
    assert_eq!(lend(&store, &mut mapping, &stays), None);
    // into a mapping that belongs to the store
    mapping.map_op(gone.ops[0], gone.ops[1]).unwrap();
    assert_eq!(lend(&store, &mut mapping, &stays), Some(8));
    mapping.map_op(next.ops[0], next.ops[1]).unwrap();
    assert_eq!(lend(&store, &mut mapping, &stays), None);
    assert_eq!(mapping.lookup_op(next.ops[0]), Some(next.ops[1]));
}

/// An entry by hand into a mapping that has known the store from before it went back.
#[test]
fn entries_by_hand_beside_older_ones() {
    let mut store = Store::new();
    let [first, second] = [(); 2].map(|()| form(&mut store));
    store.mark(ONE).unwrap();
    let gone = form(&mut store);
    let mut mapping = filled(&store, &first, &second);
    store.go_back(ONE).unwrap();
    let next = form(&mut store);
    let mut other = mapping.clone();
    mapping.map_op(next.ops[0], first.ops[0]).unwrap();
    other.map_op(gone.ops[0], first.ops[0]).unwrap();
    assert_eq!((lend(&store, &mut mapping, &second), lend(&store, &mut other, &second)), (None, Some(8)));
    assert_eq!((mapping.lookup_op(next.ops[0]), other.lookup_op(gone.ops[0])), (Some(first.ops[0]), Some(first.ops[0])));
}

#[test]
fn stores_that_went_back_are_two_stores() {
    let (store, stays, _) = gone();
    let (mut other, others, _) = gone();
    let next = form(&mut other);
    let mut mapping = filled(&other, &others, &others);
    assert_eq!(lend(&store, &mut mapping, &stays), Some(8));
    assert_eq!(cause(mapping.map_op(stays.ops[0], stays.ops[0])), Some(8));
    // that an id given after going back is of another store is found out when the mapping is lent
    let mut mixed = Mapping::new();
    assert_eq!(cause(mixed.map_op(others.ops[0], stays.ops[0])), Some(8));
    assert_eq!(mixed.map_op(next.ops[0], stays.ops[0]), Ok(()));
    assert_eq!((lend(&other, &mut mixed, &others), lend(&store, &mut mixed, &stays)), (Some(8), Some(8)));
    // a cleared mapping is anyone's
    mapping.clear();
    mapping.map_op(stays.ops[0], stays.ops[1]).unwrap();
    assert_eq!((lend(&other, &mut mapping, &others), lend(&store, &mut mapping, &stays)), (Some(8), None));
    mapping.clear();
    mapping.map_op(next.ops[0], others.ops[1]).unwrap();
    mapping.map_op(others.ops[0], next.ops[1]).unwrap();
    assert_eq!((lend(&store, &mut mapping, &stays), lend(&other, &mut mapping, &others)), (Some(8), None));
}

/// Layout after layout in one store, each gone back on: an id is good for its own only.
#[test]
fn many_times_back() {
    let mut store = Store::new();
    let stays = form(&mut store);
    store.mark(ONE).unwrap();
    let mut gone = Vec::new();
    let mut mapping = Mapping::new();
    for n in 0..2000 {
        let next = form(&mut store);
        mapping.map_value(stays.values[1], next.values[0]).unwrap();
        assert_eq!(lend(&store, &mut mapping, &next), None, "{n}");
        mapping.clear();
        if let Some(before) = gone.last() {
            assert_eq!(all_calls(&mut store, before, &stays), [Some(2); 33], "{n}");
        }
        gone.push(next);
        store.go_back(ONE).unwrap();
    }
    let next = form(&mut store);
    assert!(gone.iter().all(|form| store.operation(form.ops[0]).is_err() && operation_key(&store, form.ops[1], &EVERYTHING).is_err()));
    assert_eq!(all_calls(&mut store, &next, &stays), [None; 33]);
}
