//! Independence and twins in stores made by hand.

use warzhigo::{Attribute, BlockId, Ignore, Inherent, Mapping, NewOperation, OpId, RegionId, Store, ValueId, operation_eq};

use crate::common::question::{Sort, independent_inner, independent_lent};
use crate::{twins, twins_under};

const EVERYTHING: &Ignore = &Ignore::NOTHING;

const ALIKE: NewOperation<'_> =
    NewOperation { kind: 1, parent: None, location: 0, regions: 0, result_types: &[3], operands: &[], successors: &[] };

/// So many that are alike and name nothing.
fn alike(count: u32) -> Store {
    let mut store = Store::new();
    for _ in 0..count {
        store.new_operation(&ALIKE).unwrap();
    }
    store
}

fn result(store: &Store, op: OpId) -> ValueId {
    store.operation(op).unwrap().results().next().unwrap()
}

/// One of another kind, and so many that are alike and name its result; all of them, and their results.
fn naming<const N: usize>() -> (Store, [OpId; N], [ValueId; N]) {
    let mut store = Store::new();
    let first = store.new_operation(&NewOperation { kind: 2, ..ALIKE }).unwrap();
    let operands = [result(&store, first)];
    let ops = [(); N].map(|()| store.new_operation(&NewOperation { operands: &operands, ..ALIKE }).unwrap());
    let results = ops.map(|op| result(&store, op));
    (store, ops, results)
}

/// An operation with a block in its region.
fn outer(store: &mut Store, new: &NewOperation<'_>) -> (OpId, RegionId, BlockId) {
    let op = store.new_operation(&NewOperation { regions: 1, ..*new }).unwrap();
    let region = store.operation(op).unwrap().regions().next().unwrap();
    (op, region, store.new_block(region, 0, &[3]).unwrap())
}

/// Are two independent? It is the same in both orders, by ids and on lent words.
fn independent(store: &Store, sort: Sort, l: u32, r: u32) -> bool {
    let [one, other] = [(l, r), (r, l)].map(|(l, r)| independent_inner(store, sort, l, r).unwrap());
    assert_eq!(one, other, "{sort:?} {l} and {r}");
    assert_eq!([(l, r), (r, l)].map(|(l, r)| independent_lent(store.words(), sort, l, r)), [Ok(one); 2], "{sort:?} {l} and {r}");
    one
}

fn is_equal(store: &Store, lhs: OpId, rhs: OpId) -> bool {
    operation_eq(store, &mut Mapping::new(), lhs, rhs, EVERYTHING).unwrap().is_eq()
}

#[test]
fn the_first_of_all_that_are_alike_stands_for_each() {
    assert_eq!(twins(&alike(0), EVERYTHING), []);
    assert_eq!(twins(&alike(1), EVERYTHING), [None]);
    assert_eq!(twins(&alike(3), EVERYTHING), [None, Some(0), Some(0)]);
    let mut all = vec![Some(0); 512];
    all[0] = None;
    assert_eq!(twins(&alike(512), EVERYTHING), all);
}

#[test]
fn groups_that_alternate() {
    let mut store = Store::new();
    for kind in [1, 2, 3, 2, 1, 2] {
        store.new_operation(&NewOperation { kind, ..ALIKE }).unwrap();
    }
    assert_eq!(twins(&store, EVERYTHING), [None, None, None, Some(1), Some(0), Some(1)]);
}

/// Twins that hold twins: those inside that name nothing, or what stands outside, are twins by themselves.
#[test]
fn nested_twins() {
    let mut store = Store::new();
    let keyboard = store.new_operation(&NewOperation { kind: 2, ..ALIKE }).unwrap();
    let outside = [result(&store, keyboard)];
    for _ in 0..2 {
        let (_, _, block) = outer(&mut store, &ALIKE);
        let inside = NewOperation { parent: Some(block), ..ALIKE };
        let argument = store.block(block).unwrap().arguments().next().unwrap();
        store.new_operation(&NewOperation { kind: 4, operands: &outside, ..inside }).unwrap();
        store.new_operation(&NewOperation { kind: 5, operands: &[argument], ..inside }).unwrap();
        store.new_operation(&NewOperation { kind: 6, ..inside }).unwrap();
    }
    assert_eq!(twins(&store, EVERYTHING), [None, None, None, None, None, Some(1), Some(2), None, Some(4)]);
    for (sort, l, r) in [(Sort::Op, 1, 5), (Sort::Op, 3, 7), (Sort::Op, 2, 5), (Sort::Block, 0, 1), (Sort::Region, 0, 1)] {
        assert!(independent(&store, sort, l, r), "{sort:?} {l} and {r}");
    }
    // what the first operation defines is named by one inside each of the others
    assert!(!independent(&store, Sort::Op, 0, 1) && !independent(&store, Sort::Op, 0, 2) && independent(&store, Sort::Op, 0, 3));
}

/// The second of two twins goes, and with it one inside it that stands for one inside the first: of twins one inside another the outermost are
/// merged.
#[test]
fn one_that_stands_for_another_inside_one_that_goes() {
    let mut store = Store::new();
    let [(_, _, first), (_, _, second)] = [(); 2].map(|()| outer(&mut store, &ALIKE));
    for parent in [second, first] {
        store.new_operation(&NewOperation { kind: 2, parent: Some(parent), ..ALIKE }).unwrap();
    }
    assert_eq!(twins(&store, EVERYTHING), [None, Some(0), None, Some(2)]);
}

/// They share what is inside, but each is independent of itself.
#[test]
fn an_operation_and_one_inside_it() {
    let mut store = Store::new();
    let (_, _, block) = outer(&mut store, &ALIKE);
    outer(&mut store, &NewOperation { parent: Some(block), ..ALIKE });
    assert!(!independent(&store, Sort::Op, 0, 1));
    assert!(!independent(&store, Sort::Block, 0, 1));
    assert!(!independent(&store, Sort::Region, 0, 1));
    for (sort, n) in [Sort::Op, Sort::Block, Sort::Region].into_iter().flat_map(|sort| [(sort, 0), (sort, 1)]) {
        assert!(independent(&store, sort, n, n), "{sort:?} {n}");
    }
    assert_eq!(twins(&store, EVERYTHING), [None, None]);
}

/// Each names what the other defines.
#[test]
fn two_that_name_each_other() {
    let (mut store, [l, r], [of_l, of_r]) = naming();
    assert_eq!(twins(&store, EVERYTHING), [None, None, Some(1)]);
    store.set_operand(l, 0, of_r).unwrap();
    store.set_operand(r, 0, of_l).unwrap();
    assert!(!independent(&store, Sort::Op, 1, 2) && !is_equal(&store, l, r));
    assert_eq!(twins(&store, EVERYTHING), [None; 3]);
    // and each its own
    store.set_operand(l, 0, of_l).unwrap();
    store.set_operand(r, 0, of_r).unwrap();
    assert!(independent(&store, Sort::Op, 1, 2) && is_equal(&store, l, r));
    assert_eq!(twins(&store, EVERYTHING), [None, None, Some(1)]);
}

/// One names what the other defines, and not the other way round. The other has the same operand, its own result: so the two are equal, but
/// in one direction only, and are no twins in either.
#[test]
fn two_of_which_one_names_the_other() {
    for (named, lhs, rhs) in [(1, 0, 1), (0, 1, 0)] {
        let (mut store, ops, results) = naming::<2>();
        ops.into_iter().for_each(|op| store.set_operand(op, 0, results[named]).unwrap());
        assert!(is_equal(&store, ops[lhs], ops[rhs]) && !is_equal(&store, ops[rhs], ops[lhs]), "{named}");
        assert!(!independent(&store, Sort::Op, 1, 2), "{named}");
        assert_eq!(twins(&store, EVERYTHING), [None; 3], "{named}");
    }
}

/// The first that is equal to the last one names what that one defines; the next has its own result as its operand, as the last one has.
#[test]
fn one_that_is_not_independent_is_passed_over() {
    let (mut store, ops, results) = naming::<3>();
    for (op, named) in [(0, 2), (1, 1), (2, 2)] {
        store.set_operand(ops[op], 0, results[named]).unwrap();
    }
    assert!(is_equal(&store, ops[0], ops[2]) && !independent(&store, Sort::Op, 1, 3));
    assert_eq!(twins(&store, EVERYTHING), [None, None, None, Some(2)]);
    // what two name of a third one doesn't hinder them
    store.set_operand(ops[1], 0, results[2]).unwrap();
    assert_eq!(twins(&store, EVERYTHING), [None, None, Some(1), None]);
}

/// A block is named as a value is.
#[test]
fn successors() {
    let mut store = Store::new();
    let [(_, _, first), (_, _, second)] = [(); 2].map(|()| outer(&mut store, &ALIKE));
    assert_eq!(twins(&store, EVERYTHING), [None, Some(0)]);
    let inside = |store: &mut Store, parent, successor| {
        store.new_operation(&NewOperation { parent: Some(parent), successors: &[successor], ..ALIKE }).unwrap();
    };
    inside(&mut store, first, first);
    inside(&mut store, second, second);
    // each names the block around it: the outer ones are twins, and those inside are not
    assert_eq!(twins(&store, EVERYTHING), [None, Some(0), None, None]);
    assert!(independent(&store, Sort::Block, 0, 1) && independent(&store, Sort::Op, 2, 3) && !independent(&store, Sort::Op, 0, 2));
    inside(&mut store, second, first);
    for (sort, n) in [(Sort::Op, 1), (Sort::Block, 1), (Sort::Region, 1)] {
        assert!(!independent(&store, sort, 0, n), "{sort:?}");
    }
    assert!(independent(&store, Sort::Op, 2, 4) && !independent(&store, Sort::Op, 0, 4));
    assert_eq!(twins(&store, EVERYTHING), [None, None, None, None, Some(2)]);
}

/// 400 that are alike but for the value that each names, and one that names the last one's.
#[test]
fn what_is_named_outside_counts() {
    let mut store = Store::new();
    let sixteen = NewOperation { kind: 2, result_types: &[3; 16], ..ALIKE };
    let mut values = Vec::new();
    for _ in 0..25 {
        let op = store.new_operation(&sixteen).unwrap();
        values.extend(store.operation(op).unwrap().results());
    }
    for value in &values {
        store.new_operation(&NewOperation { operands: &[*value], ..ALIKE }).unwrap();
    }
    let found = twins(&store, EVERYTHING);
    assert!(found[1..25].iter().all(|twin| *twin == Some(0)));
    assert_eq!(found[25..], [None; 400]);
    store.new_operation(&NewOperation { operands: &[values[399]], ..ALIKE }).unwrap();
    assert_eq!(twins(&store, EVERYTHING)[425], Some(424));
}

#[test]
fn ignore_rules() {
    use Inherent::{No, Yes};
    let attributed = |attributes: &[(u32, Inherent)]| {
        let mut store = Store::new();
        for (location, (content, inherent)) in (0..).zip(attributes.iter().copied()) {
            let op = store.new_operation(&NewOperation { location, ..ALIKE }).unwrap();
            store.set_attribute(op, Attribute { key: 1, kind: 5, content, inherent }).unwrap();
        }
        store
    };
    let kinds = Ignore::LOCATIONS.and_kind(5);
    let plain = attributed(&[(1, No), (2, No), (1, No)]);
    assert_eq!(twins(&plain, EVERYTHING), [None; 3]);
    assert_eq!(twins(&plain, &Ignore::LOCATIONS), [None, None, Some(0)]);
    assert_eq!(twins(&plain, &kinds), [None, Some(0), Some(0)]);
    assert_eq!(twins(&attributed(&[(1, Yes), (2, Yes), (1, No)]), &kinds), [None; 3]);
    assert_eq!(twins(&attributed(&[(1, Yes), (2, Yes), (1, Yes)]), &kinds), [None, None, Some(0)]);
}

#[test]
fn renamed_types() {
    let mut store = Store::new();
    for t in [5, 6, 7] {
        store.new_operation(&NewOperation { result_types: &[t], ..ALIKE }).unwrap();
    }
    assert_eq!(twins(&store, EVERYTHING), [None; 3]);
    assert_eq!(twins_under(&store, EVERYTHING, &[5, 6]), [None, Some(0), None]);
    assert_eq!(twins_under(&store, EVERYTHING, &[7, 6]), [None, None, Some(1)]);
    assert_eq!(twins_under(&store, EVERYTHING, &[7, 9, 5, 9, 6, 9]), [None, Some(0), Some(0)]);
}

/// Where the names of twins give way to those of what stands for them, what names them may become twins.
#[test]
fn merging_makes_further_twins() {
    let (mut store, ops, results) = naming::<3>();
    let [mixed, plain] = [[results[2], results[1]], [results[0]; 2]]
        .map(|operands| store.new_operation(&NewOperation { kind: 4, operands: &operands, ..ALIKE }).unwrap());
    assert_eq!(twins(&store, EVERYTHING), [None, None, Some(1), Some(1), None, None]);
    (0..2).for_each(|index| store.set_operand(mixed, index, results[0]).unwrap());
    assert!(is_equal(&store, mixed, plain));
    let found = store.twins_of_operations(EVERYTHING).unwrap();
    assert_eq!(found, [None, None, Some(ops[0]), Some(ops[0]), None, Some(mixed)]);
}
