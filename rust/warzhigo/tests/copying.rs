//! What a copy is: its numbers, its names, what is kept, its mapping, and what marks make of it.

#[path = "common/mod.rs"]
mod common;

use warzhigo::*;

use common::call::{Call, New, apply};
use common::copying::Copying;
use common::marked::{Marked, Step};
use common::picture::Picture;

const BY_HAND: &str = "a store made by hand";
const RULES: [Ignore; 5] = [
    Ignore::NOTHING,
    Ignore::LOCATIONS,
    Ignore { locations: false, bits: 1 << 5 },
    Ignore { locations: false, bits: u64::MAX },
    Ignore { locations: true, bits: u64::MAX },
];

fn block(region: u32, location: u32, argument_types: &[u32]) -> Call {
    Call::Block { region, location, argument_types: argument_types.to_vec() }
}

fn attribute(owner: lent::Owner, key: u32, kind: u32, inherent: Inherent) -> Call {
    Call::Attribute(owner, Attribute { key, kind, content: key + 10, inherent })
}

fn built(calls: impl IntoIterator<Item = Call>) -> Store {
    let mut store = Store::new();
    for call in calls {
        assert!(apply(&mut store, &call, BY_HAND).is_ok(), "{call:?}");
    }
    store
}

/// Operation 0 has block 0, and it operation 1, whose block 1 has operation 2 in it, and operation 3: by creation operation 2 is before 3, in
/// the walk it is behind. Operation 4 is in no block, and operation 5 in the one of it.
fn form() -> Store {
    let inner = |parent| New { kind: 9, parent: Some(parent), location: 6, ..New::default() };
    built([
        Call::Operation(New { kind: 7, location: 5, regions: 2, result_types: vec![3], ..New::default() }),
        block(0, 5, &[3, 8]),
        Call::Operation(New { regions: 1, operands: vec![1], result_types: vec![8], ..inner(0) }),
        block(2, 6, &[9]),
        Call::Operation(New { operands: vec![4, 3, 0], successors: vec![1, 0], ..inner(1) }),
        Call::Operation(New { operands: vec![2, 3], result_types: vec![5], successors: vec![0], ..inner(0) }),
        Call::Operation(New { kind: 7, regions: 1, ..New::default() }),
        block(3, 0, &[]),
        Call::Operation(inner(2)),
        attribute(lent::Owner::Op(2), 2, 5, Inherent::No),
        attribute(lent::Owner::Op(2), 1, 63, Inherent::Yes),
        attribute(lent::Owner::Block(0), 7, 5, Inherent::Yes),
    ])
}

/// Copies by ids, by numbers and by the model, into this mapping.
fn copy_into(store: &mut Store, op: u32, parent: Option<u32>, mapping: &mut Mapping) -> Option<u32> {
    let mut picture = Picture::of(store, BY_HAND);
    Copying { op, parent, ignore: &RULES }.make(store, &mut picture, mapping, BY_HAND).expect("a copy")
}

fn text(store: &Store) -> Vec<String> {
    Picture::of(store, BY_HAND).dump().split('|').map(String::from).collect()
}

/// All by hand, so that model and library aren't wrong alike.
#[test]
fn numbers_are_in_the_order_of_the_walk() {
    let mut store = form();
    let before = text(&store);
    let mut mapping = Mapping::new();
    assert_eq!(copy_into(&mut store, 0, Some(2), &mut mapping), Some(6));
    let document: Vec<String> = mapping.entries().map(|entry| entry.to_string()).collect();
    // operation 3 before 2, and its result, value 5, before the argument of block 1, value 4
    let values = ["v0>6", "v1>7", "v2>8", "v3>9", "v4>11", "v5>10"];
    assert_eq!(document, [values.as_slice(), &["b0>3", "b1>4", "o0>6", "o1>7", "o2>9", "o3>8"]].concat());
    let made = [
        "op 6 7 2 5 r[4,5] v[6] u[] s[] a[]",
        "op 7 9 3 6 r[6] v[9] u[7] s[] a[]",
        "op 8 9 3 6 r[] v[10] u[8,9] s[3] a[]",
        "op 9 9 4 6 r[] v[] u[11,9,6] s[4,3] a[1:63:11:i,2:5:12]",
        "block 3 4 5 v[7,8] o[7,8] a[7:5:17:i]",
        "block 4 6 6 v[11] o[9] a[]",
        "region 4 6 b[3]",
        "region 5 6 b[]",
        "region 6 7 b[4]",
        "value 6 3 o6.0",
        "value 7 3 b3.0",
        "value 8 8 b3.1",
        "value 9 8 o7.0",
        "value 10 5 o8.0",
        "value 11 9 b4.0",
    ];
    let after = text(&store);
    assert!(made.iter().all(|line| after.iter().any(|there| there == line)), "{after:#?}");
    // what there was is as it was, but for the block that the copy is in
    let changed: Vec<&String> = before.iter().filter(|line| !after.contains(line)).collect();
    assert_eq!(changed, ["block 2 3 0 v[] o[5] a[]", "totals 6 3 3"]);
    assert!(after.contains(&"block 2 3 0 v[] o[5,6] a[]".to_string()) && after.contains(&"totals 12 6 6".to_string()));
    assert_eq!(store.operation(store.op_id(9).unwrap()).unwrap().nesting(), 3);
}

#[test]
fn names_of_other_things_are_kept() {
    let mut store = form();
    let mut mapping = Mapping::new();
    // operation 2 names argument 4 of its block, result 3 of operation 1, result 0 and blocks 1 and 0
    assert_eq!(copy_into(&mut store, 2, None, &mut mapping), Some(6));
    assert!(text(&store).contains(&"op 6 9 - 6 r[] v[] u[4,3,0] s[1,0] a[1:63:11:i,2:5:12]".to_string()));
    assert_eq!(format!("{mapping:?}"), "{o2: o6}");
    // operation 1 with that in it: only what it defines is the copy's
    assert_eq!(copy_into(&mut store, 1, None, &mut mapping), Some(7));
    assert!(text(&store).contains(&"op 8 9 3 6 r[] v[] u[7,6,0] s[3,0] a[1:63:11:i,2:5:12]".to_string()), "{:#?}", text(&store));
    assert_eq!(format!("{mapping:?}"), "{v3: v6, v4: v7, b1: b3, o1: o7, o2: o8}");
}

/// To the end of the block that the original is in, which is walked while it grows; and copies of copies.
#[test]
fn copies_beside_the_original() {
    let mut store = form();
    let mut mapping = Mapping::new();
    let mut ops = vec![1, 3];
    for op in [1, 3, 1, 6, 8] {
        let copy = copy_into(&mut store, op, Some(0), &mut mapping).unwrap();
        ops.push(copy);
        let block = store.block(store.block_id(0).unwrap()).unwrap();
        assert_eq!(block.operations().map(OpId::number).collect::<Vec<_>>(), ops);
    }
    assert_eq!(copy_into(&mut store, 0, None, &mut mapping), Some(14));
}

/// Whatever a mapping had is gone: entries that would change names, and others.
#[test]
fn earlier_entries_neither_count_nor_stay() {
    let mut store = form();
    let [plain, mut mapping] = [Mapping::new(), Mapping::new()].map(|mut mapping| {
        copy_into(&mut store, 1, None, &mut mapping);
        mapping
    });
    assert_eq!(plain.ops().count(), mapping.ops().count());
    let id = |n| store.value_id(n).unwrap();
    for (left, image) in [(0, 5), (1, 2), (3, 0), (7, 7)] {
        mapping.map_value(id(left), id(image)).unwrap();
    }
    let last = store.block_id(3).unwrap();
    mapping.map_block(store.block_id(0).unwrap(), last).unwrap();
    mapping.map_block(last, last).unwrap();
    let copy = copy_into(&mut store, 1, Some(2), &mut mapping).unwrap();
    let document: Vec<String> = mapping.entries().map(|entry| entry.to_string()).collect();
    assert_eq!(document, ["v3>10", "v4>11", "b1>5", "o1>10", "o2>11"]);
    assert_eq!(store.operation(store.op_id(copy).unwrap()).unwrap().operands().map(ValueId::number).collect::<Vec<_>>(), [1]);
    // it can be lent again, cleared and entered into
    let [l, r] = [1, copy].map(|n| store.op_id(n).unwrap());
    assert!(operation_eq(&store, &mut mapping, l, r, &Ignore::NOTHING).unwrap().is_eq());
    mapping.map_op(r, l).unwrap();
    assert_eq!(mapping.lookup_op(r), Some(l));
    mapping.clear();
    assert!(mapping.is_empty() && mapping.words().iter().all(|image| *image == u32::MAX));
}

/// A refused copy leaves its mapping the entries that it had, and they can still be cleared.
#[test]
fn a_refused_copy_leaves_the_mapping() {
    let mut store = form();
    let mut mapping = Mapping::new();
    copy_into(&mut store, 0, None, &mut mapping);
    let before = mapping.clone();
    let (op, inside) = (store.op_id(0).unwrap(), store.block_id(1));
    assert_eq!(store.clone_operation(op, inside, &mut mapping).map_err(Refused::number), Err(18));
    assert_eq!(mapping, before);
    mapping.clear();
    assert!(mapping.words().iter().all(|image| *image == u32::MAX));
}

/// A comparison of what has been copied goes into a mapping that has been a copier's, and the other way.
#[test]
fn mappings_put_together() {
    let mut store = form();
    let [mut first, mut second, mut whole] = [Mapping::new(), Mapping::new(), Mapping::new()];
    let copy = copy_into(&mut store, 0, None, &mut first).unwrap();
    let copy_of_copy = copy_into(&mut store, copy, Some(2), &mut second).unwrap();
    let [l, r] = [0, copy_of_copy].map(|n| store.op_id(n).unwrap());
    assert!(operation_eq(&store, &mut whole, l, r, &Ignore::NOTHING).unwrap().is_eq());
    assert_eq!(first.then(&second), Ok(whole));
    assert!(second.then(&first).unwrap().is_empty());
    assert_eq!(first.inverse().and_then(|back| back.inverse()), Some(first));
}

/// A mark remembers nothing of a copy, and going back takes it away, with its ids and its mapping.
#[test]
fn marks() {
    let (mut store, one) = (form(), MarkId(1));
    let [op, block] = [0, 2];
    store.mark(one).unwrap();
    let before = (Picture::of(&store, BY_HAND), store.op_id(op).unwrap());
    let mut mapping = Mapping::new();
    let gone = store.clone_operation(before.1, store.block_id(block), &mut mapping).unwrap();
    assert_eq!((store.remembered(), store.operation(gone).unwrap().kind()), (0, 7));
    let words = mapping.words().to_vec();
    store.go_back(one).unwrap();
    assert_eq!(Picture::of(&store, BY_HAND), before.0);
    assert_eq!(store.operation(gone).err().map(Refused::number), Some(2));
    // what it names has gone: 8, also for a copy, and nothing is changed
    assert_eq!(store.clone_operation(before.1, None, &mut mapping).map_err(Refused::number), Err(8));
    assert_eq!(operation_eq(&store, &mut mapping, before.1, before.1, &Ignore::NOTHING).map_err(Refused::number), Err(8));
    assert!(mapping.words() == words && mapping.lookup_op(before.1) == Some(gone));
    // the numbers are given again, and the ids are others
    mapping.clear();
    let again = store.clone_operation(before.1, None, &mut mapping).unwrap();
    assert!(again.number() == gone.number() && again != gone && mapping.lookup_op(before.1) == Some(again));
    assert_eq!(store.clone_operation(gone, None, &mut Mapping::new()).map_err(Refused::number), Err(2));
    assert!(store.clone_operation(again, None, &mut mapping).is_ok());
}

/// Where no replacement can be remembered any more, a copy is accepted, with all its attributes and operands.
#[test]
fn a_copy_is_no_replacement() {
    let (mut store, mut model) = (Store::new(), Marked::default());
    let ask = |store: &mut Store, model: &mut Marked, step: Step| {
        let expected = model.apply(&step);
        assert_eq!(step.apply(store, BY_HAND), expected, "{step:?}");
        expected
    };
    let made = [
        Call::Operation(New { result_types: vec![3], ..New::default() }),
        Call::Operation(New { operands: vec![0], ..New::default() }),
        attribute(lent::Owner::Op(1), 1, 1, Inherent::Yes),
    ];
    made.into_iter().for_each(|call| assert!(ask(&mut store, &mut model, Step::Build(call)).is_ok()));
    assert_eq!(ask(&mut store, &mut model, Step::Mark(3)), Ok(None));
    let again = || Step::Build(Call::Operand { op: 1, index: 0, value: 0 });
    (0..1024).for_each(|_| assert_eq!(ask(&mut store, &mut model, again()), Ok(None)));
    assert_eq!(ask(&mut store, &mut model, again()), Err(17));
    let copy = |op| Step::Build(Call::Copy { op, parent: None });
    assert_eq!(ask(&mut store, &mut model, copy(1)), Ok(Some(2)));
    assert_eq!(ask(&mut store, &mut model, copy(2)), Ok(Some(3)));
    assert_eq!(store.remembered(), 1024);
    model.is(&store, BY_HAND);
    assert_eq!(ask(&mut store, &mut model, Step::Back(3)), Ok(None));
    model.is(&store, BY_HAND);
    assert_eq!(store.totals().operations, 2);
}
