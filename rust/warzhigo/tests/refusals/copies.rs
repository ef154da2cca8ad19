//! The causes of the copier: 1, 8, 2, 18, 19, 5 and 3. A refused copy leaves every word of store and mapping as it was.

use warzhigo::lent::{self, Owner};
use warzhigo::{Ignore, Mapping, Refused, Store, Totals};

use crate::common::call::{Answer, Call, New};
use crate::common::copying::Copying;
use crate::common::picture::Picture;
use crate::common::question::no_entries;
use crate::stores::{ask, attribute, block, deep, filled, operation, results, small};

const BY_HAND: &str = "a store made by hand";

/// By ids, by numbers and by the model.
fn copy(store: &mut Store, op: u32, parent: Option<u32>) -> Answer {
    let mut picture = Picture::of(store, BY_HAND);
    Copying { op, parent, ignore: &[Ignore::NOTHING] }.make(store, &mut picture, &mut Mapping::new(), BY_HAND)
}

/// On lent words, which a refusal leaves as they were.
fn refused(store: &[u32], mapping: &[u32], op: u32, parent: Option<u32>) -> Option<u32> {
    let (mut words, mut entries) = (store.to_vec(), mapping.to_vec());
    let cause = lent::clone_operation(&mut words, op, parent, &mut entries).err().map(Refused::number);
    assert!(cause.is_none() || words == store && entries == mapping, "a refused copy has changed words");
    cause
}

#[test]
fn cause_1_store() {
    let good = small().into_words();
    let longer = [&good, [0].as_slice()].concat();
    let mut damaged = good.to_vec();
    damaged[0] += 1;
    for words in [&[], &good[1..], &longer, &damaged] {
        assert_eq!(refused(words, &no_entries(), 1, None), Some(1));
        assert_eq!(refused(words, &[], 9, None), Some(1), "1 before 8 and 2");
    }
    assert_eq!(refused(&good, &no_entries(), 1, None), None);
}

#[test]
fn cause_8_mapping() {
    let (store, empty) = (small(), no_entries());
    for mapping in [&[], &empty[1..], &[empty.as_slice(), &[u32::MAX]].concat()] {
        assert_eq!(refused(store.words(), mapping, 1, None), Some(8));
        assert_eq!(refused(store.words(), mapping, 9, None), Some(8), "8 before 2");
    }
    // of values (2), blocks (1) and operations (2); the copy would make what these name
    for (base, count) in [(0, 2), (2048, 1), (2304, 2)] {
        for (left, image) in [(count, 0), (0, count)] {
            let mut mapping = no_entries();
            mapping[base + left as usize] = image;
            assert_eq!(refused(store.words(), &mapping, 0, None), Some(8));
        }
        let mut mapping = no_entries();
        mapping[base + count as usize - 1] = count - 1;
        assert_eq!(refused(store.words(), &mapping, 0, None), None);
    }
}

#[test]
fn cause_8_mapping_of_another_store() {
    let (mut store, other) = (small(), small());
    let (own, foreign) = (store.op_id(1).unwrap(), other.op_id(1).unwrap());
    let mut mapping = Mapping::new();
    mapping.map_op(foreign, foreign).unwrap();
    let (words, entries) = (store.words().to_vec(), mapping.words().to_vec());
    for op in [own, foreign] {
        assert_eq!(store.clone_operation(op, None, &mut mapping).map_err(Refused::number), Err(8));
    }
    assert!(store.words() == words && mapping.words() == entries);
    mapping.clear();
    assert!(store.clone_operation(own, None, &mut mapping).is_ok());
}

#[test]
fn cause_2_operation_and_block() {
    // there are 2 operations and 1 block
    for missing in [2, 3, 65536, u32::MAX] {
        assert_eq!(copy(&mut small(), missing, None), Err(2));
        assert_eq!(copy(&mut small(), missing, Some(0)), Err(2));
        assert_eq!(copy(&mut small(), 1, Some(missing)), Err(2));
        assert_eq!(copy(&mut small(), 0, Some(missing)), Err(2));
    }
    assert_eq!(copy(&mut small(), 1, Some(1)), Err(2));
    for (op, parent) in [(1, None), (1, Some(0)), (0, None)] {
        assert_eq!(copy(&mut small(), op, parent), Ok(Some(2)));
    }
}

#[test]
fn cause_18_block_inside() {
    assert_eq!(copy(&mut small(), 0, Some(0)), Err(18));
    let (store, deepest) = deep();
    for op in 0..=deepest {
        for block in 0..=deepest {
            // a block around it is not inside: the copy of operation `op` is nested as deep there as it is, or less
            let expected = if block >= op { Err(18) } else { Ok(Some(33)) };
            let checked = op % 8 == 0 || block % 8 == 0 || op.abs_diff(block) < 2;
            assert!(!checked || copy(&mut Store::from_words(store.words()).unwrap(), op, Some(block)) == expected, "{op} to {block}");
        }
    }
}

/// Operation 0 with block 0 in region 0, in it operation 1 with operand 0, operation 2 with block 1 in region 1, and operation 4, behind
/// it, with operand 0 and result 2; in block 1 operation 3 with result 1. Block 0 has argument 0.
fn names() -> Store {
    let mut store = Store::new();
    for call in [
        Call::Operation(New { regions: 1, ..New::default() }),
        block(0, 1),
        Call::Operation(New { parent: Some(0), operands: vec![0], ..New::default() }),
        Call::Operation(New { parent: Some(0), regions: 1, ..results(0) }),
        block(1, 0),
        Call::Operation(New { parent: Some(1), ..results(1) }),
        Call::Operation(New { parent: Some(0), operands: vec![0], ..results(1) }),
    ] {
        assert!(ask(&mut store, call).is_ok());
    }
    store
}

#[test]
fn cause_19_operands() {
    let named = |op, value| {
        let mut store = names();
        assert_eq!(ask(&mut store, Call::Operand { op, index: 0, value }), Ok(None));
        store
    };
    // the result of operation 3 in operation 2: before operation 2's turn, and after it
    assert_eq!(copy(&mut named(1, 1), 0, None), Err(19));
    assert_eq!(copy(&mut named(4, 1), 0, None), Ok(Some(5)));
    // it is not inside operation 1
    assert_eq!(copy(&mut named(1, 1), 1, None), Ok(Some(5)));
    // a later result of the same block, and its own
    assert_eq!(copy(&mut named(1, 2), 0, None), Ok(Some(5)));
    assert_eq!(copy(&mut named(4, 2), 0, None), Ok(Some(5)));
    assert_eq!(copy(&mut named(4, 2), 4, Some(0)), Ok(Some(5)));
}

/// An operation with an operand that names what is in its own region.
#[test]
fn cause_19_of_the_operation_itself() {
    let mut store = small();
    let outer = New { regions: 1, operands: vec![0, 0], ..results(1) };
    assert_eq!(operation(&mut store, outer), Ok(Some(2)));
    assert_eq!(ask(&mut store, block(1, 1)), Ok(Some(1)));
    assert_eq!(copy(&mut store, 2, None), Ok(Some(3)));
    assert_eq!(ask(&mut store, Call::Operand { op: 2, index: 1, value: 2 }), Ok(None));
    assert_eq!(copy(&mut store, 2, None), Ok(Some(4)), "its own result");
    assert_eq!(ask(&mut store, Call::Operand { op: 2, index: 1, value: 3 }), Ok(None));
    assert_eq!(copy(&mut store, 2, None), Err(19), "an argument in its region");
}

/// Without an operand that was set: operation 2 is made late in block 0 or block 1, and names block 2 in operation 1, which is in block 1.
#[test]
fn cause_19_successors() {
    for (parent, successor, expected) in [(0, 2, Err(19)), (1, 2, Ok(Some(3))), (0, 1, Ok(Some(3))), (0, 0, Ok(Some(3)))] {
        let mut store = Store::new();
        for call in [
            Call::Operation(New { regions: 1, ..New::default() }),
            block(0, 0),
            block(0, 0),
            Call::Operation(New { parent: Some(1), regions: 1, ..New::default() }),
            block(1, 0),
            Call::Operation(New { parent: Some(parent), successors: vec![successor], ..New::default() }),
        ] {
            assert!(ask(&mut store, call).is_ok());
        }
        assert_eq!(copy(&mut store, 0, None), expected, "{successor} named in block {parent}");
        assert!(copy(&mut store, 2, None).is_ok(), "it is outside operation 2");
    }
}

#[test]
fn cause_5_nesting() {
    let (mut store, deepest) = deep();
    // operation 33 with block 33 in it, and operation 34
    assert_eq!(operation(&mut store, New { regions: 1, ..New::default() }), Ok(Some(33)));
    assert_eq!(ask(&mut store, block(33, 0)), Ok(Some(33)));
    assert_eq!(operation(&mut store, New::default()), Ok(Some(34)));
    let copied = |op, parent| copy(&mut Store::from_words(store.words()).unwrap(), op, Some(parent));
    assert_eq!(copied(0, 33), Err(5));
    assert_eq!(copied(1, 33), Ok(Some(35)));
    assert_eq!(copied(34, deepest), Err(5));
    assert_eq!(copied(34, deepest - 1), Ok(Some(35)));
    // a region and a block at 33 are no matter
    assert_eq!(copied(33, deepest - 1), Ok(Some(35)));
    assert_eq!(copied(33, deepest), Err(5));
}

/// Operation 2 has 2 regions, 2 blocks with an argument each, and operation 3 in the second with 3 operands, 2 successors, 2 results and 3
/// attributes. The block before it has an attribute too. All that it is copied with is in it.
fn copied_whole() -> Store {
    let mut store = small();
    let inner = New { parent: Some(2), operands: vec![2, 3, 0], successors: vec![1, 0], ..results(2) };
    let outer = Call::Operation(New { regions: 2, ..New::default() });
    let keys = (0..3).map(|key| attribute(Owner::Op(3), key, 0)).chain([attribute(Owner::Block(1), 0, 0)]);
    for call in [outer, block(1, 1), block(2, 1), Call::Operation(inner)].into_iter().chain(keys) {
        assert!(ask(&mut store, call).is_ok());
    }
    store
}

/// Fills a store by equal calls of many, then of single ones, until there is room for so many more.
fn fill(store: &mut Store, total: fn(Totals) -> u32, upto: u32, calls: [(Call, u32); 2]) {
    for (call, each) in calls {
        filled(store, (upto - total(store.totals())) / each, call);
    }
    assert_eq!(total(store.totals()), upto);
}

/// A total, its limit, what operation 2 is copied with, and the calls that fill a store with it.
type Total = (fn(Totals) -> u32, u32, u32, [(Call, u32); 2]);

/// A total that a copy reaches is none that it passes.
#[test]
fn cause_3_totals() {
    let operands = |count| Call::Operation(New { operands: vec![0; count], ..New::default() });
    let successors = |count| Call::Operation(New { successors: vec![0; count], ..New::default() });
    let regions = |regions| Call::Operation(New { regions, ..New::default() });
    let several = |call: Call| [(call.clone(), 1), (call, 1)];
    let totals: [Total; 6] = [
        (|totals| totals.operations, 512, 2, several(Call::Operation(New::default()))),
        (|totals| totals.blocks, 256, 2, several(block(0, 0))),
        (|totals| totals.regions, 256, 2, [(regions(8), 8), (regions(1), 1)]),
        (|totals| totals.values, 2048, 4, [(Call::Operation(results(16)), 16), (Call::Operation(results(1)), 1)]),
        (|totals| totals.operands, 2048, 3, [(operands(16), 16), (operands(1), 1)]),
        (|totals| totals.successors, 512, 2, [(successors(8), 8), (successors(1), 1)]),
    ];
    for (total, limit, copied, calls) in totals {
        let mut store = copied_whole();
        fill(&mut store, total, limit - copied, calls.clone());
        let copied_once = store.totals().operations;
        assert_eq!(copy(&mut store, 2, None), Ok(Some(copied_once)));
        assert_eq!(total(store.totals()), limit);
        assert_eq!(copy(&mut store, 2, None), Err(3));
        let mut store = copied_whole();
        fill(&mut store, total, limit - copied + 1, calls);
        assert_eq!(copy(&mut store, 2, None), Err(3), "one too many");
    }
}

/// A copy that fits but for its attributes.
#[test]
fn cause_3_attributes() {
    for (more, expected) in [(0, Ok(Some(132))), (1, Err(3))] {
        let mut store = copied_whole();
        filled(&mut store, 128, Call::Operation(New::default()));
        let all = 1024 - 4 - store.totals().attributes + more;
        for n in 0..all {
            assert_eq!(ask(&mut store, attribute(Owner::Op(4 + n / 8), n % 8, 0)), Ok(None), "attribute {n}");
        }
        assert_eq!(copy(&mut store, 2, None), expected);
        assert_eq!(copy(&mut store, 2, Some(0)), Err(3));
    }
}

/// 18 before 19, 19 before 5, 5 before 3.
#[test]
fn order_of_causes_of_a_copy() {
    let mut store = names();
    assert_eq!(ask(&mut store, Call::Operand { op: 1, index: 0, value: 1 }), Ok(None));
    assert_eq!(copy(&mut store, 0, Some(0)), Err(18));
    assert_eq!(copy(&mut store, 0, Some(9)), Err(2));
    assert_eq!(copy(&mut store, 0, None), Err(19));

    let (mut store, deepest) = deep();
    // operation 33 names an argument in its own region
    assert_eq!(operation(&mut store, New { regions: 1, ..results(1) }), Ok(Some(33)));
    assert_eq!(operation(&mut store, New { regions: 1, operands: vec![0], ..New::default() }), Ok(Some(34)));
    assert_eq!(ask(&mut store, block(34, 1)), Ok(Some(33)));
    assert_eq!(ask(&mut store, Call::Operand { op: 34, index: 0, value: 1 }), Ok(None));
    assert_eq!(copy(&mut store, 34, Some(deepest)), Err(19));
    filled(&mut store, 512 - 35, Call::Operation(New::default()));
    assert_eq!(copy(&mut store, 34, Some(deepest)), Err(19));
    assert_eq!(copy(&mut store, 35, Some(deepest)), Err(5));
    assert_eq!(copy(&mut store, 35, None), Err(3));
    assert_eq!(copy(&mut store, 1, Some(1)), Err(18));
    assert_eq!(copy(&mut store, 512, None), Err(2));
}
