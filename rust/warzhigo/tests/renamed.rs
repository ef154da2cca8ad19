//! Lists of renamed types: which hold, what they make the same, and what they leave as it is.

use warzhigo::lent;
use warzhigo::{
    EqResult, Ignore, Mapping, NewOperation, OpId, Options, Refused, Renamed, Store, basic_block_eq, operation_eq, operation_hash,
    operation_key, region_eq,
};

fn number(refused: Refused) -> u32 {
    refused.number()
}

/// So many rows, each from its number to that and 1000.
fn rows(count: u32) -> Vec<(u32, u32)> {
    (0..count).map(|n| (n, n + 1000)).collect()
}

#[test]
fn lists_that_hold() {
    let lists: [&[(u32, u32)]; 6] = [&[], &[(1, 2)], &[(1, 3), (2, 3)], &[(u32::MAX, 0)], &[(0, u32::MAX), (1, u32::MAX)], &rows(64)];
    for list in lists {
        let types = Renamed::new(list).unwrap_or_else(|refused| panic!("{list:?}: {refused}"));
        assert!(types.rows().eq(list.iter().copied()), "{list:?}");
    }
    assert_eq!(format!("{:?}", Renamed::new(&[(1, 3), (2, 3)]).unwrap()), "{1: 3, 2: 3}");
    assert_eq!(Renamed::default().rows().count(), 0);
}

#[test]
fn lists_that_are_refused() {
    let chain = [(1, 2), (2, 3)];
    let swap = [(1, 2), (2, 1)];
    let back = [(2, 3), (1, 2)];
    let double = [(1, 2), (1, 2)];
    let twice = [(1, 2), (3, 4), (1, 5)];
    let itself = [(u32::MAX, u32::MAX)];
    for list in [&chain[..], &swap, &back, &double, &twice, &itself, &rows(65), &rows(1000)] {
        assert_eq!(Renamed::new(list).map_err(number).err(), Some(14), "{list:?}");
    }
    for half in [&[1][..], &[1, 2, 3], &[0; 129]] {
        assert_eq!(Renamed::from_words(half).map_err(number).err(), Some(14), "{half:?}");
    }
}

/// An operation with a result of this type, in no block.
fn typed(store: &mut Store, result: u32) -> OpId {
    store.new_operation(&NewOperation { kind: 8, result_types: &[result], ..Default::default() }).unwrap()
}

/// An operation with a region and a block, whose argument has this type.
fn page(store: &mut Store, argument: u32) -> OpId {
    let op = store.new_operation(&NewOperation { kind: 7, regions: 1, ..Default::default() }).unwrap();
    let region = store.operation(op).unwrap().regions().next().unwrap();
    store.new_block(region, 0, &[argument]).unwrap();
    op
}

fn answer(store: &Store, l: OpId, r: OpId, types: &Renamed) -> EqResult {
    operation_eq(store, &mut Mapping::new(), l, r, (&Ignore::NOTHING, types)).unwrap()
}

#[test]
fn rows_merge_types_and_split_none() {
    let mut store = Store::new();
    let ops = [1, 2, 3, 4].map(|t| typed(&mut store, t));
    let types = Renamed::new(&[(1, 3), (2, 3)]).unwrap();
    for (i, l) in ops.into_iter().enumerate() {
        for (j, r) in ops.into_iter().enumerate() {
            let same = i == j || (i < 3 && j < 3);
            assert_eq!(answer(&store, l, r, &types).is_eq(), same, "{l}, {r}");
            let options = (&Ignore::NOTHING, &types);
            let hashes = [l, r].map(|op| operation_hash(&store, op, options).unwrap());
            let keys = [l, r].map(|op| operation_key(&store, op, options).unwrap());
            assert_eq!((hashes[0] == hashes[1], keys[0] == keys[1]), (same, same), "{l}, {r}");
        }
    }
    // a type without a row, and every type under no list, is its own
    let options = Options { types: &types, ..Default::default() };
    assert_eq!(operation_hash(&store, ops[3], options), operation_hash(&store, ops[3], &Ignore::NOTHING));
    assert_eq!(operation_hash(&store, ops[2], options), operation_hash(&store, ops[2], &Ignore::NOTHING));
    assert!(!answer(&store, ops[0], ops[1], &Renamed::none()).is_eq());
}

#[test]
fn the_largest_type_may_be_old_or_present() {
    let mut store = Store::new();
    let [l, r] = [u32::MAX, 0].map(|t| typed(&mut store, t));
    for row in [(u32::MAX, 0), (0, u32::MAX)] {
        assert!(answer(&store, l, r, &Renamed::new(&[row]).unwrap()).is_eq(), "{row:?}");
    }
}

#[test]
fn arguments_of_blocks() {
    let mut store = Store::new();
    let [l, r] = [5, 6].map(|t| page(&mut store, t));
    let types = Renamed::new(&[(5, 6)]).unwrap();
    let options = (&Ignore::NOTHING, &types);
    assert_eq!(answer(&store, l, r, &types), EqResult::Eq { paired: 2 });
    let regions = [l, r].map(|op| store.operation(op).unwrap().regions().next().unwrap());
    let blocks = regions.map(|region| store.region(region).unwrap().blocks().next().unwrap());
    assert!(region_eq(&store, &mut Mapping::new(), regions[0], regions[1], options).unwrap().is_eq());
    assert!(basic_block_eq(&store, &mut Mapping::new(), blocks[0], blocks[1], options).unwrap().is_eq());
    assert!(!basic_block_eq(&store, &mut Mapping::new(), blocks[0], blocks[1], &Ignore::NOTHING).unwrap().is_eq());
}

/// Operands of two types correspond only where a lent mapping says so; then their types decide.
#[test]
fn operands_with_a_lent_mapping() {
    let mut store = Store::new();
    let values = [5, 6].map(|t| typed(&mut store, t)).map(|op| store.operation(op).unwrap().results().next().unwrap());
    let users = values.map(|v| store.new_operation(&NewOperation { kind: 9, operands: &[v], ..Default::default() }).unwrap());
    let asked = |types: &Renamed| {
        let mut mapping = Mapping::new();
        mapping.map_value(values[0], values[1]).unwrap();
        operation_eq(&store, &mut mapping, users[0], users[1], (&Ignore::NOTHING, types)).unwrap()
    };
    assert_eq!(asked(&Renamed::none()), EqResult::FirstNEQOps { lhs: users[0], rhs: users[1], paired: 1 });
    assert_eq!(asked(&Renamed::new(&[(5, 6)]).unwrap()), EqResult::Eq { paired: 1 });
    assert_eq!(asked(&Renamed::new(&[(6, 7), (5, 7)]).unwrap()), EqResult::Eq { paired: 1 });
    assert_eq!(asked(&Renamed::new(&[(6, 5)]).unwrap()), EqResult::Eq { paired: 1 });
    assert!(!asked(&Renamed::new(&[(6, 7)]).unwrap()).is_eq());
}

/// The list is tested even where no type is read, and one that is full is found whole.
#[test]
fn a_list_is_tested_whatever_is_read() {
    let mut store = Store::new();
    let plain = store.new_operation(&NewOperation::default()).unwrap();
    let words = store.words();
    let bad = [1, 2, 2, 3];
    assert_eq!(lent::operation_hash(words, &bad, plain.number(), &Ignore::NOTHING).map_err(number), Err(14));
    let full = rows(64);
    let mut store = Store::new();
    let types = Renamed::new(&full).unwrap();
    for (old, present) in full {
        let [l, r] = [old, present].map(|t| typed(&mut store, t));
        assert!(answer(&store, l, r, &types).is_eq(), "{old} and {present}");
    }
}
