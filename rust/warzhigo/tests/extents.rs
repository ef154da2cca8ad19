//! Extents by hand: what the smallest fragments take, names, attributes, depth, and what is refused.

mod common;

use common::extents_model;
use common::offered::SORTS;
use common::picture::Picture;
use common::question::{Sort, extent_is, extent_lent};
use warzhigo::{
    Attribute, BlockId, Extent, Ignore, Inherent, NewOperation, OpId, RegionId, Store, ValueId, basic_block_extent, operation_extent,
    region_extent,
};

const BY_HAND: &str = "a store made by hand";

fn of(bytes: usize, [values, blocks, operations, nesting]: [u32; 4]) -> Extent {
    Extent { bytes, values, blocks, operations, nesting }
}

/// An operation with a region, in a block or in none.
fn form(store: &mut Store, parent: Option<BlockId>) -> (OpId, RegionId) {
    let op = store.new_operation(&NewOperation { kind: 7, parent, regions: 1, ..Default::default() }).unwrap();
    (op, store.operation(op).unwrap().regions().next().unwrap())
}

#[test]
fn the_smallest_fragments() {
    let mut store = Store::new();
    let (op, region) = form(&mut store, None);
    extent_is(&store, Sort::Region, 0, &Ignore::NOTHING, of(8, [0, 0, 0, 0]), BY_HAND);
    extent_is(&store, Sort::Op, 0, &Ignore::NOTHING, of(56, [0, 0, 1, 0]), BY_HAND);
    let block = store.new_block(region, 0, &[3]).unwrap();
    extent_is(&store, Sort::Block, 0, &Ignore::NOTHING, of(40, [1, 1, 0, 0]), BY_HAND);
    extent_is(&store, Sort::Block, 0, &Ignore::LOCATIONS, of(36, [1, 1, 0, 0]), BY_HAND);
    // by an id of whatever sort
    let by_sort = [
        operation_extent(&store, op, &Ignore::NOTHING),
        basic_block_extent(&store, block, &Ignore::NOTHING),
        region_extent(&store, region, &Ignore::NOTHING),
    ];
    let by_id = [store.extent(op, &Ignore::NOTHING), store.extent(block, &Ignore::NOTHING), store.extent(region, &Ignore::NOTHING)];
    assert_eq!(by_sort, by_id);
}

/// An operation with one result, and one operand.
fn naming(store: &mut Store, operand: ValueId) -> OpId {
    store.new_operation(&NewOperation { result_types: &[3], operands: &[operand], ..Default::default() }).unwrap()
}

/// A name takes 9 bytes where it is numbered, and 5 where it is not.
#[test]
fn a_name_inside_and_a_name_outside() {
    let mut store = Store::new();
    let op = store.new_operation(&NewOperation { result_types: &[3], ..Default::default() }).unwrap();
    let outside = store.operation(op).unwrap().results().next().unwrap();
    let [_, inside] = [(); 2].map(|()| naming(&mut store, outside));
    let own = store.operation(inside).unwrap().results().next().unwrap();
    store.set_operand(inside, 0, own).unwrap();
    extent_is(&store, Sort::Op, 0, &Ignore::NOTHING, of(52, [1, 0, 1, 0]), BY_HAND);
    extent_is(&store, Sort::Op, 1, &Ignore::NOTHING, of(57, [1, 0, 1, 0]), BY_HAND);
    extent_is(&store, Sort::Op, 2, &Ignore::NOTHING, of(61, [1, 0, 1, 0]), BY_HAND);
}

/// What is ignored takes no bytes; an inherent attribute always takes 13.
#[test]
fn attributes_that_are_ignored() {
    let mut store = Store::new();
    let op = store.new_operation(&NewOperation::default()).unwrap();
    let attribute = Attribute { key: 1, kind: 2, content: 3, inherent: Inherent::No };
    let length = |store: &Store, ignore: &Ignore| operation_extent(store, op, ignore).unwrap().bytes;
    let ignore = Ignore::NOTHING.and_kind(2);
    assert_eq!([length(&store, &Ignore::NOTHING), length(&store, &Ignore::LOCATIONS)], [48, 44]);
    store.set_attribute(op, attribute).unwrap();
    assert_eq!([length(&store, &Ignore::NOTHING), length(&store, &ignore)], [61, 48]);
    store.set_attribute(op, Attribute { key: 2, inherent: Inherent::Yes, ..attribute }).unwrap();
    assert_eq!([length(&store, &Ignore::NOTHING), length(&store, &ignore)], [74, 61]);
}

/// Only regions with an operation below them count, and the fragment's own does not.
#[test]
fn nesting_is_counted_below_the_fragment() {
    let mut store = Store::new();
    let mut parent = None;
    for _ in 0..33 {
        let (_, region) = form(&mut store, parent);
        parent = Some(store.new_block(region, 0, &[]).unwrap());
    }
    let picture = Picture::of(&store, BY_HAND);
    for n in 0..33 {
        let inside = [(Sort::Op, 32 - n), (Sort::Region, (31 - n as i32).max(0) as u32), (Sort::Block, (31 - n as i32).max(0) as u32)];
        for (sort, nesting) in inside {
            let extent = extents_model::extent(&picture, sort, n, &Ignore::NOTHING);
            assert_eq!(extent.nesting, nesting, "{sort:?} {n}");
            extent_is(&store, sort, n, &Ignore::NOTHING, extent, BY_HAND);
        }
    }
}

#[test]
fn what_is_refused() {
    let mut store = Store::new();
    form(&mut store, None);
    for sort in SORTS {
        let there = (!matches!(sort, Sort::Block)) as u32;
        assert_eq!(extent_lent(store.words(), sort, there, &Ignore::NOTHING).map_err(|refused| refused.number()), Err(2));
        assert_eq!(extent_lent(&store.words()[1..], sort, 0, &Ignore::NOTHING).map_err(|refused| refused.number()), Err(1));
    }
}
