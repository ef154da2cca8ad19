//! The mapping as a document: its entries one by one, the same read backwards, and one mapping followed by another.

#[path = "../common/mod.rs"]
mod common;

mod alike;
mod by_hand;
mod entries;
mod stores;

use warzhigo::*;

/// The ids of an operation with a region, a block in it, and an operation with an operand and a result in that block.
#[derive(Clone, Copy)]
struct Page {
    ops: [OpId; 2],
    region: RegionId,
    block: BlockId,
    values: [ValueId; 2],
}

/// A page in no block: its location, and the type of its two values.
fn page_of(store: &mut Store, location: u32, ty: u32) -> Page {
    let outer = store.new_operation(&NewOperation { kind: 7, location, regions: 1, ..Default::default() }).unwrap();
    let region = store.operation(outer).unwrap().regions().next().unwrap();
    let block = store.new_block(region, location, &[ty]).unwrap();
    let argument = store.block(block).unwrap().arguments().next().unwrap();
    let inner = NewOperation { kind: 8, location, parent: Some(block), result_types: &[ty], operands: &[argument], ..Default::default() };
    let inner = store.new_operation(&inner).unwrap();
    let result = store.operation(inner).unwrap().results().next().unwrap();
    Page { ops: [outer, inner], region, block, values: [argument, result] }
}

fn page(store: &mut Store) -> Page {
    page_of(store, 0, 3)
}

/// So many pages that are alike.
fn pages<const N: usize>(store: &mut Store) -> [Page; N] {
    [(); N].map(|()| page(store))
}

/// A store with operations that have a result each, and nothing else.
fn plain<const N: usize>(kinds: [u32; N]) -> (Store, [OpId; N]) {
    let mut store = Store::new();
    let ops = kinds.map(|kind| store.new_operation(&NewOperation { kind, result_types: &[3], ..Default::default() }).unwrap());
    (store, ops)
}

fn result(store: &Store, op: OpId) -> ValueId {
    store.operation(op).unwrap().results().next().unwrap()
}

/// The mapping that comparing two operations enters into an empty one, and whether they are equal.
fn compared(store: &Store, lhs: OpId, rhs: OpId) -> (Mapping, bool) {
    let mut mapping = Mapping::new();
    let answer = operation_eq(store, &mut mapping, lhs, rhs, &Ignore::NOTHING).unwrap();
    (mapping, answer.is_eq())
}

/// That of two equal ones.
fn filed(store: &Store, lhs: OpId, rhs: OpId) -> Mapping {
    let (mapping, equal) = compared(store, lhs, rhs);
    assert!(equal, "{lhs:?} and {rhs:?}");
    mapping
}

/// The entries in a line.
fn written(mapping: &Mapping) -> String {
    mapping.entries().map(|entry| entry.to_string()).collect::<Vec<_>>().join(" ")
}

/// The cause, if it was refused.
fn cause<T>(answer: Result<T, Refused>) -> Option<u32> {
    answer.err().map(Refused::number)
}

/// Asserts that nothing of a mapping stays after `clear`, whatever it was made by, and that it is anyone's then.
fn clears(mut mapping: Mapping) {
    mapping.clear();
    assert!(mapping.is_empty() && mapping.words().iter().all(|image| *image == u32::MAX));
    assert_eq!((mapping.entries().count(), mapping.inverse()), (0, Some(Mapping::new())));
    let (other, [l, r]) = plain([1, 1]);
    assert!(operation_eq(&other, &mut mapping, l, r, &Ignore::NOTHING).unwrap().is_eq());
    assert_eq!(written(&mapping), "v0>1 o0>1");
}
