//! Keys by hand: their bytes, their length, their order, and the bytes that they are lent.

mod common;

use std::cmp::Ordering;

use common::bytes_model;
use common::call::{Call, New, apply};
use common::extents_model;
use common::numbers::Random;
use common::offered::SORTS;
use common::picture::Picture;
use common::question::{Question, Sort, extent_is, key_inner, key_is};
use oracle::Verdict;
use warzhigo::lent::{self, Owner};
use warzhigo::{Attribute, Extent, Ignore, Inherent, Mapping, Store, compare_keys, operation_hash, operation_key};

const BY_HAND: &str = "a store made by hand";

/// The store that calls make; all are accepted.
fn built(calls: impl IntoIterator<Item = Call>) -> Store {
    let mut store = Store::new();
    for call in calls {
        assert!(apply(&mut store, &call, BY_HAND).is_ok(), "{call:?}");
    }
    store
}

fn block(region: u32, location: u32, argument_types: &[u32]) -> Call {
    Call::Block { region, location, argument_types: argument_types.to_vec() }
}

fn attribute(owner: Owner, key: u32, kind: u32, content: u32, inherent: Inherent) -> Call {
    Call::Attribute(owner, Attribute { key, kind, content, inherent })
}

fn key(store: &Store, sort: Sort, n: u32, ignore: &Ignore) -> Vec<u8> {
    key_inner(store, sort, n, ignore).expect(BY_HAND)
}

/// Parts of a key, as they are written.
enum Part {
    Leaf(u32),
    Count(u64),
    Flag(u8),
    Inside(u64),
    Outside(u32),
}

use Part::*;

fn bytes(parts: &[Part]) -> Vec<u8> {
    let part = |part: &Part| match part {
        Leaf(n) => n.to_le_bytes().to_vec(),
        Count(n) => n.to_le_bytes().to_vec(),
        Flag(n) => vec![*n],
        Inside(n) => [&[0], n.to_le_bytes().as_slice()].concat(),
        Outside(n) => [&[1], n.to_le_bytes().as_slice()].concat(),
    };
    parts.iter().flat_map(part).collect()
}

/// No list is left out because it is empty, and regions and attributes are counted once, as in the hash.
#[test]
fn the_smallest_key() {
    let store = built([Call::Operation(New { regions: 1, ..New::default() })]);
    let own = [Leaf(0), Count(1), Leaf(0), Count(0), Count(0), Count(0), Count(0), Count(0)];
    key_is(&store, Sort::Op, 0, &Ignore::NOTHING, &bytes(&own), BY_HAND);
    assert_eq!(key(&store, Sort::Op, 0, &Ignore::NOTHING).len(), 56);
    key_is(&store, Sort::Region, 0, &Ignore::NOTHING, &bytes(&[Count(0)]), BY_HAND);
}

/// Operation 0 in the store, which the form names; then the form, operation 1: two blocks in its region, and an operation with a region in
/// the first of them.
fn form() -> Store {
    let inner = New { kind: 8, parent: Some(0), location: 4, regions: 1, result_types: vec![6], operands: vec![0, 1], successors: vec![1] };
    built([
        Call::Operation(New { kind: 5, result_types: vec![3], ..New::default() }),
        Call::Operation(New { kind: 7, location: 2, regions: 1, operands: vec![0], ..New::default() }),
        block(0, 3, &[3, 4]),
        block(0, 0x01020304, &[]),
        Call::Operation(inner),
        block(1, 9, &[]),
        Call::Operation(New { kind: 256, parent: Some(1), operands: vec![3, 3], ..New::default() }),
        Call::Operation(New { kind: 9, parent: Some(2), successors: vec![2, 0], ..New::default() }),
        attribute(Owner::Op(2), 12, 63, 13, Inherent::Yes),
        attribute(Owner::Op(2), 11, 63, 12, Inherent::No),
        attribute(Owner::Op(2), 10, 1, u32::MAX, Inherent::No),
        attribute(Owner::Block(1), 1, 0, 0, Inherent::No),
        Call::Operand { op: 2, index: 1, value: 3 },
    ])
}

#[test]
fn a_key_byte_by_byte() {
    #[rustfmt::skip] // a line for each step of the walk
    let region = [
        Count(2),
        Leaf(3), Count(0), Count(2), Leaf(3), Leaf(4),
        Leaf(0x01020304), Count(1), Leaf(1), Leaf(0), Leaf(0), Flag(0), Count(0),
        Count(1),
        Leaf(8), Count(1), Leaf(4), Count(3),
        Leaf(10), Leaf(1), Leaf(u32::MAX), Flag(0), Leaf(11), Leaf(63), Leaf(12), Flag(0), Leaf(12), Leaf(63), Leaf(13), Flag(1),
        Count(1), Leaf(6),
        Count(1),
        Leaf(256), Count(0), Leaf(0), Count(0), Count(0),
        Count(2), Outside(0), Inside(2), Count(1), Inside(1),
        Count(1),
        Leaf(9), Count(0), Count(0),
        Count(1),
        Leaf(9), Count(0), Leaf(0), Count(0), Count(0),
        Count(0), Count(2), Inside(2), Inside(0),
        Count(2), Inside(2), Inside(2), Count(0),
    ];
    let shell = [Leaf(7), Count(1), Leaf(2), Count(0), Count(0), Count(1), Outside(0), Count(0)];
    let store = form();
    key_is(&store, Sort::Region, 0, &Ignore::NOTHING, &bytes(&region), BY_HAND);
    key_is(&store, Sort::Op, 1, &Ignore::NOTHING, &[bytes(&shell), bytes(&region)].concat(), BY_HAND);
}

/// What is ignored isn't in the key, and attributes are counted without it. An inherent one is in it.
#[test]
fn a_key_without_what_is_ignored() {
    let ignore = Ignore::LOCATIONS.and_kind(63).and_kind(0);
    #[rustfmt::skip] // a line for each step of the walk
    let block = [
        Count(1),
        Count(0), Count(2), Leaf(3), Leaf(4),
        Count(1),
        Leaf(8), Count(1), Count(2), Leaf(10), Leaf(1), Leaf(u32::MAX), Flag(0), Leaf(12), Leaf(63), Leaf(13), Flag(1), Count(1), Leaf(6),
        Count(2), Outside(0), Inside(2), Count(1), Outside(1),
        Count(1),
        Count(0), Count(0),
        Count(1),
        Leaf(9), Count(0), Count(0), Count(0),
        Count(0), Count(2), Inside(1), Inside(0),
    ];
    key_is(&form(), Sort::Block, 0, &ignore, &bytes(&block), BY_HAND);
    let other =
        [Count(1), Count(0), Count(0), Count(1), Leaf(256), Count(0), Count(0), Count(0), Count(2), Outside(3), Outside(3), Count(0)];
    key_is(&form(), Sort::Block, 1, &ignore, &bytes(&other), BY_HAND);
}

/// A region with one block has the key of that block: fragments of two sorts are not told apart.
#[test]
fn a_region_and_its_only_block() {
    let store = form();
    assert_eq!(key(&store, Sort::Region, 1, &Ignore::NOTHING), key(&store, Sort::Block, 2, &Ignore::NOTHING));
}

/// A key doesn't depend on the store: what is built once more in another one has it too.
#[test]
fn the_same_key_in_another_store() {
    let (store, mut other) = (form(), Store::new());
    for call in [Call::Operation(New { result_types: vec![9; 16], regions: 8, ..New::default() }), block(0, 0, &[1; 16])] {
        assert!(apply(&mut other, &call, BY_HAND).is_ok());
    }
    let twin = [
        Call::Operation(New { kind: 9, location: 5, regions: 1, ..New::default() }),
        block(8, 9, &[]),
        Call::Operation(New { kind: 9, parent: Some(1), successors: vec![1], ..New::default() }),
    ];
    for call in twin {
        assert!(apply(&mut other, &call, BY_HAND).is_ok());
    }
    let alone = built([
        Call::Operation(New { kind: 9, location: 6, regions: 1, ..New::default() }),
        block(0, 8, &[]),
        Call::Operation(New { kind: 9, parent: Some(0), successors: vec![0], ..New::default() }),
    ]);
    assert_eq!(key(&other, Sort::Op, 1, &Ignore::LOCATIONS), key(&alone, Sort::Op, 0, &Ignore::LOCATIONS));
    assert_ne!(key(&other, Sort::Op, 1, &Ignore::NOTHING), key(&alone, Sort::Op, 0, &Ignore::NOTHING));
    assert_ne!(key(&store, Sort::Op, 1, &Ignore::LOCATIONS), key(&alone, Sort::Op, 0, &Ignore::LOCATIONS));
}

/// Operation 2 names what operation 1 defines, so the two are equal one way only, and have two keys.
#[test]
fn without_the_premise_equal_fragments_have_two_keys() {
    let typed = |operands| New { result_types: vec![0], operands, ..New::default() };
    let calls = [typed(vec![]), typed(vec![0]), typed(vec![1])].map(Call::Operation);
    let store = built(calls.into_iter().chain([Call::Operand { op: 1, index: 0, value: 1 }]));
    let verdict = |lhs, rhs| {
        let question = Question { sort: Sort::Op, lhs, rhs, ignore: Ignore::NOTHING };
        question.inner(&store, &mut Mapping::new()).expect(BY_HAND).verdict
    };
    assert_eq!(verdict(2, 1), Verdict::Eq);
    assert_eq!(verdict(1, 2), Verdict::FirstNEQOps(1, 2));
    let [l, r] = [1, 2].map(|n| key(&store, Sort::Op, n, &Ignore::NOTHING));
    assert_eq!(compare_keys(&l, &r), Ordering::Less);
}

/// Four operands by name are the same 20 bytes as five results of these types: the hash takes in the same, and the counts tell the keys
/// apart.
#[test]
fn one_hash_and_two_keys() {
    let store = built([
        Call::Operation(New { result_types: vec![0], ..New::default() }),
        Call::Operation(New { kind: 1, operands: vec![0; 4], ..New::default() }),
        Call::Operation(New { kind: 1, result_types: vec![1, 1 << 8, 1 << 16, 1 << 24, 0], ..New::default() }),
    ]);
    let [l, r] = [1, 2].map(|n| store.op_id(n).unwrap());
    let ignore = Ignore::NOTHING;
    assert_eq!(operation_hash(&store, l, &ignore), operation_hash(&store, r, &ignore));
    assert_ne!(operation_key(&store, l, &ignore), operation_key(&store, r, &ignore));
}

/// A store that one operation fills to every total, each name with a walk number.
fn fullest() -> Store {
    let mut calls = vec![Call::Operation(New { regions: 8, result_types: vec![u32::MAX; 16], ..New::default() }), block(0, 0, &[])];
    for n in 1..512 {
        let list = |most: u32, length: usize| vec![0; if n <= most { length } else { 0 }];
        calls.push(Call::Operation(New {
            kind: u32::MAX,
            parent: Some(0),
            location: u32::MAX,
            regions: if n < 32 { 8 } else { 0 },
            result_types: list(127, 16),
            operands: list(128, 16),
            successors: list(64, 8),
        }));
    }
    calls.extend((1..256).map(|region| block(region, u32::MAX, &[])));
    calls.extend((0..1024).map(|n| attribute(Owner::Op(n / 8), n % 8, 63, u32::MAX, Inherent::Yes)));
    built(calls)
}

#[test]
fn the_longest_key() {
    let store = fullest();
    let picture = Picture::of(&store, BY_HAND);
    let longest = bytes_model::key(&picture, Sort::Op, 0, Ignore::NOTHING);
    assert_eq!((longest.len(), lent::key_bytes()), (78_336, 78_344));
    for sort in SORTS {
        let key = bytes_model::key(&picture, sort, 0, Ignore::NOTHING);
        key_is(&store, sort, 0, &Ignore::NOTHING, &key, BY_HAND);
        extent_is(&store, sort, 0, &Ignore::NOTHING, extents_model::extent(&picture, sort, 0, &Ignore::NOTHING), BY_HAND);
    }
    let extent = Extent { bytes: 78_336, values: 2048, blocks: 256, operations: 512, nesting: 1 };
    extent_is(&store, Sort::Op, 0, &Ignore::NOTHING, extent, BY_HAND);
}

/// The order of any bytes is that of byte slices in Rust: byte by byte, without sign, and a proper beginning first.
#[test]
fn the_order_of_any_bytes() {
    let by_hand: [&[u8]; 10] = [b"", &[0], &[0, 0], &[0, 255], &[1], &[1, 0], &[127], &[128], &[255], &[255, 0]];
    for (i, lhs) in by_hand.iter().enumerate() {
        for (j, rhs) in by_hand.iter().enumerate() {
            assert_eq!(compare_keys(lhs, rhs), i.cmp(&j), "{lhs:?} {rhs:?}");
        }
    }
    let mut random = Random::new(2);
    for _ in 0..20_000 {
        let [lhs, mut rhs] = [(); 2].map(|()| (0..random.below(20)).map(|_| random.below(3) as u8 * 127).collect::<Vec<u8>>());
        if random.chance(50) {
            rhs.splice(..rhs.len().min(lhs.len()), lhs[..rhs.len().min(lhs.len())].to_vec());
        }
        assert_eq!(compare_keys(&lhs, &rhs), lhs.cmp(&rhs), "{lhs:?} {rhs:?}");
        assert_eq!(compare_keys(&lhs, &lhs), Ordering::Equal, "{lhs:?}");
    }
}

/// The order of keys is not that of numbers: kind 256 stands before kind 1.
#[test]
fn lowest_byte_first() {
    let store = built([1, 256].map(|kind| Call::Operation(New { kind, ..New::default() })));
    let [one, two_hundred_fifty_six] = [0, 1].map(|n| key(&store, Sort::Op, n, &Ignore::NOTHING));
    assert_eq!(compare_keys(&two_hundred_fifty_six, &one), Ordering::Less);
}
