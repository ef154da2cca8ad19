//! What document 01 says of the Rust and of the stand-ins, tried.

use core::hash::Hasher;

use crate::{Counts, Lists, Mapping, NumberAttr, Oracle, Owner, Sort, Verdict, utils::table::FxHasher};

const NO_LISTS: Lists<'static> = Lists { result_types: &[], operands: &[], successors: &[] };

/// The store of document 01's listing: two operations, alike but for locations, each with a block
/// and an operation in it.
fn listing() -> Oracle {
    let mut oracle = Oracle::new();
    for location in [5, 6] {
        let outer = oracle.new_operation(7, None, location, 1, NO_LISTS);
        let block = oracle.new_block(outer / 2, location, &[3]);
        let lists = Lists { result_types: &[3], operands: &[2 * block], successors: &[] };
        oracle.new_operation(8, Some(block), location, 0, lists);
    }
    oracle
}

fn plain(kind: u32, content: u32) -> NumberAttr {
    NumberAttr { kind, content, inherent: false }
}

fn fnv(bytes: &[u8]) -> u64 {
    let mut state = FxHasher::default();
    state.write(bytes);
    state.finish()
}

#[test]
fn listing_compared() {
    let oracle = listing();
    let mut mapping = Mapping::new();
    let verdict = oracle.compare(&mut mapping, Sort::Op, 0, 2, true, 0);
    assert_eq!(verdict, Verdict::Eq);
    assert_eq!(oracle.value_entries(&mapping), [(0, 2), (1, 3)]);
    assert_eq!(oracle.block_entries(&mapping), [(0, 1)]);
    assert_eq!(oracle.op_entries(&mapping), [(0, 2), (1, 3)]);
}

#[test]
fn listing_compared_with_locations() {
    let oracle = listing();
    let mut mapping = Mapping::new();
    let verdict = oracle.compare(&mut mapping, Sort::Op, 0, 2, false, 0);
    assert_eq!(verdict, Verdict::FirstNEQOps(0, 2));
    assert_eq!(oracle.value_entries(&mapping), []);
    assert_eq!(oracle.block_entries(&mapping), []);
    assert_eq!(oracle.op_entries(&mapping), []);
}

#[test]
fn listing_hashed() {
    let oracle = listing();
    for (sort, left, right) in [(Sort::Op, 0, 2), (Sort::Block, 0, 1), (Sort::Region, 0, 1)] {
        let hash = |number, ignore| oracle.hash(sort, number, ignore, 0);
        assert_eq!(hash(left, true), hash(right, true));
        assert_ne!(hash(left, false), hash(right, false));
    }
}

#[test]
fn listing_dumped() {
    let lines = [
        "op 0 7 - 5 r[0] v[] u[] s[] a[]",
        "op 1 8 0 5 r[] v[1] u[0] s[] a[]",
        "op 2 7 - 6 r[1] v[] u[] s[] a[]",
        "op 3 8 1 6 r[] v[3] u[2] s[] a[]",
        "block 0 0 5 v[0] o[1] a[]",
        "block 1 1 6 v[2] o[3] a[]",
        "region 0 0 b[0]",
        "region 1 2 b[1]",
        "value 0 3 b0.0",
        "value 1 3 o1.0",
        "value 2 3 b1.0",
        "value 3 3 o3.0",
        "totals 2 0 0",
    ];
    assert_eq!(listing().dump(), lines.join("|"));
}

#[test]
fn listing_counted() {
    let counts = Counts { operations: 4, blocks: 2, regions: 2, values: 4 };
    assert_eq!(listing().counts(), counts);
}

#[test]
fn empty_store() {
    assert_eq!(Oracle::new().counts(), Counts::default());
    assert_eq!(Oracle::new().dump(), "totals 0 0 0");
}

/// `zip` swallows the left block that is one too many, so the Rust misses it; it finds two too
/// many, and one too many on the right.
#[test]
fn one_block_too_many() {
    let mut oracle = Oracle::new();
    oracle.new_operation(7, None, 5, 2, NO_LISTS);
    oracle.new_block(0, 5, &[]);
    let compare = |oracle: &Oracle, lhs, rhs| oracle.compare(&mut Mapping::new(), Sort::Region, lhs, rhs, false, 0);
    assert_eq!(compare(&oracle, 0, 1), Verdict::Eq);
    assert_eq!(compare(&oracle, 1, 0), Verdict::FirstNEQRegions(1, 0));
    oracle.new_block(0, 5, &[]);
    assert_eq!(compare(&oracle, 0, 1), Verdict::FirstNEQRegions(0, 1));
}

/// The same of operations in two blocks.
#[test]
fn one_operation_too_many() {
    let mut oracle = Oracle::new();
    oracle.new_operation(7, None, 5, 1, NO_LISTS);
    oracle.new_block(0, 5, &[]);
    oracle.new_block(0, 5, &[]);
    oracle.new_operation(8, Some(0), 5, 0, NO_LISTS);
    let compare = |lhs, rhs| oracle.compare(&mut Mapping::new(), Sort::Block, lhs, rhs, false, 0);
    assert_eq!(compare(0, 1), Verdict::Eq);
    assert_eq!(compare(1, 0), Verdict::FirstNEQBlocks(1, 0));
}

#[test]
fn attributes() {
    let mut oracle = Oracle::new();
    for order in [[1, 2], [2, 1]] {
        let op = oracle.new_operation(7, None, 5, 0, NO_LISTS);
        for key in order {
            oracle.set_attribute(Owner::Op(op), key, plain(60 + key, 9));
        }
    }
    assert_eq!(compared(&oracle, Sort::Op, 0), Verdict::Eq);
    oracle.set_attribute(Owner::Op(1), 2, plain(63, 9));
    assert_eq!(compared(&oracle, Sort::Op, 0), Verdict::FirstNEQOps(0, 1));
    assert_eq!(compared(&oracle, Sort::Op, 1 << 63), Verdict::FirstNEQOps(0, 1));
    assert_eq!(compared(&oracle, Sort::Op, 3 << 62), Verdict::Eq);
    let lines = oracle.dump();
    assert!(lines.contains("a[1:61:9,2:62:9]|op 1 7 - 5 r[] v[] u[] s[] a[1:61:9,2:63:9]"));
    assert!(lines.ends_with("totals 0 0 4"));
}

/// Compares numbers 0 and 1; their hashes are equal exactly where they are.
fn compared(oracle: &Oracle, sort: Sort, ignore_bits: u64) -> Verdict {
    let verdict = oracle.compare(&mut Mapping::new(), sort, 0, 1, false, ignore_bits);
    let hash = |number| oracle.hash(sort, number, false, ignore_bits);
    assert_eq!(verdict == Verdict::Eq, hash(0) == hash(1));
    verdict
}

/// An inherent attribute is never ignored, and is another than one that is not. Replaced by such a
/// one it can be ignored again.
#[test]
fn inherent_attributes() {
    let inherent = |content| NumberAttr { inherent: true, ..plain(5, content) };
    let mut oracle = Oracle::new();
    for _ in 0..2 {
        oracle.new_operation(7, None, 5, 0, NO_LISTS);
    }
    oracle.set_attribute(Owner::Op(0), 1, inherent(10));
    for right in [None, Some(plain(5, 10)), Some(inherent(11)), Some(inherent(10))] {
        right.into_iter().for_each(|attr| oracle.set_attribute(Owner::Op(1), 1, attr));
        let verdict = if right == Some(inherent(10)) { Verdict::Eq } else { Verdict::FirstNEQOps(0, 1) };
        assert_eq!([0, 1 << 5, u64::MAX].map(|bits| compared(&oracle, Sort::Op, bits)), [verdict; 3], "{right:?}");
    }
    assert!(oracle.dump().starts_with("op 0 7 - 5 r[] v[] u[] s[] a[1:5:10:i]|op 1 7 - 5 r[] v[] u[] s[] a[1:5:10:i]|"));
    oracle.set_attribute(Owner::Op(0), 1, plain(5, 10));
    oracle.set_attribute(Owner::Op(1), 1, plain(5, 11));
    assert_eq!(compared(&oracle, Sort::Op, 1 << 5), Verdict::Eq);
}

#[test]
fn inherent_attributes_of_blocks() {
    let mut oracle = Oracle::new();
    oracle.new_operation(7, None, 5, 1, NO_LISTS);
    for _ in 0..2 {
        oracle.new_block(0, 5, &[]);
    }
    oracle.set_attribute(Owner::Block(0), 1, NumberAttr { inherent: true, ..plain(5, 10) });
    assert_eq!(compared(&oracle, Sort::Block, 1 << 5), Verdict::FirstNEQBlocks(0, 1));
    assert!(oracle.dump().contains("block 0 0 5 v[] o[] a[1:5:10:i]|block 1 0 5 v[] o[] a[]"));
}

/// A comparison starts from the entries that it is lent.
#[test]
fn entered_images() {
    let mut oracle = Oracle::new();
    oracle.new_operation(1, None, 0, 1, NO_LISTS);
    for _ in 0..2 {
        oracle.new_block(0, 0, &[4]);
    }
    for number in [0, 1] {
        let lists = Lists { result_types: &[], operands: &[0], successors: &[number] };
        oracle.new_operation(2, None, 0, 0, lists);
    }
    oracle.set_operand(2, 0, 1);
    let mut mapping = Mapping::new();
    oracle.enter_value(&mut mapping, 0, 1);
    let verdict = oracle.compare(&mut mapping, Sort::Op, 1, 2, false, 0);
    assert_eq!(verdict, Verdict::FirstNEQOps(1, 2));
    oracle.enter_block(&mut mapping, 0, 1);
    oracle.enter_op(&mut mapping, 1, 0);
    let verdict = oracle.compare(&mut mapping, Sort::Op, 1, 2, false, 0);
    assert_eq!(verdict, Verdict::Eq);
    assert_eq!(oracle.op_entries(&mapping), [(1, 2)]);
}

#[test]
fn fnv_vectors() {
    assert_eq!(fnv(b""), 0xcbf29ce484222325);
    assert_eq!(fnv(b"a"), 0xaf63dc4c8601ec8c);
    assert_eq!(fnv(b"foobar"), 0x85944171f73967e8);
}

/// The bytes of a number that are 0 are taken at once, and the hash is that of its bytes.
#[test]
fn numbers_are_their_bytes() {
    let fed = |feed: fn(&mut FxHasher, u64), number| {
        let mut state = FxHasher::default();
        state.write(b"before");
        feed(&mut state, number);
        state.finish()
    };
    let ends = [0, 1, 8, 16, 24, 32, 40, 63].map(|bits| 1_u64 << bits);
    for number in ends.into_iter().flat_map(|end| [end - 1, end, end + 1, end | 0x0102030405060708]) {
        let bytes = number.to_le_bytes();
        if let Ok(word) = u32::try_from(number) {
            let leaf = fed(|state, number| state.write_u32(number as u32), number);
            assert_eq!(leaf, fnv(&[b"before", &word.to_le_bytes()[..]].concat()), "{number}");
        }
        let count = fed(|state, number| state.write_usize(number as usize), number);
        assert_eq!(count, fnv(&[b"before", &bytes[..]].concat()), "{number}");
    }
}

/// Leaves feed 4 bytes, counts and walk numbers 8, tags and flags 1, lowest byte first.
#[test]
fn fed_bytes() {
    let mut oracle = Oracle::new();
    oracle.new_operation(0, None, 0, 1, NO_LISTS);
    oracle.new_block(0, 0, &[6]);
    let lists = Lists { result_types: &[0x01020304], operands: &[0, 0], successors: &[0] };
    oracle.new_operation(7, None, 5, 0, lists);
    oracle.set_operand(1, 1, 1);
    oracle.set_attribute(Owner::Op(1), 13, NumberAttr { inherent: true, ..plain(14, 15) });
    oracle.set_attribute(Owner::Op(1), 10, plain(11, 12));
    let bytes = [
        &[7, 0, 0, 0][..],              // kind
        &[0; 8],                        // regions
        &[5, 0, 0, 0],                  // location
        &[2, 0, 0, 0, 0, 0, 0, 0],      // attributes
        &[10, 0, 0, 0],                 // key
        &[11, 0, 0, 0, 12, 0, 0, 0, 0], // attribute
        &[13, 0, 0, 0],                 // key
        &[14, 0, 0, 0, 15, 0, 0, 0, 1], // inherent attribute
        &[4, 3, 2, 1],                  // result type
        &[1, 0, 0, 0, 0],               // an operand from outside, value 0
        &[0, 0, 0, 0, 0, 0, 0, 0, 0],   // an operand from inside, the first value
        &[1, 0, 0, 0, 0],               // a successor from outside, block 0
    ];
    assert_eq!(oracle.hash(Sort::Op, 1, false, 0), fnv(&bytes.concat()));
}

/// A clone has the next numbers in the order of the walk, and is equal to what it is of.
#[test]
fn listing_cloned() {
    let mut oracle = listing();
    oracle.set_attribute(Owner::Op(1), 9, plain(5, 4));
    for parent in [None, Some(1)] {
        let (mut mapping, mut compared) = (Mapping::new(), Mapping::new());
        let Counts { operations, blocks, values, .. } = oracle.counts();
        let clone = oracle.clone_operation(&mut mapping, 0, parent);
        oracle.number_values();
        assert_eq!(clone as usize, operations);
        let next = |from: usize, left: u32| (left, from as u32 + left);
        assert_eq!(oracle.op_entries(&mapping), [next(operations, 0), next(operations, 1)]);
        assert_eq!(oracle.block_entries(&mapping), [next(blocks, 0)]);
        assert_eq!(oracle.value_entries(&mapping), [next(values, 0), next(values, 1)]);
        assert_eq!(oracle.compare(&mut compared, Sort::Op, 0, clone, false, 0), Verdict::Eq);
        assert_eq!(oracle.op_entries(&compared), oracle.op_entries(&mapping));
        assert_eq!(oracle.hash(Sort::Op, 0, false, 0), oracle.hash(Sort::Op, clone, false, 0));
    }
}
