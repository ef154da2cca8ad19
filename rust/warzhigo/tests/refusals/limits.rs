//! Causes 4 to 7: the limits of one owner, nesting, the kind of an attribute, and the index of an operand.

use warzhigo::lent::Owner;
use warzhigo::{Ignore, Mapping};

use crate::common::bytes_model;
use crate::common::call::{Call, New};
use crate::common::offered::SORTS;
use crate::common::picture::Picture;
use crate::common::question::{Question, Sort, hash_lent, key_is};
use crate::stores::{ask, attribute, block, deep, deepest, inherent, operation, results, small};

#[test]
fn cause_4_lists_of_a_new_operation() {
    let longest = |more: usize| {
        [
            results(16 + more),
            New { operands: vec![0; 16 + more], ..New::default() },
            New { successors: vec![0; 8 + more], ..New::default() },
            New { regions: 8 + more as u32, ..New::default() },
        ]
    };
    for new in longest(0) {
        assert_eq!(operation(&mut small(), new.clone()), Ok(Some(2)), "{new:?}");
    }
    for new in longest(1).into_iter().chain(longest(100)) {
        assert_eq!(operation(&mut small(), new.clone()), Err(4), "{new:?}");
    }
    assert_eq!(operation(&mut small(), New { regions: u32::MAX, ..New::default() }), Err(4));
}

#[test]
fn cause_4_arguments_and_keys() {
    assert_eq!(ask(&mut small(), block(0, 16)), Ok(Some(1)));
    assert_eq!(ask(&mut small(), block(0, 17)), Err(4));
    for owner in [Owner::Op(0), Owner::Block(0)] {
        let mut store = small();
        for key in (0..8).rev() {
            assert_eq!(ask(&mut store, attribute(owner, key, key)), Ok(None), "{owner:?}, key {key}");
        }
        assert_eq!(ask(&mut store, attribute(owner, 8, 0)), Err(4), "{owner:?}");
        assert_eq!(ask(&mut store, attribute(owner, u32::MAX, 0)), Err(4), "{owner:?}");
        assert_eq!(ask(&mut store, inherent(owner, 8, 0)), Err(4), "{owner:?}");
        assert_eq!(ask(&mut store, attribute(owner, 7, 0)), Ok(None), "{owner:?}, a key that is there");
        assert_eq!(ask(&mut store, inherent(owner, 7, 0)), Ok(None), "{owner:?}, a key that is there");
    }
}

#[test]
fn cause_5_nesting() {
    let (mut store, deepest) = deep();
    let inside = |block| New { parent: Some(block), ..New::default() };
    assert_eq!(operation(&mut store, inside(deepest)), Err(5));
    assert_eq!(operation(&mut store, inside(deepest - 1)), Ok(Some(33)));
    let nesting: Vec<u32> = store.operations().map(|op| op.nesting()).collect();
    assert_eq!(nesting, (0..=32).chain([32]).collect::<Vec<_>>());
}

/// The deepest stores are walked to their end: what is inside operation 0 is so many operations and blocks, itself not counted.
#[test]
fn nesting_32_is_compared_hashed_and_filed() {
    for (store, inside) in [(deep().0, 65), (deepest(), 66)] {
        let picture = Picture::of(&store, "a store made by hand");
        for sort in SORTS {
            let question = Question { sort, lhs: 0, rhs: 0, ignore: Ignore::NOTHING };
            let found = question.inner(&store, &mut Mapping::new()).expect("a sound store");
            let paired = if sort == Sort::Op { inside + 1 } else { inside };
            assert_eq!((found.verdict, found.paired), (oracle::Verdict::Eq, paired), "{sort:?}");
            assert!(hash_lent(store.words(), sort, 0, &Ignore::NOTHING).is_ok(), "{sort:?}");
            let key = bytes_model::key(&picture, sort, 0, Ignore::NOTHING);
            key_is(&store, sort, 0, &Ignore::NOTHING, &key, "a store made by hand");
        }
    }
}

#[test]
fn cause_6_attribute_kind() {
    for owner in [Owner::Op(1), Owner::Block(0)] {
        for set in [attribute, inherent] {
            assert_eq!(ask(&mut small(), set(owner, 1, 63)), Ok(None));
            for kind in [64, 65, 127, 128, u32::MAX - 63, u32::MAX] {
                assert_eq!(ask(&mut small(), set(owner, 1, kind)), Err(6), "kind {kind}");
            }
        }
    }
}

#[test]
fn cause_7_operand_index() {
    let set = |op, index| Call::Operand { op, index, value: 1 };
    assert_eq!(ask(&mut small(), set(1, 0)), Ok(None));
    for (op, index) in [(1, 1), (1, u32::MAX), (0, 0)] {
        assert_eq!(ask(&mut small(), set(op, index)), Err(7), "operand {index} of {op}");
    }
    let mut store = small();
    assert_eq!(operation(&mut store, New { operands: vec![0; 16], ..New::default() }), Ok(Some(2)));
    assert_eq!(ask(&mut store, set(2, 15)), Ok(None));
    assert_eq!(ask(&mut store, set(2, 16)), Err(7));
}
