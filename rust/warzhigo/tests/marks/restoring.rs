//! What going back restores.

use warzhigo::lent::Owner;
use warzhigo::{Attribute, Ignore, Inherent};

use crate::common::call::{Call, New};
use crate::common::marked::Step;
use crate::common::question::{Sort, hash_inner, key_inner};
use crate::{OK, Tried, attribute, block, inner, operand, operation};

#[test]
fn a_key_replaced_twice_is_as_at_the_mark() {
    let mut tried = Tried::small();
    tried.mark(1).unwrap();
    for content in [100, 200] {
        assert_eq!(tried.ask(attribute(Owner::Op(1), 7, content)), OK);
    }
    assert_eq!((tried.contents()[0], tried.store.remembered()), ((7, 200), 2));
    tried.back(1).unwrap();
    assert_eq!((tried.contents()[0], tried.store.remembered()), ((7, 7), 0));
}

#[test]
fn a_kind_is_restored_too() {
    let mut tried = Tried::small();
    tried.mark(1).unwrap();
    let other = Attribute { key: 7, kind: 63, content: 7, inherent: Inherent::No };
    assert_eq!(tried.ask(Step::Build(Call::Attribute(Owner::Op(1), other))), OK);
    tried.back(1).unwrap();
    assert_eq!(tried.model.picture.ops[1].attributes[0].kind, 1);
}

/// Whether an attribute is inherent is restored with it: after one replacement or two, of either flag.
#[test]
fn a_flag_is_restored_too() {
    use Inherent::{No, Yes};
    for owner in [Owner::Op(0), Owner::Block(0)] {
        for (inherent, replaced) in [(Yes, vec![No]), (No, vec![Yes]), (Yes, vec![No, Yes]), (No, vec![Yes, No]), (Yes, vec![Yes])] {
            let mut tried = Tried::small();
            let set = |inherent, content| Step::Build(Call::Attribute(owner, Attribute { key: 3, kind: 63, content, inherent }));
            assert_eq!([tried.ask(set(inherent, 1)), tried.mark(1)], [OK; 2]);
            let before = tried.model.picture.clone();
            replaced.iter().for_each(|other| assert_eq!(tried.ask(set(*other, 2)), OK));
            assert_eq!((tried.back(1), &tried.model.picture), (OK, &before), "{owner:?}, {inherent:?}, {replaced:?}");
        }
    }
}

#[test]
fn a_new_key_goes_though_it_was_replaced() {
    for owner in [Owner::Op(0), Owner::Op(1), Owner::Block(0)] {
        let mut tried = Tried::small();
        tried.mark(1).unwrap();
        for (key, content) in [(8, 1), (8, 2), (3, 3), (10, 4), (8, 5)] {
            assert_eq!(tried.ask(attribute(owner, key, content)), OK);
        }
        assert_eq!(tried.store.remembered(), 2, "a new key is no replacement");
        tried.mark(2).unwrap();
        assert_eq!(tried.ask(attribute(owner, 8, 6)), OK);
        assert_eq!([tried.back(2), tried.back(1)], [OK; 2]);
        assert_eq!((tried.contents(), tried.store.totals().attributes), (vec![(7, 7), (9, 9)], 2));
        // the keys' room is free again
        let room = 8 - if owner == Owner::Op(1) { 2 } else { 0 };
        for key in 0..room {
            assert_eq!(tried.ask(attribute(owner, 100 + key, 0)), OK);
        }
        assert_eq!(tried.ask(attribute(owner, 200, 0)), Err(4));
    }
}

#[test]
fn going_back_and_back_again() {
    let mut tried = Tried::small();
    let mut at = vec![tried.model.picture.clone()];
    for mark in 1..=4 {
        tried.mark(mark).unwrap();
        assert!(tried.ask(operation(New { regions: 1, ..inner() })).is_ok());
        assert!(tried.ask(block(mark, 2)).is_ok());
        tried.replace(mark);
        at.push(tried.model.picture.clone());
    }
    for mark in [4, 4, 3, 2, 2] {
        tried.back(mark).unwrap();
        assert_eq!(tried.model.picture, at[mark as usize - 1], "{mark}");
        tried.replace(2);
    }
    assert_eq!([tried.back(3), tried.back(1), tried.back(1), tried.back(2)], [Err(16), OK, OK, Err(16)]);
    assert_eq!(tried.model.picture, at[0]);
}

#[test]
fn numbers_are_given_again() {
    let mut tried = Tried::small();
    tried.mark(1).unwrap();
    for kind in [30, 40] {
        assert_eq!(tried.ask(operation(New { kind, regions: 2, ..inner() })), Ok(Some(2)));
        assert_eq!(tried.ask(block(2, 3)), Ok(Some(1)));
        assert_eq!(tried.ask(operation(New { kind, parent: Some(1), operands: vec![4], ..inner() })), Ok(Some(3)));
        assert_eq!(tried.ask(operand(1, 0, 5)), OK);
        tried.back(1).unwrap();
        assert_eq!(tried.ask(operation(New { operands: vec![2], ..New::default() })), Err(2), "a value that has gone");
        assert_eq!(tried.ask(block(1, 0)), Err(2), "a region that has gone");
    }
    assert_eq!(tried.ask(block(0, 0)), Ok(Some(1)));
}

/// After going back a store answers as one that was built anew, and grows like it.
#[test]
fn what_is_restored_is_whole() {
    let mut tried = Tried::small();
    tried.mark(1).unwrap();
    let more = [
        operation(New { regions: 2, ..inner() }),
        block(0, 2),
        block(2, 1),
        operation(New { parent: Some(1), operands: vec![1, 2, 3], successors: vec![1, 0], ..inner() }),
        attribute(Owner::Block(0), 1, 1),
        operand(1, 0, 3),
        attribute(Owner::Op(1), 7, 70),
    ];
    more.iter().for_each(|step| assert!(tried.ask(step.clone()).is_ok()));
    tried.back(1).unwrap();
    let mut anew = Tried::small();
    for step in [block(0, 1), operation(inner()), operation(New { parent: Some(1), ..inner() })] {
        assert_eq!(tried.ask(step.clone()), anew.ask(step));
    }
    for (sort, count) in [(Sort::Op, 4), (Sort::Block, 2), (Sort::Region, 1)] {
        for n in 0..count {
            let both = [&tried.store, &anew.store];
            let [hash, other] = both.map(|store| hash_inner(store, sort, n, &Ignore::NOTHING));
            assert_eq!(hash, other, "{sort:?} {n}");
            let [key, other] = both.map(|store| key_inner(store, sort, n, &Ignore::NOTHING));
            assert_eq!(key, other, "{sort:?} {n}");
        }
    }
}
