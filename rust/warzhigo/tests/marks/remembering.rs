//! What is remembered, and cause 17.

use warzhigo::lent::Owner;
use warzhigo::{Attribute, Inherent};

use crate::common::call::{Call, New};
use crate::common::marked::Step;
use crate::{OK, Tried, attribute, block, inner, operand, operation};

#[test]
fn replacements_up_to_1024() {
    let mut tried = Tried::small();
    tried.mark(1).unwrap();
    tried.replace(1024);
    for step in [operand(1, 0, 0), attribute(Owner::Op(1), 7, 0), attribute(Owner::Op(1), 9, 0)] {
        assert_eq!(tried.ask(step), Err(17));
    }
    assert_eq!(tried.store.remembered(), 1024);
    assert_eq!(tried.back(1), OK);
    assert_eq!((tried.store.remembered(), tried.contents()), (0, vec![(7, 7), (9, 9)]));
    tried.replace(1024);
    assert_eq!(tried.ask(operand(1, 0, 0)), Err(17));
}

#[test]
fn without_a_mark_nothing_is_remembered() {
    let mut tried = Tried::small();
    tried.replace(1100);
    assert_eq!(tried.store.remembered(), 0);
    tried.mark(8).unwrap();
    assert_eq!(tried.store.remembered(), 0);
    tried.replace(1024);
    assert_eq!(tried.ask(operand(1, 0, 0)), Err(17));
}

#[test]
fn the_oldest_mark_moved_frees_what_lies_before_the_next() {
    let mut tried = Tried::small();
    tried.mark(1).unwrap();
    tried.replace(600);
    tried.mark(2).unwrap();
    let at_2 = tried.model.picture.clone();
    tried.replace(424);
    assert_eq!((tried.store.remembered(), tried.ask(operand(1, 0, 0))), (1024, Err(17)));
    tried.mark(1).unwrap();
    assert_eq!(tried.store.remembered(), 424);
    tried.replace(600);
    assert_eq!((tried.store.remembered(), tried.ask(operand(1, 0, 0))), (1024, Err(17)));
    // a mark that is not the oldest frees nothing
    tried.mark(1).unwrap();
    assert_eq!((tried.store.remembered(), tried.ask(operand(1, 0, 0))), (1024, Err(17)));
    assert_eq!((tried.back(1), tried.store.remembered()), (OK, 1024));
    assert_eq!((tried.back(2), tried.store.remembered(), tried.back(1)), (OK, 0, Err(16)));
    assert_eq!(tried.model.picture, at_2);
}

#[test]
fn the_only_mark_moved_frees_all() {
    let mut tried = Tried::small();
    tried.mark(3).unwrap();
    tried.replace(1024);
    tried.mark(3).unwrap();
    assert_eq!(tried.store.remembered(), 0);
    let here = tried.model.picture.clone();
    tried.replace(3);
    tried.back(3).unwrap();
    assert_eq!(tried.model.picture, here);
}

#[test]
fn an_operand_set_to_the_value_that_it_has_counts() {
    let mut tried = Tried::small();
    tried.mark(1).unwrap();
    for remembered in 1..=3 {
        assert_eq!((tried.ask(operand(1, 0, 0)), tried.store.remembered()), (OK, remembered));
    }
    assert_eq!((tried.ask(operand(1, 0, 1)), tried.back(1), tried.store.remembered()), (OK, OK, 0));
    assert_eq!(tried.model.picture.ops[1].operands, [0]);
}

#[test]
fn replacements_in_an_operation_made_after_every_mark_count() {
    let mut tried = Tried::small();
    tried.mark(1).unwrap();
    assert_eq!(tried.ask(operation(inner())), Ok(Some(2)));
    assert_eq!((tried.ask(operand(2, 0, 2)), tried.ask(attribute(Owner::Op(2), 1, 1)), tried.store.remembered()), (OK, OK, 1));
    assert_eq!((tried.ask(attribute(Owner::Op(2), 1, 2)), tried.store.remembered()), (OK, 2));
    for n in 2..1024 {
        assert_eq!(tried.ask(operand(2, 0, n % 3)), OK);
    }
    assert_eq!(tried.ask(operand(2, 0, 0)), Err(17));
    assert_eq!((tried.back(1), tried.store.totals().operations), (OK, 2));
}

/// 17 is the last of all causes, and not for a new key, however full.
#[test]
fn order_of_17() {
    let mut tried = Tried::small();
    tried.mark(1).unwrap();
    tried.replace(1024);
    let kind = |owner, kind| Step::Build(Call::Attribute(owner, Attribute { key: 7, kind, content: 0, inherent: Inherent::Yes }));
    assert_eq!(tried.ask(kind(Owner::Op(1), 64)), Err(6), "6 before 17");
    assert_eq!(tried.ask(kind(Owner::Op(9), 63)), Err(2), "2 before 17");
    assert_eq!(tried.ask(operand(9, 0, 0)), Err(2), "2 before 17");
    assert_eq!(tried.ask(operand(1, 0, 9)), Err(2), "2 before 17");
    assert_eq!(tried.ask(operand(1, 1, 0)), Err(7), "7 before 17");
    assert_eq!(tried.ask(kind(Owner::Op(1), 63)), Err(17));
    assert_eq!(tried.ask(operand(1, 0, 0)), Err(17));
    for key in [1, 2, 3, 4, 5, 6] {
        assert_eq!(tried.ask(attribute(Owner::Op(1), key, 0)), OK, "a new key");
    }
    assert_eq!(tried.ask(attribute(Owner::Op(1), 8, 0)), Err(4), "a new key too many is 4");
    assert!(tried.ask(operation(inner())).is_ok() && tried.ask(block(0, 2)).is_ok());
    assert_eq!((tried.back(1), tried.store.totals().attributes), (OK, 2));
}

#[test]
fn a_refused_call_is_not_remembered() {
    let mut tried = Tried::small();
    tried.mark(1).unwrap();
    for step in [operand(1, 1, 0), operand(1, 0, 2), operand(2, 0, 0), attribute(Owner::Op(2), 7, 0), Step::Back(2), Step::Mark(9)] {
        assert!(tried.ask(step).is_err());
    }
    assert_eq!((tried.store.remembered(), tried.back(1)), (0, OK));
}

/// 1,024 new keys and 1,024 replacements: no list of calls is remembered that is longer.
#[test]
fn the_longest_journal() {
    let mut tried = Tried::default();
    for _ in 0..128 {
        tried.ask(operation(New::default())).unwrap();
    }
    tried.mark(1).unwrap();
    let at_1 = tried.model.picture.clone();
    for n in 0..1024 {
        tried.ask(attribute(Owner::Op(n / 8), 8 - n % 8, n)).unwrap();
        tried.ask(attribute(Owner::Op(n / 8), 8 - n % 8, n + 1)).unwrap();
        if n == 500 {
            tried.mark(2).unwrap();
        }
    }
    let at_end = tried.model.picture.clone();
    tried.mark(3).unwrap();
    assert_eq!(tried.ask(attribute(Owner::Op(0), 1, 0)), Err(17));
    assert_eq!(tried.ask(attribute(Owner::Op(0), 9, 0)), Err(4));
    assert_eq!((tried.back(3), &tried.model.picture), (OK, &at_end));
    assert_eq!((tried.back(2), tried.store.remembered(), tried.store.totals().attributes), (OK, 501, 501));
    assert_eq!((tried.back(1), &tried.model.picture), (OK, &at_1));
}
