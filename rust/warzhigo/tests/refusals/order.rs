//! Where several causes hold at once.

use warzhigo::lent::Owner;
use warzhigo::{Ignore, Refused};

use crate::common::call::{Call, New};
use crate::common::offered::{SORTS, comparison_refused, key_refused};
use crate::common::question::{Question, Sort, hash_lent_under, key_lent_under, no_entries};
use crate::stores::{ask, attribute, block, deep, filled, full_of_attributes, operation, results, small};

/// 1, 8, 14, 6, 2, 7, 4, 5, 3, 13: of two causes that hold at once, the earlier is given.
#[test]
fn order_of_causes() {
    let unsound = &small().into_words()[1..];
    comparison_refused(unsound, &[], Sort::Op, 1, "1 before 8");
    assert_eq!(attribute(Owner::Op(9), 1, 64).lent(&mut unsound.to_vec()), Err(1), "1 before 6");
    let mut too_short = no_entries()[1..].to_vec();
    let missing = Question { sort: Sort::Op, lhs: 9, rhs: 9, ignore: Ignore::NOTHING };
    assert_eq!(missing.lent(small().words(), &mut too_short).map_err(Refused::number), Err(8), "8 before 2");
    assert_eq!(missing.lent_under(&[1], small().words(), &mut too_short).map_err(Refused::number), Err(8), "8 before 14");
    assert_eq!(missing.lent_under(&[1], small().words(), &mut no_entries()).map_err(Refused::number), Err(14), "14 before 2");
    assert_eq!(missing.lent_under(&[1], unsound, &mut no_entries()).map_err(Refused::number), Err(1), "1 before 14");
    assert_eq!(ask(&mut small(), attribute(Owner::Op(9), 1, 64)), Err(6), "6 before 2");
    assert_eq!(ask(&mut small(), Call::Operand { op: 1, index: 9, value: 9 }), Err(2), "2 before 7");
    assert_eq!(operation(&mut small(), New { operands: vec![9], ..results(17) }), Err(2), "2 before 4");
    assert_eq!(ask(&mut small(), block(9, 17)), Err(2), "2 before 4");
    for sort in SORTS {
        key_refused(unsound, sort, 9, 0, 1, "1 before 2 and 13");
        key_refused(small().words(), sort, 9, 0, 2, "2 before 13");
        key_refused(small().words(), sort, 0, 0, 13, "13 last of all");
        let hash = |store: &[u32], n| hash_lent_under(&[1], store, sort, n, &Ignore::NOTHING).map_err(Refused::number);
        let key = |store: &[u32], n| key_lent_under(&[1], store, sort, n, &Ignore::NOTHING, &mut []).map_err(Refused::number);
        assert_eq!((hash(unsound, 9), key(unsound, 9)), (Err(1), Err(1)), "1 before 14");
        assert_eq!((hash(small().words(), 9), key(small().words(), 9)), (Err(14), Err(14)), "14 before 2 and 13");
    }
}

#[test]
fn order_of_causes_of_full_stores() {
    let (mut store, deepest) = deep();
    let inside = New { parent: Some(deepest), ..New::default() };
    assert_eq!(operation(&mut store, New { regions: 9, ..inside.clone() }), Err(4), "4 before 5");
    assert_eq!(operation(&mut store, New { successors: vec![99], ..inside.clone() }), Err(2), "2 before 5");
    filled(&mut store, 512 - 33, Call::Operation(New::default()));
    assert_eq!(operation(&mut store, inside), Err(5), "5 before 3");
    assert_eq!(operation(&mut store, New { parent: Some(99), ..New::default() }), Err(2), "2 before 3");
    assert_eq!(operation(&mut store, results(17)), Err(4), "4 before 3");
    assert_eq!(operation(&mut store, New::default()), Err(3));
    let mut store = full_of_attributes();
    assert_eq!(ask(&mut store, attribute(Owner::Op(2), 8, 64)), Err(6), "6 before 4");
    assert_eq!(ask(&mut store, attribute(Owner::Op(2), 8, 63)), Err(4), "4 before 3");
    assert_eq!(ask(&mut store, attribute(Owner::Op(999), 8, 63)), Err(2), "2 before 3");
}
