//! Which marks are set, and in which order.

use warzhigo::{Ignore, MarkId, Refused, Store, lent};

use crate::common::marked::Step;
use crate::common::question::{Question, Sort, no_entries};
use crate::{OK, Tried, inner, operand, operation};

#[test]
fn setting_a_mark_again_moves_it() {
    let mut tried = Tried::small();
    let answers = [tried.mark(1), tried.mark(2), tried.mark(1), tried.back(2), tried.back(1)];
    assert_eq!(answers, [OK, OK, OK, OK, Err(16)]);
}

#[test]
fn marks_at_one_state_have_an_order() {
    let mut tried = Tried::small();
    assert_eq!([tried.mark(1), tried.mark(2), tried.back(1), tried.back(2)], [OK, OK, OK, Err(16)]);
    assert_eq!([tried.mark(2), tried.back(2), tried.back(2), tried.back(1)], [OK; 4]);
}

#[test]
fn numbers_of_marks() {
    let mut tried = Tried::small();
    for number in [0, 9, 10, 1 << 16, u32::MAX] {
        assert_eq!((tried.mark(number), tried.back(number)), (Err(16), Err(16)), "{number}");
    }
    for number in 1..=8 {
        assert_eq!((tried.back(number), tried.mark(number), tried.back(number)), (Err(16), OK, OK), "{number}");
    }
    // with all eight set, each can move
    for number in [1, 8, 4, 4] {
        assert_eq!((tried.mark(number), tried.mark(0), tried.mark(9)), (OK, Err(16), Err(16)), "{number}");
    }
    assert_eq!(tried.model.set_marks().iter().map(|mark| mark.0).collect::<Vec<_>>(), [2, 3, 5, 6, 7, 1, 8, 4]);
    assert_eq!((tried.back(2), tried.back(3)), (OK, Err(16)));
}

#[test]
fn cause_1_comes_before_16() {
    let words = Tried::small().store.into_words();
    for step in [Step::Mark(0), Step::Mark(9), Step::Mark(1), Step::Back(0), Step::Back(1)] {
        assert_eq!(step.lent(&mut words[1..].to_vec()), Err(1), "{step:?}");
    }
}

/// Marks belong to the words: a copy has them, and a lent mapping doesn't go back with its store.
#[test]
fn marks_in_words() {
    let mut tried = Tried::small();
    tried.mark(2).unwrap();
    tried.ask(operation(inner())).unwrap();
    let mut clone = tried.store.clone();
    let mut again = Store::from_words(tried.store.words()).unwrap();
    for store in [&mut clone, &mut again] {
        tried.model.is(store, "a copy");
        assert_eq!(store.go_back(MarkId(2)), Ok(()));
        assert_eq!(store.totals().operations, 2);
    }
    assert_eq!(tried.store.totals().operations, 3);

    let (mut words, mut mapping) = (tried.store.into_words(), no_entries());
    let question = Question { sort: Sort::Op, lhs: 2, rhs: 2, ignore: Ignore::NOTHING };
    assert!(question.lent(&words, &mut mapping).is_ok());
    lent::go_back(&mut words, 2).unwrap();
    let question = Question { lhs: 0, rhs: 0, ..question };
    assert_eq!(question.lent(&words, &mut mapping).map_err(Refused::number), Err(8));
    assert!(question.lent(&words, &mut no_entries()).is_ok());
}

/// Without a mark, words of marks and of the journal may be anything.
#[test]
fn words_behind_no_mark_are_not_read() {
    let mut tried = Tried::small();
    let mut words = std::mem::take(&mut tried.store).into_words();
    words[35080..].fill(u32::MAX);
    tried.store = Store::from_words(words).unwrap();
    tried.model.is(&tried.store, "words that are not read");
    assert_eq!([tried.back(1), tried.mark(1), tried.ask(operand(1, 0, 1)), tried.back(1)], [Err(16), OK, OK, OK]);
    assert_eq!([tried.mark(1), tried.mark(2), tried.back(1), tried.back(2)], [OK, OK, OK, Err(16)]);
}
