//! Every offered call on the same words.

use warzhigo::lent::{self, Owner};
use warzhigo::{Attribute, Ignore, Inherent, Refused, Store};

use super::call::{Call, New};
use super::marked::Step;
use super::question::{LENT, Question, Sort, extent_lent, hash_lent, independent_lent, key_lent};

pub const SORTS: [Sort; 3] = [Sort::Op, Sort::Block, Sort::Region];

/// One of each building call and of copies, with numbers that most stores have.
pub fn building_calls() -> [Call; 6] {
    let attribute = Attribute { key: 1, kind: 2, content: 3, inherent: Inherent::No };
    [
        Call::Operation(New::default()),
        Call::Block { region: 0, location: 0, argument_types: vec![1] },
        Call::Attribute(Owner::Op(0), attribute),
        Call::Attribute(Owner::Block(0), Attribute { inherent: Inherent::Yes, ..attribute }),
        Call::Operand { op: 0, index: 0, value: 0 },
        Call::Copy { op: 0, parent: None },
    ]
}

/// Asserts that words are no sound store by any call, and that none of the calls changes a word.
pub fn all_refuse(store: &[u32], mapping: &[u32], context: &str) {
    assert!(!lent::is_sound(store), "{context}: sound by `is_sound`");
    assert_eq!(Store::from_words(store).err().map(Refused::number), Some(1), "{context}: `from_words`");
    let mut words = store.to_vec();
    let of_marks = [Step::Mark(1), Step::Back(1), Step::Mark(9), Step::Back(0)];
    for step in building_calls().map(Step::Build).into_iter().chain(of_marks) {
        assert_eq!(step.lent(&mut words), Err(1), "{context}: {step:?}");
        assert!(words == store, "{context}: the refused {step:?} has changed words");
    }
    for sort in SORTS {
        assert_eq!(hash_lent(store, sort, 0, &Ignore::NOTHING).map_err(Refused::number), Err(1), "{context}: hash of {sort:?}");
        key_refused(store, sort, 0, 100, 1, context);
        assert_eq!(extent_lent(store, sort, 0, &Ignore::NOTHING).map_err(Refused::number), Err(1), "{context}: extent of {sort:?}");
        assert_eq!(independent_lent(store, sort, 0, 0).map_err(Refused::number), Err(1), "{context}: independence of {sort:?}");
        comparison_refused(store, mapping, sort, 1, context);
    }
    twins_refused(store, &[], 512, 1, context);
}

/// Asserts that the comparison of number 0 with itself is refused by this cause, and leaves the mapping as it was.
pub fn comparison_refused(store: &[u32], mapping: &[u32], sort: Sort, cause: u32, context: &str) {
    let question = Question { sort, lhs: 0, rhs: 0, ignore: Ignore::NOTHING };
    let mut entries = mapping.to_vec();
    assert_eq!(question.lent(store, &mut entries).map_err(Refused::number), Err(cause), "{context}: {question:?}");
    assert!(entries == mapping, "{context}: the refused {question:?} has changed the mapping");
}

/// Asserts that a key in so many lent bytes is refused by this cause, and leaves them as they were.
pub fn key_refused(store: &[u32], sort: Sort, n: u32, room: usize, cause: u32, context: &str) {
    let mut bytes = vec![LENT; room];
    let answer = key_lent(store, sort, n, &Ignore::NOTHING, &mut bytes);
    assert_eq!(answer.map_err(Refused::number), Err(cause), "{context}: key of {sort:?} {n} in {room} bytes");
    assert!(bytes.iter().all(|byte| *byte == LENT), "{context}: the refused key of {sort:?} {n} was written");
}

/// Asserts that twins in so many lent words, under a list of renamed types, are refused by this cause, and leave the words as they were.
pub fn twins_refused(store: &[u32], types: &[u32], room: usize, cause: u32, context: &str) {
    let mut words = vec![7; room];
    let answer = lent::twins_of_operations(store, types, &Ignore::NOTHING, &mut words);
    assert_eq!(answer.map_err(Refused::number), Err(cause), "{context}: twins in {room} words");
    assert!(words.iter().all(|word| *word == 7), "{context}: the refused twins were written");
}
