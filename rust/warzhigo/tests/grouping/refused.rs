//! What is refused, by which cause, and that it changes nothing.

use warzhigo::{Ignore, MarkId, NewOperation, Refused, Store, lent};

use crate::common::offered::{SORTS, twins_refused};
use crate::common::question::{Sort, independent_lent};

const BY_HAND: &str = "a store made by hand";

/// Two operations with a region each, and a block in each region.
fn two() -> Store {
    let mut store = Store::new();
    for _ in 0..2 {
        let op = store.new_operation(&NewOperation { regions: 1, ..Default::default() }).unwrap();
        let region = store.operation(op).unwrap().regions().next().unwrap();
        store.new_block(region, 0, &[]).unwrap();
    }
    store
}

fn asked(store: &[u32], sort: Sort, lhs: u32, rhs: u32) -> Result<bool, u32> {
    independent_lent(store, sort, lhs, rhs).map_err(Refused::number)
}

#[test]
fn independence_of_what_does_not_exist() {
    let store = two();
    for sort in SORTS {
        for missing in [2, 512, 65536, u32::MAX] {
            for (lhs, rhs) in [(missing, 0), (1, missing), (missing, missing)] {
                assert_eq!(asked(store.words(), sort, lhs, rhs), Err(2), "{sort:?} {lhs} and {rhs}");
            }
        }
        assert_eq!(asked(store.words(), sort, 1, 0), Ok(true), "{sort:?}");
    }
}

/// 1 before 2, and before 14 and 13.
#[test]
fn stores_that_are_not_sound() {
    let good = two().into_words();
    let mut damaged = good.to_vec();
    damaged[0] = 513;
    for words in [&good[1..], &damaged, &[]] {
        for (sort, n) in SORTS.into_iter().flat_map(|sort| [(sort, 0), (sort, 9)]) {
            assert_eq!(asked(words, sort, n, n), Err(1), "{sort:?} {n}");
        }
        for (types, room) in [(&[][..], 9), (&[], 0), (&[1], 9), (&[1], 0)] {
            twins_refused(words, types, room, 1, BY_HAND);
        }
    }
}

/// 14 before 13.
#[test]
fn lists_and_lent_words_that_do_not_suffice() {
    let store = two();
    for types in [&[1][..], &[1, 2, 2, 3], &[1, 2, 1, 3], &[5, 5], &[0; 130]] {
        twins_refused(store.words(), types, 9, 14, BY_HAND);
        twins_refused(store.words(), types, 0, 14, BY_HAND);
    }
    for room in [0, 1] {
        twins_refused(store.words(), &[], room, 13, BY_HAND);
        twins_refused(store.words(), &[1, 2], room, 13, BY_HAND);
    }
    let mut words = [7; 2];
    assert_eq!(lent::twins_of_operations(store.words(), &[1, 2], &Ignore::NOTHING, &mut words), Ok(2));
    assert_eq!(words, [u32::MAX, 0]);
    // an empty store wants no words
    assert_eq!(lent::twins_of_operations(Store::new().words(), &[], &Ignore::NOTHING, &mut []), Ok(0));
    assert_eq!(Store::new().twins_of_operations(&Ignore::NOTHING), Ok(Vec::new()));
}

/// 512 words suffice for any store, and 511 don't suffice for a full one.
#[test]
fn a_store_that_is_full() {
    let mut store = Store::new();
    for kind in 0..512 {
        store.new_operation(&NewOperation { kind: kind % 256, ..Default::default() }).unwrap();
    }
    twins_refused(store.words(), &[], 511, 13, "a full store");
    let mut words = [7; 512];
    assert_eq!(lent::twins_of_operations(store.words(), &[], &Ignore::NOTHING, &mut words), Ok(512));
    assert!(words[..256].iter().all(|twin| *twin == u32::MAX) && words[256..].iter().copied().eq(0..256));
}

/// Its operations since have gone, and what has a number of theirs again is by an id that is good.
#[test]
fn a_store_that_went_back() {
    let mut store = two();
    let twins = |store: &Store| store.twins_of_operations(&Ignore::NOTHING).unwrap();
    let first = store.op_id(0).unwrap();
    store.mark(MarkId(1)).unwrap();
    let since = store.new_operation(&NewOperation { kind: 3, ..Default::default() }).unwrap();
    store.new_operation(&NewOperation { kind: 3, ..Default::default() }).unwrap();
    assert_eq!(twins(&store), [None, Some(first), None, Some(since)]);
    store.go_back(MarkId(1)).unwrap();
    assert_eq!(twins(&store), [None, Some(first)]);
    let [again, _] = [3, 3].map(|kind| store.new_operation(&NewOperation { kind, ..Default::default() }).unwrap());
    assert!(again != since && again.number() == since.number());
    assert_eq!(twins(&store), [None, Some(first), None, Some(again)]);
}
