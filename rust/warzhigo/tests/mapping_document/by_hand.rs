//! Mappings with entries by hand, of several comparisons or from words.

use warzhigo::*;

use crate::common::question::no_entries;
use crate::{clears, filed, pages, plain, result, written};

#[test]
fn an_image_that_comes_twice() {
    let mut store = Store::new();
    let [a, b] = pages(&mut store);
    type Enter = fn(&mut Mapping, [crate::Page; 2]) -> Result<(), Refused>;
    let entries: [(Enter, &str); 3] = [
        (|mapping, [from, to]| mapping.map_value(from.values[0], to.values[1]), "v0>1"),
        (|mapping, [from, to]| mapping.map_block(from.block, to.block), "b0>0"),
        (|mapping, [from, to]| mapping.map_op(from.ops[1], to.ops[0]), "o1>0"),
    ];
    for (enter, only) in entries {
        let mut mapping = Mapping::new();
        enter(&mut mapping, [a, a]).unwrap();
        assert_eq!(written(&mapping), only);
        assert_eq!(mapping.inverse().unwrap().inverse().as_ref(), Some(&mapping));
        enter(&mut mapping, [b, a]).unwrap();
        assert_eq!((mapping.entries().count(), mapping.inverse()), (2, None));
        // a later entry replaces an earlier one
        enter(&mut mapping, [b, b]).unwrap();
        let inverse = mapping.inverse().unwrap();
        assert_eq!((inverse.entries().count(), inverse.inverse()), (2, Some(mapping)));
        clears(inverse);
    }
}

/// The same number in two sorts is not the same image.
#[test]
fn sorts_are_apart() {
    let mut store = Store::new();
    let [a, b] = pages(&mut store);
    let mut mapping = Mapping::new();
    mapping.map_value(a.values[0], a.values[1]).unwrap();
    mapping.map_block(a.block, b.block).unwrap();
    mapping.map_op(a.ops[0], a.ops[1]).unwrap();
    assert_eq!(written(&mapping), "v0>1 b0>1 o0>1");
    let inverse = mapping.inverse().unwrap();
    assert_eq!(written(&inverse), "v1>0 b1>0 o1>0");
    assert_eq!((inverse.lookup_value(a.values[1]), inverse.lookup_value(a.values[0])), (Some(a.values[0]), None));
    assert_eq!((inverse.lookup_block(b.block), inverse.lookup_op(a.ops[1])), (Some(a.block), Some(a.ops[0])));
}

/// Entries by hand and those of comparisons are put together alike, whichever comes first.
#[test]
fn among_entries_of_a_comparison() {
    let mut store = Store::new();
    let [a, b, c] = pages(&mut store);
    let compared = filed(&store, a.ops[0], b.ops[0]);
    let mut by_hand = Mapping::new();
    by_hand.map_op(b.ops[1], c.ops[0]).unwrap();
    by_hand.map_value(b.values[0], c.values[1]).unwrap();
    by_hand.map_value(c.values[0], c.values[0]).unwrap();
    assert_eq!(written(&compared.then(&by_hand).unwrap()), "v0>5 o1>4");
    assert_eq!(written(&by_hand.then(&filed(&store, c.ops[0], a.ops[0])).unwrap()), "v2>1 v4>0 o3>0");
    assert_eq!(written(&by_hand.then(&by_hand).unwrap()), "v4>4");
    let mut both = compared.clone();
    both.map_op(c.ops[0], c.ops[1]).unwrap();
    assert_eq!(written(&both.inverse().unwrap()), "v2>0 v3>1 b1>0 o2>0 o3>1 o5>4");
    for mapping in [compared.then(&by_hand).unwrap(), by_hand.inverse().unwrap(), both.inverse().unwrap()] {
        clears(mapping);
    }
}

/// Some entries give none, and some give one image twice: that is no matter here.
#[test]
fn followed_by_what_has_no_inverse() {
    let (store, [a, b, c]) = plain([1, 1, 1]);
    let (mut forth, mut on) = (Mapping::new(), Mapping::new());
    forth.map_op(a, b).unwrap();
    forth.map_op(b, c).unwrap();
    forth.map_op(c, a).unwrap();
    on.map_op(b, b).unwrap();
    on.map_op(c, b).unwrap();
    let both = forth.then(&on).unwrap();
    assert_eq!((written(&both).as_str(), both.inverse()), ("o0>1 o1>1", None));
    assert_eq!(written(&on.then(&forth).unwrap()), "o1>2 o2>2");
    assert_eq!(written(&forth.then(&filed(&store, a, a)).unwrap()), "o2>0");
}

#[test]
fn an_empty_one() {
    let (store, [a, b]) = plain([1, 1]);
    let (empty, mapping) = (Mapping::new(), filed(&store, a, b));
    assert_eq!((empty.entries().count(), empty.inverse()), (0, Some(Mapping::new())));
    for both in [empty.then(&empty), empty.then(&mapping), mapping.then(&empty)] {
        assert!(both.as_ref().unwrap().is_empty());
        clears(both.unwrap());
    }
}

/// What is made is lent as any mapping is: a comparison uses and adds entries as on the same words.
#[test]
fn lent_to_a_comparison() {
    let mut store = Store::new();
    let [a, b, c] = pages(&mut store);
    let users = [a, b].map(|page| {
        let new = NewOperation { kind: 9, operands: &[page.values[1]], ..Default::default() };
        store.new_operation(&new).unwrap()
    });
    let forth = filed(&store, a.ops[0], b.ops[0]);
    let made = [forth.inverse().unwrap(), filed(&store, b.ops[0], c.ops[0]).then(&filed(&store, c.ops[0], a.ops[0])).unwrap()];
    for mut mapping in made {
        let mut words = mapping.words().to_vec();
        let answer = operation_eq(&store, &mut mapping, users[1], users[0], &Ignore::NOTHING).unwrap();
        let numbers = (users[1].number(), users[0].number());
        let lent = lent::operation_eq(store.words(), &[], &mut words, numbers.0, numbers.1, &Ignore::NOTHING).unwrap();
        assert_eq!((answer, lent), (EqResult::Eq { paired: 1 }, EqResult::Eq { paired: 1 }));
        assert!(mapping.words() == words);
        assert_eq!(written(&mapping), "v2>0 v3>1 b1>0 o2>0 o3>1 o7>6");
        clears(mapping);
    }
}

#[test]
fn from_words() {
    let mut store = Store::new();
    let [a, b] = pages(&mut store);
    let mapping = filed(&store, a.ops[0], b.ops[0]);
    let read = Mapping::from_words(&store, mapping.words()).unwrap();
    assert_eq!((&read, read.inverse()), (&mapping, mapping.inverse()));
    assert_eq!(read.then(&mapping.inverse().unwrap()), Ok(filed(&store, a.ops[0], a.ops[0])));
    clears(read.inverse().unwrap());
    let mut words = no_entries();
    (words[0], words[1]) = (3, 3);
    assert_eq!(Mapping::from_words(&store, words).unwrap().inverse(), None);
}

/// The first and the last of each sort.
#[test]
fn a_full_store() {
    let mut store = Store::new();
    for n in 0..512 {
        let regions = if n < 32 { 8 } else { 0 };
        store.new_operation(&NewOperation { regions, result_types: &[3; 4], ..Default::default() }).unwrap();
    }
    for n in 0..256 {
        store.new_block(store.region_id(n).unwrap(), 0, &[]).unwrap();
    }
    let mut mapping = Mapping::new();
    for (l, r) in [(0, 2047), (2047, 1), (1, 0)] {
        mapping.map_value(store.value_id(l).unwrap(), store.value_id(r).unwrap()).unwrap();
    }
    for (l, r) in [(0, 255), (255, 0)] {
        mapping.map_block(store.block_id(l).unwrap(), store.block_id(r).unwrap()).unwrap();
    }
    for (l, r) in [(0, 511), (511, 0)] {
        mapping.map_op(store.op_id(l).unwrap(), store.op_id(r).unwrap()).unwrap();
    }
    let inverse = mapping.inverse().unwrap();
    assert_eq!(written(&inverse), "v0>1 v1>2047 v2047>0 b0>255 b255>0 o0>511 o511>0");
    assert_eq!(written(&mapping.then(&mapping).unwrap()), "v0>1 v1>2047 v2047>0 b0>0 b255>255 o0>0 o511>511");
    clears(mapping.then(&inverse).unwrap());
    clears(inverse);
}

/// Mappings are the same where their entries are, however they were made.
#[test]
fn the_same_entries() {
    let (store, [a, b]) = plain([1, 1]);
    let (mapping, mut by_hand) = (filed(&store, a, b), Mapping::new());
    by_hand.map_value(result(&store, a), result(&store, b)).unwrap();
    assert_ne!(mapping, by_hand);
    by_hand.map_op(a, b).unwrap();
    assert_eq!(mapping, by_hand);
    by_hand.map_op(a, a).unwrap();
    assert_ne!(mapping, by_hand);
    let (other, [l, r]) = plain([1, 1]);
    let others = filed(&other, l, r);
    assert_eq!(mapping.words(), others.words());
    assert_ne!(mapping, others, "of two stores");
    assert_eq!(Mapping::new(), Mapping::default());
}
