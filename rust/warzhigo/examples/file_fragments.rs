//! A form's operations filed on a shelf by their keys: equal ones stand in one place, and every run gives the same order. What stands in one
//! place is printed.
//!
//!     cargo run --offline --example file_fragments

mod form;

use std::collections::BTreeMap;

use warzhigo::{Ignore, OpId, Refused, Store, compare_keys, operation_key};

/// The operations that have a key, by keys in their order.
type Shelf = BTreeMap<Vec<u8>, Vec<OpId>>;

fn main() -> Result<(), Refused> {
    let mut store = Store::new();
    let [new, seen_again, foreign] = form::ring_form(&mut store)?;
    let shelf = filed(&store, &Ignore::LOCATIONS)?;
    for (place, (key, ops)) in shelf.iter().enumerate() {
        let kind = store.operation(ops[0])?.kind();
        println!("place {place}: operations {ops:?}, kind {kind}, a key of {} bytes", key.len());
    }
    // The first two pages are equal, and the third one isn't. A check names its page's field, which is outside of it, so each check has a
    // place of its own.
    let page = operation_key(&store, seen_again, &Ignore::LOCATIONS)?;
    assert_eq!(shelf[&page], [new, seen_again]);
    assert_eq!(shelf[&operation_key(&store, foreign, &Ignore::LOCATIONS)?], [foreign]);
    assert_eq!(shelf.values().map(Vec::len).collect::<Vec<_>>(), [1, 1, 2, 3, 1, 1, 1]);
    // The order of the map is the order of keys.
    assert!(shelf.keys().zip(shelf.keys().skip(1)).all(|(l, r)| compare_keys(l, r).is_lt()));
    Ok(())
}

/// All operations of a store, by their keys, for each of which exactly as many bytes are reserved as it has.
fn filed(store: &Store, ignore: &Ignore) -> Result<Shelf, Refused> {
    let mut shelf = Shelf::new();
    for op in store.operations().map(|op| op.id()) {
        let mut key = vec![0; store.extent(op, ignore)?.bytes];
        assert_eq!(store.key_into(op, ignore, &mut key)?, key.len());
        shelf.entry(key).or_default().push(op);
    }
    Ok(shelf)
}
