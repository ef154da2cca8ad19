//! Independence, and the twins of a store's operations: in stores made by hand, in random ones against a plain search, and what is refused.

#[path = "../common/mod.rs"]
mod common;

mod by_hand;
mod counts;
mod random;
mod refused;
mod stores;

use warzhigo::lent;
use warzhigo::{Ignore, Renamed, Store};

/// What stands in lent words before.
const LENT: u32 = 7;

/// Twins by number, in the same order as operations.
type Twins = Vec<Option<u32>>;

/// The twins of a store under a list of renamed types, which are the same by ids and on lent words.
fn twins_under(store: &Store, ignore: &Ignore, list: &[u32]) -> Twins {
    let types = Renamed::from_words(list).expect("a list that holds");
    let twins = store.twins_of_operations((ignore, &types)).expect("the twins of a sound store");
    let twins: Twins = twins.into_iter().map(|twin| twin.map(|op| op.number())).collect();
    for behind in [0, 1, 9] {
        let mut words = vec![LENT; twins.len() + behind];
        assert_eq!(lent::twins_of_operations(store.words(), list, ignore, &mut words), Ok(twins.len()), "{behind} words more");
        let written = twins.iter().map(|twin| twin.unwrap_or(u32::MAX));
        assert!(words.into_iter().eq(written.chain(vec![LENT; behind])), "{behind} words more");
    }
    twins
}

fn twins(store: &Store, ignore: &Ignore) -> Twins {
    twins_under(store, ignore, &[])
}
