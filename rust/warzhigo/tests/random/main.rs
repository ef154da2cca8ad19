//! Stores, comparisons and their mappings, hashes, keys, lists of renamed types, repeated runs and copies at random: ours, pliron's own text,
//! and the models beside them.
//!
//! Seeds are numbers from 0 on, one for each store. `WARZHIGO_STORES` makes more stores than usual, and `WARZHIGO_FIRST` begins with
//! another seed than 0.

#[path = "../common/mod.rs"]
mod common;

mod comparing;
mod copying;
mod counts;
mod documents;
mod laws;
mod renaming;
mod running;
mod trial;

use std::env;

use counts::Counts;
use trial::Trial;
use warzhigo::Mapping;

/// How many stores are made at least.
const STORES: u64 = 2500;

fn number_in(name: &str) -> u64 {
    env::var(name).ok().map_or(0, |text| text.parse().expect("a number in the variable"))
}

#[test]
fn stores_comparisons_hashes_and_keys() {
    let (first, stores) = (number_in("WARZHIGO_FIRST"), number_in("WARZHIGO_STORES").max(STORES));
    let mut counts = Counts::default();
    // One mapping for all: after `clear` it is good for any store.
    let mut mapping = Mapping::new();
    for seed in first..first + stores {
        let mut trial = Trial::built(seed, &mut counts);
        for _ in 0..6 {
            trial.comparisons(&mut mapping, &mut counts);
            trial.laws(&mut mapping, &mut counts);
            trial.renamed(&mut mapping, &mut counts);
        }
        trial.shelf(&mut counts);
        (0..2).for_each(|_| trial.document(&mut counts));
        trial.copies(&mut mapping, &mut counts);
        running::runs(seed, &mut counts);
    }
    println!("{counts:#?}");
    counts.often_enough();
}
