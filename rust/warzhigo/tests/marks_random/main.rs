//! Lists of calls with marks at random, refused ones among them: in a store, on lent words and by the model that keeps whole copies. After
//! each call they agree on its answer and on all that is there; ids and mappings are good exactly while what they name is there.
//!
//! Seeds are numbers from 0 on, one for each list. `WARZHIGO_STORES` makes more lists than usual, and `WARZHIGO_FIRST` begins with another
//! seed than 0.

#[path = "../common/mod.rs"]
mod common;

mod anew;
mod counts;
mod draw;
mod kept;
mod mappings;
mod program;
mod trial;

use std::env;

use counts::Counts;
use trial::Trial;

/// How many lists are made at least.
const LISTS: u64 = 2500;

/// Every so many lists one is read by the program `calls` too.
const BY_PROGRAM: u64 = 25;

fn number_in(name: &str) -> u64 {
    env::var(name).ok().map_or(0, |text| text.parse().expect("a number in the variable"))
}

#[test]
fn lists_of_calls() {
    let (first, lists) = (number_in("WARZHIGO_FIRST"), number_in("WARZHIGO_STORES").max(LISTS));
    let mut counts = Counts::default();
    for seed in first..first + lists {
        let trial = Trial::run(seed, &mut counts);
        if seed % BY_PROGRAM == 0 {
            program::answers(&trial);
            counts.by_program += 1;
        }
    }
    println!("{counts:#?}");
    counts.often_enough();
}
