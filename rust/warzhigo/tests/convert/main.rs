//! The converter beside its model, which reads the rules anew: by hand, and on listings of both editions at random, good and damaged. Of each
//! one that is converted, the laws: both programs print the same for it, and there and back nothing but labels has changed.
//!
//! Seeds are numbers from 0 on, one for each listing.

#[path = "../common/mod.rs"]
mod common;

mod by_hand;
mod counts;
mod damage;
mod drawn;
mod laws;
mod lent_bytes;

use common::converter_model as model;
use counts::Counts;
use damage::Damage;
use drawn::Drawn;

/// How many listings are drawn, and how often each is damaged.
const LISTINGS: u64 = 1200;
const DAMAGES: u32 = 3;

/// Asserts that a listing is converted as the model says, and that the laws hold of it.
fn agrees(listing: &[u8], counts: &mut Counts, context: &str) {
    let (ours, expected) = (warzhigo::convert(listing), model::converted(listing));
    let models = model::printed(&expected);
    assert!(ours == models, "{context}: {:?}, and by the model {:?}", start(&ours), start(&models));
    counts.met(listing, &expected);
    if expected.is_ok() {
        laws::hold(listing, &ours, counts, context);
    }
}

/// What a text begins with.
fn start(text: &[u8]) -> String {
    String::from_utf8_lossy(&text[..text.len().min(99)]).into_owned()
}

#[test]
fn listings_at_random() {
    let mut counts = Counts::default();
    for seed in 0..LISTINGS {
        let drawn = Drawn::new(seed);
        agrees(&drawn.text(), &mut counts, &format!("seed {seed}"));
        for n in 0..DAMAGES {
            let damaged = Damage::of(&drawn, seed, n);
            agrees(&damaged, &mut counts, &format!("seed {seed}, damage {n}"));
        }
    }
    println!("{counts:#?}");
    counts.often_enough();
}
