//! Cause 1: words of wrong length, or not sound.

use warzhigo::{Store, lent};

use crate::common::layout::LIMITS;
use crate::common::offered::all_refuse;
use crate::common::question::no_entries;
use crate::stores::small;

#[test]
fn cause_1_wrong_length() {
    let good = small().into_words();
    let longer = [&good, [0].as_slice()].concat();
    for words in [&[], &good[..1], &good[..good.len() - 1], &good[1..], &longer] {
        all_refuse(words, &no_entries(), &format!("{} words", words.len()));
    }
    assert!(lent::is_sound(&good));
    assert!(Store::from_words(good).is_ok());
}

#[test]
fn cause_1_damaged_counts() {
    let good = small().into_words();
    for (place, limit) in LIMITS.into_iter().enumerate() {
        for count in [limit + 1, u32::MAX, good[place] + 1, good[place] - 1] {
            let mut words = good.to_vec();
            words[place] = count;
            all_refuse(&words, &no_entries(), &format!("count {place} is {count}"));
        }
    }
}
