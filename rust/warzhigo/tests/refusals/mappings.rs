//! Cause 8: a mapping of wrong length, or with an entry that isn't allowed.

use warzhigo::{Ignore, Mapping, Refused};

use crate::common::offered::{SORTS, comparison_refused};
use crate::common::question::{Question, no_entries};
use crate::stores::small;

/// Asserts that a mapping is refused by 8 beside the small store, whichever way it is lent.
fn mapping_refused(mapping: &[u32]) {
    let store = small();
    let context = format!("{} words", mapping.len());
    for sort in SORTS {
        comparison_refused(store.words(), mapping, sort, 8, &context);
    }
    assert_eq!(Mapping::from_words(&store, mapping).err().map(Refused::number), Some(8), "{context}");
}

#[test]
fn cause_8_wrong_length() {
    let good = no_entries();
    let longer = [good.as_slice(), &[u32::MAX]].concat();
    for mapping in [&[], &good[1..], &good[..1], &longer] {
        mapping_refused(mapping);
    }
    assert!(Mapping::from_words(&small(), good).is_ok());
}

/// Of values (2), blocks (1) and operations (2): a number that isn't there, an image that isn't there, and the last that are.
#[test]
fn cause_8_entries() {
    for (base, count, all) in [(0, 2, 2048), (2048, 1, 256), (2304, 2, 512)] {
        for (left, image) in [(count, 0), (all - 1, 0), (0, count), (0, u32::MAX - 1), (count, count)] {
            let mut mapping = no_entries();
            mapping[base + left as usize] = image;
            mapping_refused(&mapping);
        }
        let mut mapping = no_entries();
        mapping[base + count as usize - 1] = count - 1;
        let store = small();
        assert!(Mapping::from_words(&store, mapping.as_slice()).is_ok());
        for sort in SORTS {
            let question = Question { sort, lhs: 0, rhs: 0, ignore: Ignore::NOTHING };
            assert!(question.lent(store.words(), &mut mapping.clone()).is_ok(), "{question:?}");
        }
    }
}

#[test]
fn cause_8_entries_of_another_store() {
    let (store, other) = (small(), small());
    let (own, foreign) = (store.value_id(0).unwrap(), other.value_id(1).unwrap());
    let mut mapping = Mapping::new();
    for (from, to) in [(own, foreign), (foreign, own)] {
        assert_eq!(mapping.map_value(from, to).map_err(Refused::number), Err(8));
    }
    assert!(mapping.is_empty());
    assert!(mapping.map_value(own, own).is_ok());
    let before = mapping.words().to_vec();
    assert_eq!(mapping.map_value(foreign, foreign).map_err(Refused::number), Err(8));
    for sort in SORTS {
        let question = Question { sort, lhs: 0, rhs: 0, ignore: Ignore::NOTHING };
        assert_eq!(question.inner(&other, &mut mapping).map_err(Refused::number), Err(8), "{question:?}");
    }
    assert!(mapping.words() == before);
    mapping.clear();
    assert!(mapping.map_value(foreign, foreign).is_ok(), "a cleared mapping is good for any store");
}
