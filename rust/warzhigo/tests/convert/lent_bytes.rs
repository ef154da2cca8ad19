//! The converter in lent bytes: what is printed stands in the first of them, and the others are as they were.

use warzhigo::lent::{self, Listed};

const FILLING: u8 = 0xee;

/// A listing that is converted, one of edition 2, two that are refused, and one without a byte.
const LISTINGS: [&str; 5] = ["opstore,1\nb,0,9,5,0\n", "opstore,2\nb,0,5,0\n", "opstore,2\nb,0,5,0\ni,o,0,2,5,9\n", "opstore,3\n", ""];

#[test]
fn the_first_bytes_are_written() {
    for listing in LISTINGS {
        let expected = warzhigo::convert(listing.as_bytes());
        for more in [0, 1, 1000] {
            let mut out = vec![FILLING; lent::converted_bytes() + more];
            assert_eq!(lent::convert(listing.as_bytes(), &mut out), Listed::Printed(expected.len()), "{listing:?}");
            let (printed, behind) = out.split_at(expected.len());
            assert_eq!(printed, expected, "{listing:?}");
            assert!(behind.iter().all(|byte| *byte == FILLING), "{listing:?}, {more} bytes more");
        }
    }
}

#[test]
fn too_little_room() {
    for listing in LISTINGS {
        for room in [0, 1, lent::converted_bytes() - 1] {
            let mut out = vec![FILLING; room];
            assert_eq!(lent::convert(listing.as_bytes(), &mut out), Listed::NoRoom, "{listing:?}, {room}");
            assert!(out.iter().all(|byte| *byte == FILLING), "{listing:?}, {room}");
        }
    }
}

#[test]
fn as_much_room_as_a_listing_takes() {
    assert_eq!(lent::converted_bytes(), 65_536);
}
