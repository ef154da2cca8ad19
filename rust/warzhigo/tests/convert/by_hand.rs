//! Listings by hand, and what is printed for them: by the converter and by its model.

use warzhigo::{convert, sums, twins};

use crate::common::converter_model::{self as model, Edition};
use crate::damage::long_line;
use crate::start;

const NEWER: &str = include_str!("../../../../examples/ring_pages/listing");
const OLDER: &str = include_str!("../../../../examples/ring_pages/edition_1");

/// Asserts what is printed.
fn prints(listing: &str, expected: &str) {
    let printed = [convert(listing.as_bytes()), model::printed(&model::converted(listing.as_bytes()))];
    for (printed, whose) in printed.iter().zip(["ours", "the model's"]) {
        assert!(printed == expected.as_bytes(), "{whose} of {:?}: {:?}", start(listing.as_bytes()), start(printed));
    }
}

fn refused(listing: &str, line: usize, cause: u32) {
    prints(listing, &format!("refused,{line},{cause}\n"));
}

/// Asserts that the second listing is what the first is converted to.
fn converted(lines: [&str; 2], editions: [Edition; 2]) {
    let [read, written] = [0, 1].map(|side| format!("{}\n{}", editions[side].header(), lines[side]));
    prints(&read, &written);
}

fn from_1(read: &str, written: &str) {
    converted([read, written], [Edition::First, Edition::Second]);
}

fn from_2(read: &str, written: &str) {
    converted([read, written], [Edition::Second, Edition::First]);
}

#[test]
fn the_ring_pages() {
    prints(OLDER, NEWER);
    prints(NEWER, OLDER);
    assert!(twins(OLDER.as_bytes()) == twins(NEWER.as_bytes()) && sums(OLDER.as_bytes()) == sums(NEWER.as_bytes()));
}

#[test]
fn labels_go_and_come_as_0() {
    from_1("b,3,4294967295,5,1,3\nb,3,0,5,0\n", "b,3,5,1,3\nb,3,5,0\n");
    from_2("b,3,5,1,3\nb,3,5,0\n", "b,3,0,5,1,3\nb,3,0,5,0\n");
    from_1("", "");
    from_2("", "");
}

#[test]
fn labels_that_are_no_numbers() {
    for label in ["4294967296", "01", "", "-", "x", "1 "] {
        refused(&format!("opstore,1\nb,3,{label},5,0\n"), 2, 10);
    }
    refused("opstore,1\nb,3,5,0\n", 2, 10);
    refused("opstore,2\nb,3,0,5,0\n", 2, 10);
}

/// Nothing but `b` lines changes, whatever a call would give.
#[test]
fn other_lines_are_copied() {
    let operation = format!("o,4294967295,9,7,99,17{},0,0", ",3".repeat(17));
    let lines = format!("{operation}\na,o,9,1,64,2\na,b,9,1,0,2\ns,7,8,9\nq,r,5,6,1,18446744073709551615\n");
    from_1(&lines, &lines);
    from_2(&lines, &lines);
}

#[test]
fn headers() {
    for listing in ["", "\n", "opstore,3\n", "opstore,2,\n", "opstore,2 \n", "opstore,1\r\n", "b,3,5,0\nopstore,2\n"] {
        refused(listing, 1, 9);
    }
    for listing in ["opstore,1", "opstore,2", "opstore,3", "x"] {
        refused(listing, 1, 11);
    }
    refused(&format!("{}\n", "x".repeat(512)), 1, 9);
    refused(&format!("{}\n", "x".repeat(513)), 1, 11);
}

/// The lines before the last are tested first, and the last one's line feed before its fields.
#[test]
fn no_last_line_feed() {
    refused("opstore,2\nb,3,5,0\nb,3,5,0", 3, 11);
    refused("opstore,2\nb,3,5,0\nx", 3, 11);
    refused("opstore,2\nb,3\nb,3,5,0", 2, 10);
    refused("opstore,2\ni,o,0,1,5,2\nb,3,5,0", 2, 20);
    refused("opstore,3\nb,3,5,0", 1, 9);
}

#[test]
fn inherent_attributes() {
    refused("opstore,1\ni,o,0,1,5,2\n", 2, 10);
    refused("opstore,2\na,o,0,1,5,2\ni,o,0,1,5,2\nx\n", 3, 20);
    refused("opstore,2\nx\ni,o,0,1,5,2\n", 2, 10);
    refused("opstore,2\ni,b,9,1,64,2\ni,o,0,1,5,2\n", 2, 20);
    for line in ["i", "i,o,0,1,5", "i,o,0,1,5,2,3", "i,r,0,1,5,2", "i,o,0,1,5,4294967296"] {
        refused(&format!("opstore,2\n{line}\n"), 2, 10);
    }
}

/// A block's line of edition 2 must have room for a label.
#[test]
fn long_lines() {
    for (bytes, cause) in [(510, None), (511, Some(11)), (512, Some(11)), (513, Some(11))] {
        let line = long_line('b', Edition::Second, bytes);
        match cause {
            None => from_2(&line, &line.replacen("b,0,", "b,0,0,", 1)),
            Some(cause) => refused(&format!("opstore,2\nb,3,5,0\n{line}"), 3, cause),
        }
    }
    for letter in ['b', 'o'] {
        let [longest, longer] = [512, 513].map(|bytes| long_line(letter, Edition::First, bytes));
        from_1(&longest, &longest.replacen("b,0,7,", "b,0,", 1));
        refused(&format!("opstore,1\n{longest}{longer}"), 3, 11);
    }
    let longest = long_line('o', Edition::Second, 512);
    from_2(&longest, &longest);
}

/// What only the converted text is too long for is refused after all that is wrong with the listing.
#[test]
fn a_long_converted_line_is_tested_last() {
    let [converted, read] = [511, 513].map(|bytes| format!("opstore,2\n{}", long_line('b', Edition::Second, bytes)));
    refused(&converted, 2, 11);
    for (behind, cause) in [("x\n", 10), ("i,o,0,1,5,2\n", 20), ("b,3,5,0", 11)] {
        refused(&format!("{converted}{behind}"), 3, cause);
        refused(&format!("{read}{behind}"), 2, 11);
    }
}

/// A listing of edition 2 with so many `b` lines, so many bytes in all.
fn whole(blocks: usize, bytes: usize) -> String {
    let mut listing = format!("opstore,2\n{}", "b,0,5,0\n".repeat(blocks));
    while listing.len() + 28 < bytes {
        listing += "s,0,0,0\n";
    }
    let digits = "1".repeat(bytes - listing.len() - "q,o,0,0,0,\n".len());
    listing += &format!("q,o,0,0,0,{digits}\n");
    assert_eq!(listing.len(), bytes);
    listing
}

#[test]
fn long_listings() {
    let older = |listing: &str| listing.replace("b,0,", "b,0,0,").replace("opstore,2", "opstore,1");
    for (blocks, bytes) in [(0, 65_536), (1, 65_534), (100, 65_336)] {
        let (longest, longer) = (whole(blocks, bytes), whole(blocks, bytes + 1));
        assert_eq!(older(&longest).len(), 65_536);
        prints(&longest, &older(&longest));
        prints(&older(&longest), &longest);
        refused(&longer, 1, 11);
        let behind = longer.lines().count() + 1;
        if blocks == 100 {
            for (line, cause) in [("x\n", 10), ("i,o,0,1,5,2\n", 20), ("x", 11)] {
                refused(&format!("{longer}{line}"), behind, cause);
            }
        }
    }
    refused(&"x".repeat(65_537), 1, 11);
}

/// The whole is tested before the lines.
#[test]
fn both_are_too_long() {
    let line = long_line('b', Edition::Second, 512);
    let with = |bytes: usize| format!("opstore,2\n{line}{}", &whole(100, bytes - line.len())["opstore,2\n".len()..]);
    refused(&with(65_335), 1, 11);
    refused(&with(65_334), 2, 11);
}
