//! Causes 9, 10 and 11, and a refused call of a line: what `twins` and `sums` print, in both editions.

use warzhigo::lent::{self, Listed};
use warzhigo::{sums, twins};

const HEADER_1: &str = "opstore,1\n";
const HEADER: &str = "opstore,2\n";

/// Asserts that both programs print only that this line is refused by this cause.
fn refused(listing: &str, line: usize, cause: u32) {
    let expected = format!("refused,{line},{cause}\n");
    for (program, name) in [(twins as fn(&[u8]) -> Vec<u8>, "twins"), (sums, "sums")] {
        let printed = program(listing.as_bytes());
        assert_eq!(String::from_utf8_lossy(&printed), expected, "{name} of {:?}", &listing[..listing.len().min(99)]);
    }
}

/// Asserts that `twins` prints no refusal.
fn accepted(listing: &str) {
    let printed = String::from_utf8(twins(listing.as_bytes())).unwrap();
    assert!(!printed.contains("refused"), "{listing:?}: {printed}");
}

/// Line 4, behind the header, an operation with a result, and one with a region and an operand.
fn fourth_in(header: &str, line: &str) -> String {
    format!("{header}o,7,-,5,0,1,3,0,0\no,7,-,5,1,0,1,0,0\n{line}\n")
}

fn fourth(line: &str) -> String {
    fourth_in(HEADER, line)
}

#[test]
fn cause_9_header() {
    let others = ["opstore,3\n", "opstore,0\n", "opstore,12\n", "opstore,02\n", "opstore,\n", "opstore\n", "Opstore,2\n", "\n", ""];
    let more =
        ["opstore,1 \n", " opstore,1\n", "opstore,1,\n", "opstore,1\r\n", "opstore,2 \n", " opstore,2\n", "opstore,2,\n", "opstore,2\r\n"];
    for first in others.into_iter().chain(more) {
        refused(first, 1, 9);
    }
    for header in [HEADER_1, HEADER] {
        refused(&format!("q,o,0,0,0,0\n{header}"), 1, 9);
        refused(&format!("{header}{HEADER_1}"), 2, 10);
        refused(&format!("{header}{HEADER}"), 2, 10);
        assert_eq!(twins(header.as_bytes()), b"share,0\n");
        assert_eq!(sums(header.as_bytes()), b"");
    }
}

#[test]
fn cause_10_letters_and_fields() {
    let unknown = ["", "x", "O,7,-,5,0,0,0,0", " o,7,-,5,0,0,0,0", "q,v,0,0,0,0", "a,r,0,1,1,1", "I,o,0,1,1,1", ","];
    let missing = ["o", "o,7,-,5,0,0,0", "o,7,-,5,0,2,1,0,0", "a,o,0,1,1", "s,1,0", "q,o,0,0,1"];
    let extra = ["o,7,-,5,0,0,0,0,0", "o,7,-,5,0,0,0,0,", "a,o,0,1,1,1,1", "s,1,0,0,0", "q,o,0,0,1,0,0"];
    let good = ["o,7,-,5,0,0,0,0", "o,7,-,5,0,2,1,0,0,0", "a,o,0,1,1,1", "s,1,0,0", "q,o,0,0,1,0"];
    for header in [HEADER_1, HEADER] {
        unknown.iter().chain(&missing).chain(&extra).for_each(|line| refused(&fourth_in(header, line), 4, 10));
        good.iter().for_each(|line| accepted(&fourth_in(header, line)));
    }
}

/// Fields of a `b` line that are missing or extra by the edition, and the letter of edition 2.
#[test]
fn cause_10_by_edition() {
    for line in ["b", "b,0,5,0", "b,0,0,5", "b,0,0,5,1", "b,0,0,5,0,1", "b,0,0,5,0,", "i,o,0,1,1,1", "i,b,9,1,64,1", "i"] {
        refused(&fourth_in(HEADER_1, line), 4, 10);
    }
    for line in ["b", "b,0,0,5,0", "b,0,5", "b,0,5,1", "b,0,5,0,1", "b,0,5,0,", "i,o,0,1,1", "i,o,0,1,1,1,1", "i,r,0,1,1,1", "i"] {
        refused(&fourth_in(HEADER, line), 4, 10);
    }
    for line in ["b,0,0,5,0", "b,0,0,5,1,1"] {
        accepted(&fourth_in(HEADER_1, line));
    }
    for line in ["b,0,5,0", "b,0,5,1,1", "i,o,0,1,1,1"] {
        accepted(&fourth_in(HEADER, line));
    }
}

/// A line that is good in both editions: without arguments in edition 1, and with one, value 1, in edition 2.
#[test]
fn the_header_says_the_edition_of_every_line() {
    let line = "b,0,9,1,0\ns,1,0,1";
    refused(&fourth_in(HEADER_1, line), 5, 2);
    accepted(&fourth_in(HEADER, line));
}

/// A label of edition 1 is a number within 32 bits, and makes no difference.
#[test]
fn labels_of_edition_1() {
    for bad in ["4294967296", "07", "00", "+7", "-7", "-", "", "7 ", "seven"] {
        refused(&fourth_in(HEADER_1, &format!("b,0,{bad},5,0")), 4, 10);
    }
    let questions = "q,b,0,0,0,0\nq,r,0,0,0,0";
    let without = fourth(&format!("b,0,5,1,3\n{questions}"));
    for good in ["0", "7", "4294967295"] {
        let labelled = fourth_in(HEADER_1, &format!("b,0,{good},5,1,3\n{questions}"));
        assert_eq!(twins(labelled.as_bytes()), b"eq,-,-,1\neq,-,-,1\nshare,0\n", "{good}");
        assert_eq!(sums(labelled.as_bytes()), sums(without.as_bytes()), "{good}");
    }
}

#[test]
fn cause_10_numbers() {
    for bad in ["4294967296", "99999999999999999999", "07", "00", "+7", "-7", "", "7 ", "0x7", "-", "7.0", "seven"] {
        refused(&fourth(&format!("o,{bad},-,5,0,0,0,0")), 4, 10);
        refused(&fourth(&format!("b,0,{bad},0")), 4, 10);
        refused(&fourth(&format!("i,o,0,1,1,{bad}")), 4, 10);
    }
    for good in ["0", "7", "4294967295"] {
        accepted(&fourth(&format!("o,{good},-,5,0,0,0,0")));
        accepted(&fourth(&format!("b,0,{good},0")));
        accepted(&fourth(&format!("i,o,0,1,1,{good}")));
    }
    for (locations, bits) in [("2", "0"), ("-", "0"), ("01", "0"), ("0", "18446744073709551616"), ("0", "-1"), ("0", "00")] {
        refused(&fourth(&format!("q,o,0,0,{locations},{bits}")), 4, 10);
    }
    for (locations, bits) in [("0", "0"), ("1", "18446744073709551615")] {
        accepted(&fourth(&format!("q,o,0,0,{locations},{bits}")));
    }
}

/// Bad lines of 512 bytes are refused for what they say, and of 513 for their length.
#[test]
fn cause_11_lines() {
    refused(&fourth(&"x".repeat(512)), 4, 10);
    refused(&fourth(&"x".repeat(513)), 4, 11);
    refused(&format!("{}\n", "x".repeat(512)), 1, 9);
    refused(&format!("{}\n", "x".repeat(513)), 1, 11);
}

#[test]
fn cause_11_no_last_line_feed() {
    refused("opstore,1", 1, 11);
    refused("opstore,2", 1, 11);
    refused("o", 1, 11);
    refused(fourth("o,7,-,5,0,0,0,0").trim_end(), 4, 11);
    refused(fourth("x").trim_end(), 4, 11);
    refused("opstore,3\nx", 1, 9);
}

/// A good listing of so many bytes: an operation whose one attribute is set again and again.
fn long(bytes: usize) -> String {
    let mut listing = format!("{HEADER}o,7,-,5,0,0,0,0\n");
    let short = "a,o,0,1,1,1\n";
    while listing.len() + 2 * short.len() <= bytes {
        listing += short;
    }
    let digits = bytes - listing.len() - "a,o,0,1,,1\n".len();
    format!("{listing}a,o,0,1,1,{}\n", "1".repeat(digits))
}

#[test]
fn cause_11_listing() {
    let longest = long(65_536);
    assert_eq!(longest.len(), 65_536);
    assert_eq!(twins(longest.as_bytes()), b"share,0\n");
    assert_eq!(sums(longest.as_bytes()), b"");
    assert_eq!(long(65_537).len(), 65_537);
    refused(&long(65_537), 1, 11);
    refused(&"x".repeat(65_537), 1, 11);
}

#[test]
fn calls_of_lines() {
    for (line, cause) in [
        ("b,1,5,0", 2),
        ("o,7,0,5,0,0,0,0", 2),
        ("o,7,-,5,0,0,1,9,0", 2),
        ("a,o,9,1,1,1", 2),
        ("s,1,0,1", 2),
        ("q,o,0,2,0,0", 2),
        ("q,r,1,0,0,0", 2),
        ("o,7,-,5,0,17,0,0,0,0,0,0,0,0,0,0,0,0,0,0,0,0,0,0,0", 4),
        ("o,7,-,5,9,0,0,0", 4),
        ("a,o,0,1,64,1", 6),
        ("a,o,9,1,64,1", 6),
        ("i,o,9,1,1,1", 2),
        ("i,b,0,1,1,1", 2),
        ("i,o,0,1,64,1", 6),
        ("s,1,1,0", 7),
        ("a,o,0,1,64,1,1", 10),
    ] {
        refused(&fourth(line), 4, cause);
    }
    refused(&fourth_in(HEADER_1, "b,1,0,5,0"), 4, 2);
}

/// A key is one key, whether it is set by `a` or by `i`.
#[test]
fn eight_keys_by_both_letters() {
    let line = |letter: &str, key: u32| format!("{letter},o,0,{key},1,1\n");
    let eight: String = (0..8).map(|key| line(if key % 2 == 0 { "a" } else { "i" }, key)).collect();
    let listing = fourth(&eight).trim_end().to_string();
    for letter in ["a", "i"] {
        accepted(&format!("{listing}\n{}{}", line(letter, 0), line(letter, 1)));
        refused(&format!("{listing}\n{}", line(letter, 8)), 12, 4);
    }
}

#[test]
fn lines_of_a_full_listing() {
    let inside = |n: u32| format!("o,7,{},5,1,0,0,0\nb,{},5,0\n", n - 1, n);
    let nested = format!("{HEADER}o,7,-,5,1,0,0,0\nb,0,5,0\n{}", (1..=32).map(inside).collect::<String>());
    accepted(&nested);
    refused(&format!("{nested}{}", inside(33)), 68, 5);
    let operations = format!("{HEADER}{}", "o,7,-,5,0,0,0,0\n".repeat(512));
    accepted(&operations);
    refused(&format!("{operations}o,7,-,5,0,0,0,0\n"), 514, 3);
}

/// What was printed before stands, no share follows, and later lines aren't read.
#[test]
fn printed_before() {
    let listing = fourth("q,o,0,0,0,0\nq,o,9,0,0,0\nx");
    assert_eq!(twins(listing.as_bytes()), b"eq,-,-,1\nrefused,5,2\n");
    let printed = String::from_utf8(sums(listing.as_bytes())).unwrap();
    let lines: Vec<&str> = printed.lines().collect();
    let (left, right) = lines[0].split_once(',').unwrap();
    assert_eq!((left.len(), left), (16, right));
    assert_eq!(lines[1..], ["refused,5,2"]);
}

/// Store and mapping of wrong length, and too little room: then nothing is changed.
#[test]
fn lent_buffers() {
    let (words, entries, room) = (lent::store_words(), lent::mapping_words(), lent::output_bytes());
    let listing = HEADER.as_bytes();
    for (words, entries, room, expected) in [
        (words - 1, entries, room, Err(Some(1))),
        (words + 1, entries, room, Err(Some(1))),
        (0, 0, room, Err(Some(1))),
        (words, entries - 1, room, Err(Some(8))),
        (words, entries + 1, room, Err(Some(8))),
        (words, entries, room - 1, Err(None)),
        (words, entries, room, Ok(8)),
        (words, entries, room + 1, Ok(8)),
    ] {
        let (mut store, mut mapping, mut out) = (vec![9; words], vec![9; entries], vec![9; room]);
        let answer = match lent::twins(listing, &mut store, &mut mapping, &mut out) {
            Listed::Printed(bytes) => Ok(bytes),
            Listed::Refused(refused) => Err(Some(refused.number())),
            Listed::NoRoom => Err(None),
        };
        assert_eq!(answer, expected, "{words} words, {entries} entries, room for {room}");
        let same = [&store, &mapping].iter().all(|words| words.iter().all(|word| *word == 9)) && out.iter().all(|byte| *byte == 9);
        assert_eq!(same, expected.is_err(), "{words} words, {entries} entries, room for {room}");
    }
}

/// Where the first line is refused, store and mapping are as they were; where a later one is, the store holds what was built before.
#[test]
fn store_after_a_refused_line() {
    for (listing, same) in [
        ("", true),
        ("opstore,3\n", true),
        ("opstore,2", true),
        ("opstore,1\no,7,-,5,0,0,0,0\ni\n", false),
        ("opstore,2\no,7,-,5,0,0,0,0\nx\n", false),
    ] {
        let (mut store, mut mapping) = (vec![9; lent::store_words()], vec![9; lent::mapping_words()]);
        let mut out = vec![0; lent::output_bytes()];
        let answer = lent::twins(listing.as_bytes(), &mut store, &mut mapping, &mut out);
        assert!(matches!(answer, Listed::Printed(_)), "{listing:?}: {answer:?}");
        assert_eq!(store.iter().chain(&mapping).all(|word| *word == 9), same, "{listing:?}");
        assert_eq!(lent::is_sound(&store), !same, "{listing:?}");
        assert_eq!(mapping.iter().all(|image| *image == u32::MAX), !same, "{listing:?}");
        assert_eq!(store[0], if same { 9 } else { 1 }, "{listing:?}: operations");
    }
}
