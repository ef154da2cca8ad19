//! What holds of a listing and of the one that it is converted to.

use warzhigo::{convert, sums, twins};

use crate::common::converter_model::{Edition, LISTING};
use crate::counts::Counts;

pub fn hold(listing: &[u8], converted: &[u8], counts: &mut Counts, context: &str) {
    let [read, written] = [listing, converted].map(|text| Edition::of(text.split(|byte| *byte == b'\n').next().unwrap()));
    assert_eq!(written, read.map(Edition::other), "{context}: the other edition");
    assert!(converted.len() <= LISTING, "{context}: the converted listing has {} bytes", converted.len());
    same_output(listing, converted, counts, context);
    let back = convert(converted);
    match read {
        Some(Edition::First) => {
            let zeroed = labels_zeroed(listing);
            assert!(back == zeroed, "{context}: there and back is not the listing with labels 0");
            counts.labels += (back != listing) as u64;
            assert!(convert(&back) == converted, "{context}: the listing with labels 0 is converted likewise");
        }
        _ => assert!(back == listing, "{context}: there and back is not the listing"),
    }
}

/// Both programs print the same, where they refuse a line too.
fn same_output(listing: &[u8], converted: &[u8], counts: &mut Counts, context: &str) {
    for (program, name) in [(twins as fn(&[u8]) -> Vec<u8>, "twins"), (sums, "sums")] {
        let [before, after] = [listing, converted].map(|text| String::from_utf8(program(text)).unwrap());
        assert_eq!(before, after, "{context}: {name}");
        counts.printed(&before);
    }
}

/// The listing with a third field 0 in each `b` line, and all other bytes as they are.
fn labels_zeroed(listing: &[u8]) -> Vec<u8> {
    let text = std::str::from_utf8(listing).unwrap();
    let mut zeroed = String::new();
    for line in text.split_inclusive('\n') {
        match line.strip_prefix("b,").and_then(|rest| rest.split_once(',')) {
            Some((region, rest)) => zeroed += &format!("b,{region},0,{}", rest.split_once(',').unwrap().1),
            None => zeroed += line,
        }
    }
    zeroed.into_bytes()
}
