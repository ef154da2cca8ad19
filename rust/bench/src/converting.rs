//! `convert` on whole listings, both ways, beside a plain converter in Rust.

mod plain;

use std::hint::black_box;

use warzhigo::lent;

use crate::listings::{self, Listing};
use crate::programs::Program;
use crate::race::{Effort, Runner, Series, race, runner};

/// A listing in both editions.
pub struct Both {
    name: &'static str,
    first: String,
    second: String,
}

/// A listing, measured.
pub struct Row {
    pub name: &'static str,
    pub to_first: Program,
    pub to_second: Program,
}

/// Both ways on two sides.
pub type Conversions = Series<Both, 4>;

pub fn all(effort: Effort) -> Conversions {
    let listings = listings::all().into_iter().map(Both::new).collect();
    Series::new("conversions", listings, effort, |both, effort| race(both.runners(), effort))
}

pub fn rows(conversions: Conversions) -> Vec<Row> {
    let rows = conversions.rows().map(|(both, [a, b, c, d])| Row {
        name: both.name,
        to_first: Program { ours: a, other: b },
        to_second: Program { ours: c, other: d },
    });
    rows.collect()
}

impl Both {
    /// Both converters write the same, both ways.
    fn new(listing: Listing) -> Both {
        let Listing { name, text: second, .. } = listing;
        let first = converted(name, &second);
        assert!(first.starts_with("opstore,1\n"), "{name}: {first}");
        assert!(converted(name, &first) == second, "{name}: there and back is not the listing");
        Both { name, first, second }
    }

    /// To edition 1, ours and the plain one; then to edition 2.
    fn runners(&self) -> [Runner<'_>; 4] {
        let [first, second] = [&self.first, &self.second].map(String::as_bytes);
        [ours(second), plain(second), ours(first), plain(first)]
    }
}

fn converted(name: &str, listing: &str) -> String {
    let (ours, mut plain) = (warzhigo::convert(listing.as_bytes()), Vec::new());
    plain::convert(listing.as_bytes(), &mut plain);
    assert!(ours == plain, "{name}: the converters write different bytes");
    String::from_utf8(ours).expect("text")
}

/// The library's, in lent bytes that are used again and again.
fn ours(listing: &[u8]) -> Runner<'_> {
    let mut out = vec![0; lent::converted_bytes()];
    runner(move || {
        black_box(lent::convert(black_box(listing), &mut out));
    })
}

fn plain(listing: &[u8]) -> Runner<'_> {
    let mut out = Vec::new();
    runner(move || {
        plain::convert(black_box(listing), &mut out);
        black_box(&out);
    })
}
