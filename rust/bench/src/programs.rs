//! `twins` and `sums` on whole listings, measured beside the same in Rust over pliron's own text.

use std::hint::black_box;

use warzhigo::lent::{self, Listed};

use crate::listings::{self, Listing};
use crate::race::{Effort, Figure, Runner, Series, race, runner};
use crate::reader;

/// A program on a listing, in nanoseconds: ours, and what stands beside it.
pub struct Program {
    pub ours: Figure,
    pub other: Figure,
}

impl Program {
    pub fn ratio(&self) -> Figure {
        self.ours / self.other
    }
}

/// A listing, measured.
pub struct Row {
    pub name: &'static str,
    pub questions: usize,
    pub twins: Program,
    pub sums: Program,
}

/// Both programs on two sides.
pub type Programs = Series<Listing, 4>;

pub fn all(effort: Effort) -> Programs {
    let listings = listings::all();
    listings.iter().for_each(check);
    Series::new("programs", listings, effort, |listing, effort| race(runners(listing.text.as_bytes()), effort))
}

pub fn rows(programs: Programs) -> Vec<Row> {
    let rows = programs.rows().map(|(listing, [a, b, c, d])| Row {
        name: listing.name,
        questions: listing.questions,
        twins: Program { ours: a, other: b },
        sums: Program { ours: c, other: d },
    });
    rows.collect()
}

/// The buffers that the library is lent, used again and again as a caller would.
struct Buffers {
    store: Vec<u32>,
    mapping: Vec<u32>,
    out: Vec<u8>,
}

impl Buffers {
    fn new() -> Buffers {
        Buffers { store: vec![0; lent::store_words()], mapping: vec![0; lent::mapping_words()], out: vec![0; lent::output_bytes()] }
    }

    fn twins(&mut self, listing: &[u8]) -> Listed {
        lent::twins(listing, &mut self.store, &mut self.mapping, &mut self.out)
    }

    fn sums(&mut self, listing: &[u8]) -> Listed {
        lent::sums(listing, &mut self.store, &mut self.out)
    }
}

/// Are the printed lines the same, but for what pliron hasn't: the last field of each line of `twins`, and the share?
fn check(listing: &Listing) {
    let text = listing.text.as_bytes();
    let mut lines = Vec::new();
    reader::twins(text, &mut lines);
    let ours = String::from_utf8(warzhigo::twins(text)).expect("text");
    let (ours, share) = ours.trim_end().rsplit_once('\n').expect("lines, and the share");
    let verdicts: String = ours.lines().map(|line| line.rsplit_once(',').expect("paired").0.to_string() + "\n").collect();
    assert!(share.starts_with("share,"), "{}: twins prints `{share}` at the end", listing.name);
    assert!(verdicts.as_bytes() == lines, "{}: twins and pliron print different lines", listing.name);
    assert_eq!(verdicts.lines().count(), listing.questions, "{}: a line for each question", listing.name);
    reader::sums(text, &mut lines);
    assert!(warzhigo::sums(text) == lines, "{}: sums and pliron print different lines", listing.name);
}

/// Ours and pliron's `twins`, then ours and pliron's `sums`.
fn runners(listing: &[u8]) -> [Runner<'_>; 4] {
    let (mut buffers, mut other_buffers) = (Buffers::new(), Buffers::new());
    let (mut lines, mut other_lines) = (Vec::new(), Vec::new());
    [
        runner(move || {
            black_box(buffers.twins(black_box(listing)));
        }),
        runner(move || {
            reader::twins(black_box(listing), &mut lines);
            black_box(&lines);
        }),
        runner(move || {
            black_box(other_buffers.sums(black_box(listing)));
        }),
        runner(move || {
            reader::sums(black_box(listing), &mut other_lines);
            black_box(&other_lines);
        }),
    ]
}
