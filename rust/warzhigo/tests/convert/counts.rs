//! What was met, and whether it is enough.

use std::collections::BTreeMap;

use crate::common::converter_model::{Edition, LINE, LISTING, Refusal};

#[derive(Default, Debug)]
pub struct Counts {
    listings: u64,
    /// Converted listings, by the header read; and those of edition 1 with a label that isn't 0.
    from_1: u64,
    from_2: u64,
    pub labels: u64,
    /// Refused listings, by their cause.
    refused: BTreeMap<u32, u64>,
    /// Those of them that only the converted text is too long for: the whole, and a line.
    whole: u64,
    line: u64,
    /// Those that are too long as they are read, by the whole and by a line, and those without their last line feed.
    whole_read: u64,
    line_read: u64,
    unended: u64,
    /// Outputs of the programs for converted listings, those of them with an answer, and those that end with a refused line.
    outputs: u64,
    answers: u64,
    refusals: u64,
}

impl Counts {
    pub fn met(&mut self, listing: &[u8], answer: &Result<Vec<u8>, Refusal>) {
        self.listings += 1;
        match answer {
            Ok(converted) if converted.starts_with(Edition::Second.header().as_bytes()) => self.from_1 += 1,
            Ok(_) => self.from_2 += 1,
            Err((number, cause)) => {
                *self.refused.entry(*cause).or_default() += 1;
                if *cause == 11 {
                    self.too_long(listing, *number);
                }
            }
        }
    }

    fn too_long(&mut self, listing: &[u8], number: usize) {
        let line = listing.split_inclusive(|byte| *byte == b'\n').nth(number - 1).unwrap();
        let count = match (listing.len() > LISTING, line.strip_suffix(b"\n")) {
            (true, _) => &mut self.whole_read,
            (false, None) => &mut self.unended,
            (false, Some(text)) if text.len() > LINE => &mut self.line_read,
            (false, Some(_)) if number == 1 => &mut self.whole,
            (false, Some(_)) => &mut self.line,
        };
        *count += 1;
    }

    /// Counts what a program has printed for a converted listing.
    pub fn printed(&mut self, output: &str) {
        self.outputs += 1;
        self.refusals += output.contains("refused,") as u64;
        self.answers += (output.lines().count() > 1) as u64;
    }

    /// That each thing was met often enough to mean something.
    pub fn often_enough(&self) {
        let (all, refused) = (self.listings, |cause: u32| self.refused.get(&cause).copied().unwrap_or(0));
        let at_least = [
            ("from edition 1", self.from_1, all / 8),
            ("from edition 2", self.from_2, all / 8),
            ("labels", self.labels, all / 10),
            ("refused by 9", refused(9), all / 100),
            ("refused by 10", refused(10), all / 10),
            ("refused by 11", refused(11), all / 20),
            ("refused by 20", refused(20), all / 50),
            ("the converted whole is too long", self.whole, all / 200),
            ("a converted line is too long", self.line, all / 200),
            ("the whole is too long", self.whole_read, all / 200),
            ("a line is too long", self.line_read, all / 100),
            ("no last line feed", self.unended, all / 100),
            ("outputs", self.outputs, all / 2),
            ("outputs with an answer", self.answers, self.outputs / 2),
            ("outputs with a refused line", self.refusals, self.outputs / 20),
        ];
        for (what, count, least) in at_least {
            assert!(count >= least, "{what}: {count}, which is below {least}");
        }
    }
}
