//! The model of the comparison: document 01's walk, with one parameter.

use std::collections::BTreeMap;

use oracle::Verdict;
use warzhigo::{Attribute, Ignore, Inherent};

use super::picture::{Picture, Value};
use super::question::{Question, Sort};

/// What happens where lengths are tested and the left list is exactly one longer.
#[derive(Clone, Copy, PartialEq, Eq, Debug)]
pub enum Longer {
    /// The difference is found.
    Rules,
    /// The item is swallowed, as by `zip` in the Rust.
    Zip,
}

/// The images of values, blocks and operations.
#[derive(Clone, PartialEq, Eq, Debug, Default)]
pub struct Entries {
    pub values: BTreeMap<u32, u32>,
    pub blocks: BTreeMap<u32, u32>,
    pub ops: BTreeMap<u32, u32>,
}

impl Entries {
    pub fn is_empty(&self) -> bool {
        self.values.is_empty() && self.blocks.is_empty() && self.ops.is_empty()
    }
}

/// What a comparison gives, but for the mapping.
#[derive(Clone, Copy, PartialEq, Eq, Debug)]
pub struct Found {
    pub verdict: Verdict,
    pub paired: u32,
}

pub struct Walk<'a> {
    picture: &'a Picture,
    ignore: Ignore,
    longer: Longer,
    entries: &'a mut Entries,
    paired: u32,
    met: bool,
}

/// Compares, beginning with these entries. Gives also whether the walk met a left list that is exactly one longer.
pub fn compared(picture: &Picture, entries: &mut Entries, question: &Question, longer: Longer) -> (Found, bool) {
    let Question { sort, lhs, rhs, ignore } = *question;
    let mut walk = Walk { picture, ignore, longer, entries, paired: 0, met: false };
    let ended = match sort {
        Sort::Op => walk.operations(lhs, rhs),
        Sort::Block => walk.lists(&[lhs], &[rhs], Verdict::Eq),
        Sort::Region => walk.regions(lhs, rhs),
    };
    let verdict = ended.err().unwrap_or(Verdict::Eq);
    (Found { verdict, paired: walk.paired }, walk.met)
}

/// Are two runs of operations equal, by passes 2 and 3 from no entries?
pub fn same_runs(picture: &Picture, left: &[u32], right: &[u32], ignore: Ignore) -> bool {
    let mut entries = Entries::default();
    let mut walk = Walk { picture, ignore, longer: Longer::Rules, entries: &mut entries, paired: 0, met: false };
    let pairs = || left.iter().copied().zip(right.iter().copied());
    pairs().all(|(l, r)| walk.pair_operations(l, r).is_ok()) && pairs().all(|(l, r)| walk.check_operations(l, r).is_ok())
}

fn held(condition: bool, failure: Verdict) -> Result<(), Verdict> {
    if condition { Ok(()) } else { Err(failure) }
}

impl<'a> Walk<'a> {
    fn operations(&mut self, l: u32, r: u32) -> Result<(), Verdict> {
        self.pair_operations(l, r)?;
        self.check_operations(l, r)
    }

    fn regions(&mut self, l: u32, r: u32) -> Result<(), Verdict> {
        let picture = self.picture;
        let [left, right] = [l, r].map(|n| &picture.regions[n as usize].blocks);
        self.lists(left, right, Verdict::FirstNEQRegions(l, r))
    }

    /// Three passes over two lists of blocks; `unequal` is the answer to unequal lengths.
    fn lists(&mut self, left: &[u32], right: &[u32], unequal: Verdict) -> Result<(), Verdict> {
        let picture = self.picture;
        let inside = |n: u32| &picture.blocks[n as usize].operations;
        let pairs = || left.iter().copied().zip(right.iter().copied());
        for (l, r) in pairs() {
            self.pair_blocks(l, r)?;
        }
        self.lengths(left, right, unequal)?;
        for (l, r) in pairs() {
            for (l, r) in inside(l).iter().zip(inside(r)) {
                self.pair_operations(*l, *r)?;
            }
            self.lengths(inside(l), inside(r), Verdict::FirstNEQBlocks(l, r))?;
        }
        for (l, r) in pairs() {
            for (l, r) in inside(l).iter().zip(inside(r)) {
                self.check_operations(*l, *r)?;
            }
        }
        Ok(())
    }

    fn lengths(&mut self, left: &[u32], right: &[u32], unequal: Verdict) -> Result<(), Verdict> {
        let one_longer = left.len() == right.len() + 1;
        self.met |= one_longer;
        held(left.len() == right.len() || one_longer && self.longer == Longer::Zip, unequal)
    }

    fn pair_operations(&mut self, l: u32, r: u32) -> Result<(), Verdict> {
        let picture = self.picture;
        let [left, right] = [l, r].map(|n| &picture.ops[n as usize]);
        let alike = left.kind == right.kind
            && left.regions.len() == right.regions.len()
            && left.successors.len() == right.successors.len()
            && left.operands.len() == right.operands.len()
            && left.results.len() == right.results.len()
            && (self.ignore.locations || left.location == right.location)
            && self.attributes(&left.attributes) == self.attributes(&right.attributes)
            && self.types(&left.results) == self.types(&right.results);
        held(alike, Verdict::FirstNEQOps(l, r))?;
        self.entries.ops.insert(l, r);
        self.enter_values(&left.results, &right.results);
        Ok(())
    }

    fn pair_blocks(&mut self, l: u32, r: u32) -> Result<(), Verdict> {
        let picture = self.picture;
        let [left, right] = [l, r].map(|n| &picture.blocks[n as usize]);
        let alike = left.arguments.len() == right.arguments.len()
            && (self.ignore.locations || left.location == right.location)
            && self.attributes(&left.attributes) == self.attributes(&right.attributes)
            && self.types(&left.arguments) == self.types(&right.arguments);
        held(alike, Verdict::FirstNEQBlocks(l, r))?;
        self.entries.blocks.insert(l, r);
        self.enter_values(&left.arguments, &right.arguments);
        Ok(())
    }

    /// Enters the values of a pair, and counts the pair.
    fn enter_values(&mut self, left: &[u32], right: &[u32]) {
        self.entries.values.extend(left.iter().copied().zip(right.iter().copied()));
        self.paired += 1;
    }

    fn check_operations(&mut self, l: u32, r: u32) -> Result<(), Verdict> {
        let picture = self.picture;
        let [left, right] = [l, r].map(|n| &picture.ops[n as usize]);
        for (lv, rv) in left.operands.iter().zip(&right.operands) {
            let image = self.entries.values.get(lv).unwrap_or(lv);
            held(image == rv && self.value(*lv).ty == self.value(*rv).ty, Verdict::FirstNEQOps(l, r))?;
        }
        for (lb, rb) in left.successors.iter().zip(&right.successors) {
            held(self.entries.blocks.get(lb).unwrap_or(lb) == rb, Verdict::FirstNEQOps(l, r))?;
        }
        for (lr, rr) in left.regions.iter().zip(&right.regions) {
            self.regions(*lr, *rr)?;
        }
        Ok(())
    }

    fn value(&self, n: u32) -> &'a Value {
        &self.picture.values[n as usize]
    }

    fn types(&self, values: &[u32]) -> Vec<u32> {
        values.iter().map(|n| self.value(*n).ty).collect()
    }

    /// Those that count, by rising key.
    fn attributes(&self, of: &[Attribute]) -> Vec<Attribute> {
        counted(of, &self.ignore)
    }
}

/// The attributes that aren't ignored, by rising key.
pub fn counted(attributes: &[Attribute], ignore: &Ignore) -> Vec<Attribute> {
    let counts = |a: &Attribute| a.inherent == Inherent::Yes || ignore.bits >> a.kind & 1 == 0;
    let mut counted: Vec<Attribute> = attributes.iter().copied().filter(counts).collect();
    counted.sort_by_key(|attribute| attribute.key);
    counted
}
