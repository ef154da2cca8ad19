//! Which entries of a mapping may be set, so that emptying it costs what was entered.

use core::ops::Range;

use crate::columns::Column::*;
use crate::columns::{Count, at, count, range};
use crate::equivalence::Sort;
use crate::ffi::allowed::NONE;
use crate::ids::{BlockId, Mapped, OpId, ValueId};

/// Where entries may be: a range of the words for each of values, blocks and operations.
#[derive(Clone)]
pub(crate) struct Touched(pub(crate) [Range<usize>; 3]);

impl Touched {
    pub(crate) const NOTHING: Touched = Touched([0..0, 0..0, 0..0]);

    /// All entries.
    pub(crate) fn all() -> Touched {
        Touched([all::<ValueId>(), all::<BlockId>(), all::<OpId>()])
    }

    /// Where these words of a mapping have entries.
    pub(crate) fn of(mapping: &[u32]) -> Touched {
        Touched(Touched::all().0.map(|entries| span(mapping, entries)))
    }

    #[inline]
    pub(crate) fn is_empty(&self) -> bool {
        self.0.iter().all(Range::is_empty)
    }

    #[inline]
    pub(crate) fn values(&mut self, numbers: Range<u32>) {
        cover(&mut self.0[0], numbers, ValueId::ENTRIES);
    }

    #[inline]
    pub(crate) fn block(&mut self, number: u32) {
        cover(&mut self.0[1], number..number + 1, BlockId::ENTRIES);
    }

    #[inline]
    pub(crate) fn op(&mut self, number: u32) {
        cover(&mut self.0[2], number..number + 1, OpId::ENTRIES);
    }
}

/// All entries of one sort.
fn all<I: Mapped>() -> Range<usize> {
    I::ENTRIES..I::ENTRIES + I::COUNT
}

/// From the first to the last of these entries that is set.
fn span(mapping: &[u32], entries: Range<usize>) -> Range<usize> {
    let is_set = |at: &usize| mapping[*at] != NONE;
    let first = entries.clone().find(is_set);
    let last = entries.clone().rfind(is_set);
    first.zip(last).map_or(0..0, |(first, last)| first..last + 1)
}

/// Widens a range of entries so that it holds those of these numbers.
#[inline]
fn cover(entries: &mut Range<usize>, numbers: Range<u32>, base: usize) {
    if numbers.is_empty() {
        return;
    }
    let (start, end) = (base + numbers.start as usize, base + numbers.end as usize);
    *entries = if Range::is_empty(entries) { start..end } else { entries.start.min(start)..entries.end.max(end) };
}

/// Where a comparison of this left fragment has made its entries, so many of operations and blocks, in a mapping that was empty.
#[inline]
pub(crate) fn entered(store: &[u32], mapping: &[u32], sort: Sort, lhs: u32, paired: u32) -> Touched {
    if let (Sort::Op, 1) = (sort, paired) {
        return alone(store, lhs);
    }
    Entered { store, mapping, left: paired, touched: Touched::NOTHING }.fragment(sort, lhs)
}

/// The entries of one operation and its results: an operation is entered before anything inside it.
#[inline]
fn alone(store: &[u32], n: u32) -> Touched {
    let mut touched = Touched::NOTHING;
    touched.op(n);
    touched.values(range(store, OpResultFirst, OpResultEnd, n as usize));
    touched
}

/// The search for these entries, by the entries themselves, from the left fragment's number on, until so many are found.
struct Entered<'a> {
    store: &'a [u32],
    mapping: &'a [u32],
    left: u32,
    touched: Touched,
}

impl Entered<'_> {
    #[inline]
    fn has<I: Mapped>(&self, number: u32) -> bool {
        self.mapping[I::ENTRIES + number as usize] != NONE
    }

    /// A block and its arguments, if it is entered.
    fn block(&mut self, b: u32) {
        if self.has::<BlockId>(b) {
            self.left -= 1;
            self.touched.block(b);
            self.touched.values(range(self.store, BlockArgumentFirst, BlockArgumentEnd, b as usize));
        }
    }

    /// The smallest number that an operation in a block may have.
    fn first_op(&self, b: u32) -> u32 {
        let ops = range(self.store, BlockOpFirst, BlockOpEnd, b as usize);
        if ops.is_empty() { u32::MAX } else { ops.start }
    }

    /// The blocks of a region that are entered; gives the smallest number that an operation in them may have.
    fn region(&mut self, r: u32) -> u32 {
        let mut from = u32::MAX;
        let mut blocks = range(self.store, RegionBlockFirst, RegionBlockEnd, r as usize);
        let mut next = blocks.find(|b| at(self.store, BlockRegion, *b as usize) == r);
        while let Some(b) = next {
            self.block(b);
            from = from.min(self.first_op(b));
            next = Some(at(self.store, BlockNext, b as usize)).filter(|link| *link != 0);
        }
        from
    }

    /// An operation, its results and the blocks in its regions, if it is entered.
    #[inline]
    fn op(&mut self, n: u32) {
        if self.has::<OpId>(n) {
            self.left -= 1;
            self.touched.op(n);
            self.touched.values(range(self.store, OpResultFirst, OpResultEnd, n as usize));
            for r in range(self.store, OpRegionFirst, OpRegionEnd, n as usize) {
                self.region(r);
            }
        }
    }

    /// From a left fragment on. Operations inside another have larger numbers than it.
    fn fragment(mut self, sort: Sort, lhs: u32) -> Touched {
        let mut n = match sort {
            Sort::Op => lhs,
            Sort::Region => self.region(lhs),
            Sort::Block => {
                self.block(lhs);
                self.first_op(lhs)
            }
        };
        let end = count(self.store, Count::Operations);
        while self.left > 0 && n < end {
            self.op(n);
            n += 1;
        }
        self.touched
    }
}
