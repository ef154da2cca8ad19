//! Where the words of a store stand: the columns of docs/STORE.md, one behind the other.

/// A column, by its place in the row of columns.
#[derive(Clone, Copy)]
#[rustfmt::skip] // by owner, as in docs/STORE.md
pub(crate) enum Column {
    Counts,
    OpKind, OpParent, OpLocation, OpDepth, OpRegionFirst, OpRegionEnd, OpResultFirst, OpResultEnd, OpOperandFirst, OpOperandEnd,
    OpSuccessorFirst, OpSuccessorEnd, OpAttributes,
    RegionOp, RegionBlockFirst, RegionBlockEnd,
    BlockRegion, BlockLocation, BlockArgumentFirst, BlockArgumentEnd, BlockOpFirst, BlockOpEnd, BlockAttributes,
    ValueType, ValueOwner,
    OperandWords, SuccessorWords,
    SlotKey, SlotKind, SlotContent,
    #[allow(dead_code)] // links of operations are followed in the library alone
    OpNext,
    BlockNext,
    MarkNumber,
    #[allow(dead_code)] // where a mark goes back to is the library's business
    MarkPlace,
    #[allow(dead_code)]
    MarkCounts,
    JournalCounts,
}

/// How many there are of each thing: the words of the first column. The first four are of things that have numbers.
#[derive(Clone, Copy)]
pub(crate) enum Count {
    Operations,
    Blocks,
    Regions,
    Values,
    Operands,
    Successors,
    Attributes,
    Marks,
}

/// The word of `JournalCounts` that says how many replacements are remembered, where a mark is set.
pub(crate) const REPLACED: usize = 1;

/// The slots of attributes that an owner has; those of blocks stand behind those of operations.
pub(crate) const SLOTS: usize = 8;
pub(crate) const BLOCK_SLOTS: usize = 512 * SLOTS;

/// What the word of `SlotKind` is more than the kind where the attribute is inherent. No kind is over 63.
pub(crate) const INHERENT: u32 = 64;

const COLUMNS: usize = 42;

#[rustfmt::skip] // as the enum above; behind it the journal's entries, which the library alone reads
const SIZES: [usize; COLUMNS] = [
    8,
    512, 512, 512, 512, 512, 512, 512, 512, 512, 512,
    512, 512, 512,
    256, 256, 256,
    256, 256, 256, 256, 256, 256, 256,
    2048, 2048,
    2048, 512,
    6144, 6144, 6144,
    512, 256,
    8, 8, 64,
    8, 2048, 2048, 2048, 2048, 2048,
];

/// Where each column begins.
pub(crate) const BASES: [usize; COLUMNS] = {
    let mut bases = [0; COLUMNS];
    let mut i = 1;
    while i < COLUMNS {
        bases[i] = bases[i - 1] + SIZES[i - 1];
        i += 1;
    }
    bases
};

/// Entry `n` of a column.
#[inline]
pub(crate) fn at(words: &[u32], column: Column, n: usize) -> u32 {
    words[BASES[column as usize] + n]
}

/// The range of numbers that two columns have for `n`: the first, and the one behind the last.
#[inline]
pub(crate) fn range(words: &[u32], first: Column, end: Column, n: usize) -> core::ops::Range<u32> {
    at(words, first, n)..at(words, end, n)
}

/// A part of a column.
#[inline]
pub(crate) fn part(words: &[u32], column: Column, range: core::ops::Range<u32>) -> &[u32] {
    let base = BASES[column as usize];
    &words[base + range.start as usize..base + range.end as usize]
}

/// How many there are.
#[inline]
pub(crate) fn count(words: &[u32], of: Count) -> u32 {
    at(words, Column::Counts, of as usize)
}

/// How many there are of operations, blocks, regions and values.
#[inline]
pub(crate) fn numbered(words: &[u32]) -> [u32; 4] {
    [Count::Operations, Count::Blocks, Count::Regions, Count::Values].map(|of| count(words, of))
}

#[cfg(test)]
mod tests {
    use super::*;
    use alloc::vec::Vec;

    /// The library's own bases, in its source.
    #[test]
    fn bases_are_the_librarys() {
        let source = include_str!("../../../crates/layout/src/columns.rt");
        let table = source.split("match column {").nth(1).unwrap().split('}').next().unwrap();
        let bases: Vec<usize> = table.split("=>").skip(1).map(|arm| arm.split(',').next().unwrap().trim().parse().unwrap()).collect();
        assert_eq!(bases, BASES);
        assert_eq!(BASES[COLUMNS - 1] + SIZES[COLUMNS - 1], crate::ffi::lent::store_words());
    }
}
