//! Where words of a store stand, as docs/STORE.md says: only to damage them, or to replace types.

use super::numbers::Random;

/// The counts of operations, blocks, regions, values, operands, successors and attributes, and the limits of each.
pub const LIMITS: [u32; 7] = [512, 256, 256, 2048, 2048, 512, 1024];

pub const OPERAND_FIRST: usize = 4104;
pub const OPERAND_END: usize = 4616;
pub const SUCCESSOR_FIRST: usize = 5128;
pub const SUCCESSOR_END: usize = 5640;
pub const VALUE_TYPE: usize = 9224;

/// Columns side by side: where the first begins, the length of each, how many, and by which count they are filled.
const COLUMNS: [(usize, usize, usize, usize); 6] =
    [(8, 512, 13, 0), (6664, 256, 3, 2), (7432, 256, 7, 1), (9224, 2048, 2, 3), (13320, 2048, 1, 4), (15368, 512, 1, 5)];

/// Slots of attributes, of operations and of blocks: where they begin in the first of their three columns, how many owners there may be,
/// and by which count.
const SLOTS: [(usize, u32, usize); 2] = [(15880, 512, 0), (15880 + 4096, 256, 1)];
const SLOT_COLUMN: usize = 6144;

/// Where the words of an attribute's kind and flag begin: those of operations, and those of blocks.
pub const SLOT_KIND: [usize; 2] = [SLOTS[0].0 + SLOT_COLUMN, SLOTS[1].0 + SLOT_COLUMN];

/// Two entries of one column, or two of the counts, within what is filled. The counts may be damaged already.
pub fn live_pair(random: &mut Random, words: &[u32]) -> [usize; 2] {
    let mut below = |count: u32| random.below(count.max(1)) as usize;
    match below(8) {
        0 => [below(8), below(8)],
        1 => {
            let (base, owners, count) = SLOTS[below(2)];
            let column = base + SLOT_COLUMN * below(3);
            [0; 2].map(|_| column + 8 * below(words[count].min(owners)) + below(8))
        }
        _ => {
            let (base, length, columns, count) = COLUMNS[below(6)];
            let column = base + length * below(columns as u32);
            [0; 2].map(|_| column + below(words[count].min(length as u32)))
        }
    }
}

/// A word that no call reads: behind the counts.
pub fn dead_word(random: &mut Random, words: &[u32]) -> Option<usize> {
    let (base, length, columns, count) = random.pick(&COLUMNS);
    let column = base + length * random.below(columns as u32) as usize;
    let free = length as u32 - words[count];
    (free > 0).then(|| column + (words[count] + random.below(free)) as usize)
}
