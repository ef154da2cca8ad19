//! What the words of marks and of their journal mean, as docs/STORE.md says: the tables at each mark are those of now with the journal
//! undone, the newest entry first, and cut to the mark's counts. Read on plain data, by words alone.

use warzhigo::lent::Owner;
use warzhigo::{Attribute, Inherent};

use super::marked::{Mark, Marked};
use super::picture::Picture;

/// The word that says how many marks are set.
pub const MARKS: usize = 7;
pub const MARK_NUMBER: usize = 35080;
pub const MARK_PLACE: usize = 35088;
pub const MARK_COUNTS: usize = 35096;
/// How many entries there are, and how many of them are replacements.
pub const JOURNAL_COUNTS: usize = 35160;
/// Where the ranges of an operation's regions and results and of a block's arguments end.
const OP_REGION_END: usize = 2568;
const OP_RESULT_END: usize = 3592;
const BLOCK_ARGUMENT_END: usize = 8200;
/// Sort, owner, key, kind and content of an entry. The word of the kind is 64 more where the attribute was inherent.
pub const JOURNAL: [usize; 5] = [35168, 37216, 39264, 41312, 43360];

/// The store with its marks that these words are, where `now` are its tables; none where a mark can't be gone back to.
pub fn read(words: &[u32], now: &Picture) -> Option<Marked> {
    let (set, entries) = (words[MARKS] as usize, words[JOURNAL_COUNTS] as usize);
    if set == 0 {
        return Some(Marked { picture: now.clone(), ..Marked::default() });
    }
    let replaced = |from: usize| (from..entries).filter(|entry| words[JOURNAL[0] + entry] < 2).count() as u32;
    if set > 8 || entries > 2048 || replaced(0) != words[JOURNAL_COUNTS + 1] || replaced(0) > 1024 {
        return None;
    }
    let (mut copy, mut end, mut marks) = (now.clone(), entries, Vec::new());
    for row in (0..set).rev() {
        let (number, place) = (words[MARK_NUMBER + row], words[MARK_PLACE + row] as usize);
        let again = marks.iter().any(|mark: &Mark| mark.number == number);
        if !(1..=8).contains(&number) || again || place > end {
            return None;
        }
        (place..end).rev().try_for_each(|entry| undo(&mut copy, JOURNAL.map(|column| words[column + entry])))?;
        let counts = &words[MARK_COUNTS + 8 * row..][..7];
        cut(&mut copy, counts)?;
        ranges_end(words, counts)?;
        marks.insert(0, Mark { number, copy: copy.clone(), since: replaced(place), calls: 0 });
        end = place;
    }
    (end == 0).then(|| Marked { picture: now.clone(), marks, calls: Vec::new() })
}

fn owner(code: u32) -> Owner {
    if code % 2 == 0 { Owner::Op(code / 2) } else { Owner::Block(code / 2) }
}

fn attributes(picture: &mut Picture, owner: Owner) -> Option<&mut Vec<Attribute>> {
    match owner {
        Owner::Op(n) => picture.ops.get_mut(n as usize).map(|op| &mut op.attributes),
        Owner::Block(n) => picture.blocks.get_mut(n as usize).map(|block| &mut block.attributes),
    }
}

/// Undoes one entry, if that can be done: what it names is there, and what was there fits.
fn undo(picture: &mut Picture, [sort, code, key, kind, content]: [u32; 5]) -> Option<()> {
    if sort == 0 {
        let there = (kind as usize) < picture.values.len();
        let operand = picture.ops.get_mut(code as usize)?.operands.get_mut(key as usize).filter(|_| there)?;
        *operand = kind;
        return Some(());
    }
    let attributes = attributes(picture, owner(code))?;
    let place = attributes.iter().position(|attribute| attribute.key == key)?;
    match sort {
        1 if kind > 127 => return None,
        1 => {
            let inherent = if kind > 63 { Inherent::Yes } else { Inherent::No };
            attributes[place] = Attribute { key, kind: kind % 64, content, inherent };
        }
        _ => drop(attributes.remove(place)),
    }
    Some(())
}

/// Cuts the tables to counts, where that leaves a sound store: all that is left names what is left, and the counts of operands, successors
/// and attributes are those of what is left.
fn cut(picture: &mut Picture, counts: &[u32]) -> Option<()> {
    let [ops, blocks, regions, values] = [counts[0], counts[1], counts[2], counts[3]];
    let lengths = [picture.ops.len(), picture.blocks.len(), picture.regions.len(), picture.values.len()];
    if lengths.iter().zip(counts).any(|(length, count)| *count as usize > *length) {
        return None;
    }
    picture.ops.truncate(ops as usize);
    picture.blocks.truncate(blocks as usize);
    picture.regions.truncate(regions as usize);
    picture.values.truncate(values as usize);
    let within = |numbers: &[u32], count: u32| numbers.iter().all(|n| *n < count);
    let names = picture
        .ops
        .iter()
        .all(|op| within(&op.operands, values) && within(&op.successors, blocks) && op.parent.is_none_or(|block| block < blocks));
    let owners = picture.values.iter().all(|value| match value.owner {
        Owner::Op(n) => n < ops,
        Owner::Block(n) => n < blocks,
    });
    let around = picture.blocks.iter().all(|block| block.region < regions) && picture.regions.iter().all(|region| region.op < ops);
    picture.blocks.iter_mut().for_each(|block| block.operations.retain(|op| *op < ops));
    picture.regions.iter_mut().for_each(|region| region.blocks.retain(|block| *block < blocks));
    let totals = picture.totals();
    (names && owners && around && [totals.operands, totals.successors, totals.attributes] == counts[4..7]).then_some(())
}

/// What is left after cutting has no region, result or argument that has gone: its ranges, also empty ones, end within what is left.
fn ranges_end(words: &[u32], counts: &[u32]) -> Option<()> {
    let within = |ends: usize, owners: u32, count: u32| words[ends..][..owners as usize].iter().all(|end| *end <= count);
    let ops = within(OP_REGION_END, counts[0], counts[2]) && within(OP_RESULT_END, counts[0], counts[3]);
    (ops && within(BLOCK_ARGUMENT_END, counts[1], counts[3])).then_some(())
}
