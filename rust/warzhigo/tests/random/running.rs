//! Repeated runs, against a plain search: in blocks made of a few kinds of operations, which name what stands shortly before them.

use warzhigo::{Attribute, BlockId, Ignore, NewOperation, Run, Store, ValueId, lent};

use crate::common::numbers::Random;
use crate::common::picture::Picture;
use crate::common::question::ignore_rule;
use crate::common::walk::same_runs;
use crate::counts::Counts;

/// Every right start, and every left one that ends before it.
fn plain(picture: &Picture, block: u32, length: usize, ignore: Ignore) -> Option<Run> {
    let ops = &picture.blocks[block as usize].operations;
    let starts = || 0..(ops.len() + 1).saturating_sub(length);
    for right in starts() {
        for left in starts().take_while(|left| left + length <= right) {
            if same_runs(picture, &ops[left..left + length], &ops[right..right + length], ignore) {
                return Some(Run { left: left as u32, right: right as u32 });
            }
        }
    }
    None
}

/// A block in an operation's first region.
fn block_in(store: &mut Store, new: &NewOperation<'_>) -> BlockId {
    let op = store.new_operation(new).expect("an operation");
    let region = store.operation(op).expect("it").regions().next().expect("its region");
    store.new_block(region, 0, &[3, 3]).expect("a block")
}

/// The block of a new store, filled at random.
fn page(random: &mut Random) -> (Store, BlockId) {
    let mut store = Store::new();
    let block = block_in(&mut store, &NewOperation { kind: 7, regions: 1, ..Default::default() });
    let mut values: Vec<ValueId> = store.block(block).expect("it").arguments().collect();
    for _ in 0..random.pick(&[3, 8, 20, 40]) {
        let recent = &values[values.len().saturating_sub(3)..];
        let operands: Vec<ValueId> = (0..random.below(3)).map(|_| random.pick(&[values[0], recent[0], recent[recent.len() - 1]])).collect();
        let (kind, result) = (random.pick(&[1, 1, 1, 2]), random.pick(&[3, 3, 3, 4]));
        let new = NewOperation { kind, parent: Some(block), result_types: &[result], operands: &operands, ..Default::default() };
        if random.chance(10) {
            let inner = block_in(&mut store, &NewOperation { regions: 1, ..new });
            store.new_operation(&NewOperation { kind, parent: Some(inner), ..Default::default() }).expect("one inside");
        } else {
            let op = store.new_operation(&new).expect("an operation");
            values.extend(store.operation(op).expect("it").results());
            if random.chance(10) {
                let attribute = Attribute { key: 1, kind: 5, content: random.below(2), inherent: random.inherent() };
                store.set_attribute(op, attribute).expect("an attribute");
            }
        }
    }
    (store, block)
}

/// The runs of a block, in a few lengths.
pub fn runs(seed: u64, counts: &mut Counts) {
    let mut random = Random::new(seed ^ 0x5eed);
    let (store, block) = page(&mut random);
    let picture = Picture::of(&store, &format!("seed {seed}"));
    let ignore = ignore_rule(&mut random);
    for length in [1, 2, 3, 1 + random.below(8)] {
        let context = format!("seed {seed}: runs of {length}, {ignore:?}");
        let expected = plain(&picture, block.number(), length as usize, ignore);
        assert_eq!(store.repeated_run(block, length, &ignore), Ok(expected), "{context}");
        assert_eq!(lent::repeated_run(store.words(), &[], block.number(), length, &ignore), Ok(expected), "{context}");
        counts.runs += 1;
        counts.runs_found += expected.is_some() as u64;
        counts.long_runs += (expected.is_some() && length > 1) as u64;
    }
}
