//! The model of what a fragment defines, in the order of the walk, apart from any comparison.

use warzhigo::{Entry, Store};

use super::picture::Picture;
use super::question::Sort;
use super::walk::Entries;

#[derive(Default, Debug)]
pub struct Defined {
    pub values: Vec<u32>,
    pub blocks: Vec<u32>,
    pub ops: Vec<u32>,
}

impl Defined {
    pub fn by(picture: &Picture, sort: Sort, n: u32) -> Defined {
        let mut defined = Defined::default();
        match sort {
            Sort::Op => defined.operations(picture, &[n]),
            Sort::Block => defined.inside(picture, &[n]),
            Sort::Region => defined.inside(picture, &picture.regions[n as usize].blocks),
        }
        defined
    }

    /// Blocks with their arguments, then the operations in them.
    fn inside(&mut self, picture: &Picture, blocks: &[u32]) {
        let list: Vec<_> = blocks.iter().map(|n| &picture.blocks[*n as usize]).collect();
        self.blocks.extend(blocks);
        self.values.extend(list.iter().flat_map(|block| &block.arguments));
        let ops: Vec<u32> = list.iter().flat_map(|block| block.operations.iter().copied()).collect();
        self.operations(picture, &ops);
    }

    /// Operations with their results, then what is in their regions.
    fn operations(&mut self, picture: &Picture, ops: &[u32]) {
        let list: Vec<_> = ops.iter().map(|n| &picture.ops[*n as usize]).collect();
        self.ops.extend(ops);
        self.values.extend(list.iter().flat_map(|op| &op.results));
        for region in list.iter().flat_map(|op| &op.regions) {
            self.inside(picture, &picture.regions[*region as usize].blocks);
        }
    }

    /// This side's definitions, each beside the other's in the same place.
    pub fn beside(&self, right: &Defined) -> Entries {
        let zip = |left: &[u32], right: &[u32]| left.iter().copied().zip(right.iter().copied()).collect();
        Entries { values: zip(&self.values, &right.values), blocks: zip(&self.blocks, &right.blocks), ops: zip(&self.ops, &right.ops) }
    }
}

impl Entries {
    /// As a mapping writes them down: by sort, each by rising left number.
    pub fn listed(&self, store: &Store) -> Vec<Entry> {
        let missing = "an entry names what exists";
        let value = |n: &u32| store.value_id(*n).expect(missing);
        let block = |n: &u32| store.block_id(*n).expect(missing);
        let op = |n: &u32| store.op_id(*n).expect(missing);
        let values = self.values.iter().map(|(l, r)| Entry::Value(value(l), value(r)));
        let blocks = self.blocks.iter().map(|(l, r)| Entry::Block(block(l), block(r)));
        values.chain(blocks).chain(self.ops.iter().map(|(l, r)| Entry::Op(op(l), op(r)))).collect()
    }
}
