//! The premise of the laws: the same fragment, or two that share no operation or block and of which neither names a value or block that
//! the other defines.

use std::collections::BTreeSet;

use warzhigo::lent::Owner;

use super::picture::Picture;
use super::question::Sort;

#[derive(Default)]
struct Fragment {
    ops: BTreeSet<u32>,
    blocks: BTreeSet<u32>,
    named_values: BTreeSet<u32>,
    named_blocks: BTreeSet<u32>,
}

/// Half of the premise, which is all that equal keys need: the same fragment, or the left one names nothing that the right one defines.
pub fn left_holds(picture: &Picture, sort: Sort, l: u32, r: u32) -> bool {
    let [left, right] = [l, r].map(|n| Fragment::of(picture, sort, n));
    l == r || !left.names_inside(&right, picture)
}

pub fn holds(picture: &Picture, sort: Sort, l: u32, r: u32) -> bool {
    let [left, right] = [l, r].map(|n| Fragment::of(picture, sort, n));
    let apart = left.ops.is_disjoint(&right.ops) && left.blocks.is_disjoint(&right.blocks);
    l == r || apart && !left.names_inside(&right, picture) && !right.names_inside(&left, picture)
}

impl Fragment {
    fn of(picture: &Picture, sort: Sort, n: u32) -> Fragment {
        let mut fragment = Fragment::default();
        match sort {
            Sort::Op => fragment.operation(picture, n),
            Sort::Block => fragment.block(picture, n),
            Sort::Region => fragment.region(picture, n),
        }
        fragment
    }

    fn operation(&mut self, picture: &Picture, n: u32) {
        let op = &picture.ops[n as usize];
        self.ops.insert(n);
        self.named_values.extend(&op.operands);
        self.named_blocks.extend(&op.successors);
        op.regions.iter().for_each(|region| self.region(picture, *region));
    }

    fn block(&mut self, picture: &Picture, n: u32) {
        self.blocks.insert(n);
        picture.blocks[n as usize].operations.iter().for_each(|op| self.operation(picture, *op));
    }

    fn region(&mut self, picture: &Picture, n: u32) {
        picture.regions[n as usize].blocks.iter().for_each(|block| self.block(picture, *block));
    }

    fn defines(&self, picture: &Picture, value: u32) -> bool {
        match picture.values[value as usize].owner {
            Owner::Op(op) => self.ops.contains(&op),
            Owner::Block(block) => self.blocks.contains(&block),
        }
    }

    fn names_inside(&self, other: &Fragment, picture: &Picture) -> bool {
        self.named_values.iter().any(|value| other.defines(picture, *value)) || !self.named_blocks.is_disjoint(&other.blocks)
    }
}
