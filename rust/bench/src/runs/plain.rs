//! A plain search for repeated runs, without sums: every right start, every left one before it, operation by operation.

use warzhigo::{BlockId, Run, Store};

/// An operation of a block without nested regions, and without attributes: its kind, its operand and its result.
struct Op {
    kind: u32,
    operand: u32,
    result: u32,
}

/// A block's operations, copied out of the store ahead of the search.
pub struct Plain {
    ops: Vec<Op>,
}

impl Plain {
    pub fn of(store: &Store, block: BlockId) -> Plain {
        let ops = store.block(block).expect("it").operations();
        let ops = ops.map(|op| {
            let op = store.operation(op).expect("one of it");
            Op {
                kind: op.kind(),
                operand: op.operands().next().expect("its operand").number(),
                result: op.results().next().expect("its result").number(),
            }
        });
        Plain { ops: ops.collect() }
    }

    pub fn search(&self, length: usize) -> Option<Run> {
        for right in length..=self.ops.len().checked_sub(length)? {
            for left in 0..=right - length {
                if self.same(left, right, length) {
                    return Some(Run { left: left as u32, right: right as u32 });
                }
            }
        }
        None
    }

    fn same(&self, left: usize, right: usize, length: usize) -> bool {
        let (lefts, rights) = (&self.ops[left..left + length], &self.ops[right..right + length]);
        // results of a block's operations stand by rising number, one to each
        let first = lefts[0].result;
        lefts.iter().zip(rights).all(|(l, r)| {
            let place = l.operand.wrapping_sub(first) as usize;
            let image = rights.get(place).map_or(l.operand, |op| op.result);
            l.kind == r.kind && image == r.operand
        })
    }
}
