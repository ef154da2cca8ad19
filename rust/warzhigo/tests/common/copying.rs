//! The model of copying an operation: by what a copy is refused, and what an accepted one makes; and a copy that is looked at from all sides.

use std::collections::{BTreeMap, BTreeSet, HashSet};

use warzhigo::lent::Owner;
use warzhigo::{Entry, Ignore, Mapping, Store};

use super::building::first;
use super::bytes_model;
use super::call::{Answer, Call, apply_into};
use super::defined::Defined;
use super::picture::{Block, Op, Picture, Region, Value};
use super::question::{NONE, Question, Sort, hash_inner, key_inner};
use super::walk::Entries;

impl Picture {
    /// The cause by which a copy is refused, if it is.
    pub fn allows_copy(&self, op: u32, parent: Option<u32>) -> Result<(), u32> {
        let there = |n: u32, count: usize| (n as usize) < count;
        let missing = !there(op, self.ops.len()) || parent.is_some_and(|block| !there(block, self.blocks.len()));
        first(&[(missing, 2)])?;
        let inside = Defined::by(self, Sort::Op, op);
        first(&[(parent.is_some_and(|block| inside.blocks.contains(&block)), 18)])?;
        first(&[(!Turns::of(self, &inside).operation(op), 19)])?;
        let mut copied = self.clone();
        let copy = copied.copy(op, parent);
        let deep = copied.ops[copy as usize..].iter().any(|op| op.nesting > 32);
        let totals = copied.totals();
        let full = totals.operations > 512
            || totals.blocks > 256
            || totals.regions > 256
            || totals.values > 2048
            || totals.operands > 2048
            || totals.successors > 512
            || totals.attributes > 1024;
        first(&[(deep, 5), (full, 3)])
    }

    /// From each thing that an operation defines to its copy, by the next numbers in the order of the walk.
    pub fn copied_entries(&self, op: u32) -> Entries {
        let Defined { values, blocks, ops } = Defined::by(self, Sort::Op, op);
        Entries {
            values: numbered(&values, self.values.len()),
            blocks: numbered(&blocks, self.blocks.len()),
            ops: numbered(&ops, self.ops.len()),
        }
    }

    /// Makes a copy that is allowed, and gives its number.
    pub fn copy(&mut self, op: u32, parent: Option<u32>) -> u32 {
        let before = self.clone();
        let inside = Defined::by(&before, Sort::Op, op);
        let entries = before.copied_entries(op);
        let old = |n: &u32| &before.ops[*n as usize];
        let regions: Vec<u32> = inside.ops.iter().flat_map(|n| old(n).regions.iter().copied()).collect();
        let to_region = numbered(&regions, before.regions.len());
        let nesting = parent.map_or(0, |block| before.nesting_in(block));
        self.ops.extend(inside.ops.iter().map(|n| Op {
            parent: if *n == op { parent } else { old(n).parent.map(|block| entries.blocks[&block]) },
            nesting: nesting + old(n).nesting - old(&op).nesting,
            regions: renamed(&to_region, &old(n).regions),
            results: renamed(&entries.values, &old(n).results),
            operands: renamed(&entries.values, &old(n).operands),
            successors: renamed(&entries.blocks, &old(n).successors),
            ..old(n).clone()
        }));
        self.regions.extend(regions.iter().map(|n| {
            let Region { op, blocks } = &before.regions[*n as usize];
            Region { op: entries.ops[op], blocks: renamed(&entries.blocks, blocks) }
        }));
        self.blocks.extend(inside.blocks.iter().map(|n| {
            let old = &before.blocks[*n as usize];
            Block {
                region: to_region[&old.region],
                arguments: renamed(&entries.values, &old.arguments),
                operations: renamed(&entries.ops, &old.operations),
                ..old.clone()
            }
        }));
        self.values.extend(inside.values.iter().map(|n| {
            let Value { ty, owner, place } = before.values[*n as usize];
            let owner = match owner {
                Owner::Op(op) => Owner::Op(entries.ops[&op]),
                Owner::Block(block) => Owner::Block(entries.blocks[&block]),
            };
            Value { ty, owner, place }
        }));
        let copy = entries.ops[&op];
        if let Some(block) = parent {
            self.blocks[block as usize].operations.push(copy);
        }
        copy
    }
}

/// Numbers from `next` on.
fn numbered(things: &[u32], next: usize) -> BTreeMap<u32, u32> {
    things.iter().copied().zip(next as u32..).collect()
}

/// Each by its copy, if it has one.
fn renamed(copies: &BTreeMap<u32, u32>, names: &[u32]) -> Vec<u32> {
    names.iter().map(|name| copies.get(name).copied().unwrap_or(*name)).collect()
}

/// The walk as far as it decides what has a number when an operation's turn comes to name something.
struct Turns<'a> {
    picture: &'a Picture,
    inside: [BTreeSet<u32>; 2],
    /// Of values and blocks.
    numbered: [BTreeSet<u32>; 2],
    /// A successor inside has no number yet when the operation itself gets one.
    late_successor: bool,
}

/// Has every successor inside its number before the operation that names it? pliron's text maps a successor then, and keeps the original's
/// name where it has none; here it is mapped at the operation's turn, as operands are.
pub fn pliron_maps_successors(picture: &Picture, op: u32) -> bool {
    let inside = Defined::by(picture, Sort::Op, op);
    let mut turns = Turns::of(picture, &inside);
    turns.operation(op);
    !turns.late_successor
}

impl<'a> Turns<'a> {
    fn of(picture: &'a Picture, inside: &Defined) -> Turns<'a> {
        let inside = [&inside.values, &inside.blocks].map(|numbers| numbers.iter().copied().collect());
        Turns { picture, inside, numbered: Default::default(), late_successor: false }
    }

    /// Is all inside it named in time, beginning with it?
    fn operation(&mut self, n: u32) -> bool {
        self.shells(&[n]);
        self.turn(n)
    }

    fn shells(&mut self, ops: &[u32]) {
        for op in ops.iter().map(|n| &self.picture.ops[*n as usize]) {
            self.numbered[0].extend(&op.results);
            self.late_successor |= op.successors.iter().any(|n| self.inside[1].contains(n) && !self.numbered[1].contains(n));
        }
    }

    fn turn(&mut self, n: u32) -> bool {
        let op = &self.picture.ops[n as usize];
        let in_time = |sort: usize, name: &u32| !self.inside[sort].contains(name) || self.numbered[sort].contains(name);
        op.operands.iter().all(|value| in_time(0, value))
            && op.successors.iter().all(|block| in_time(1, block))
            && op.regions.iter().all(|region| self.region(*region))
    }

    fn region(&mut self, n: u32) -> bool {
        let picture = self.picture;
        let numbers = &picture.regions[n as usize].blocks;
        let blocks: Vec<&Block> = numbers.iter().map(|block| &picture.blocks[*block as usize]).collect();
        self.numbered[1].extend(numbers);
        self.numbered[0].extend(blocks.iter().flat_map(|block| &block.arguments));
        let ops: Vec<u32> = blocks.iter().flat_map(|block| block.operations.iter().copied()).collect();
        self.shells(&ops);
        ops.into_iter().all(|op| self.turn(op))
    }
}

/// A copy to be made, into this mapping.
pub struct Copying<'a> {
    pub op: u32,
    pub parent: Option<u32>,
    /// By what original and copy are compared, hashed and filed.
    pub ignore: &'a [Ignore],
}

impl Copying<'_> {
    /// Makes it, in a store that is the picture; the mapping's entries have to be good there. By ids, by numbers and by the model the answer,
    /// the store afterwards and the mapping are the same, and so are original and copy.
    pub fn make(&self, store: &mut Store, picture: &mut Picture, mapping: &mut Mapping, context: &str) -> Answer {
        let Copying { op, parent, .. } = *self;
        let context = format!("{context}: copy of {op} to {parent:?}");
        let entries = picture.allows_copy(op, parent).map(|()| picture.copied_entries(op));
        let call = Call::Copy { op, parent };
        let answer = apply_into(store, &call, mapping, &context);
        assert_eq!(answer, picture.apply(&call), "{context}");
        assert_eq!(Picture::of(store, &context), *picture, "{context}");
        if let (Ok(Some(copy)), Ok(entries)) = (answer, entries) {
            is_document(store, mapping, &entries, &context);
            self.is_equal(store, picture, copy, mapping, &context);
        }
        answer
    }

    /// Compared from an empty mapping, both ways, the two are equal, and the mapping is the copier's; they have one hash and one key.
    fn is_equal(&self, store: &Store, picture: &Picture, copy: u32, mapping: &Mapping, context: &str) {
        for ignore in self.ignore {
            let context = format!("{context}, {copy}, {ignore:?}");
            let paired = (mapping.ops().count() + mapping.blocks().count()) as u32;
            for (lhs, rhs) in [(self.op, copy), (copy, self.op)] {
                let mut compared = Mapping::new();
                let question = Question { sort: Sort::Op, lhs, rhs, ignore: *ignore };
                let found = question.inner(store, &mut compared).expect(&context);
                assert_eq!((found.verdict, found.paired), (oracle::Verdict::Eq, paired), "{context}");
                let same = if rhs == copy { mapping.clone() } else { mapping.inverse().expect(&context) };
                assert!(compared == same && compared.words() == same.words(), "{context}: {compared:?}, {same:?}");
            }
            let hashes = [self.op, copy].map(|n| hash_inner(store, Sort::Op, n, ignore).expect(&context));
            let keys = [self.op, copy].map(|n| key_inner(store, Sort::Op, n, ignore).expect(&context));
            assert!(hashes[0] == hashes[1] && keys[0] == keys[1], "{context}: hashes {hashes:?}, keys {keys:?}");
            assert_eq!(hashes[1], bytes_model::hash(picture, Sort::Op, copy, *ignore), "{context}");
        }
    }
}

/// The mapping has these entries alone, by ids that are good now, and all that is done with one can be done with it.
fn is_document(store: &Store, mapping: &Mapping, expected: &Entries, context: &str) {
    assert_eq!(Entries::of_mapping(mapping), *expected, "{context}");
    assert_eq!(mapping.entries().collect::<Vec<_>>(), expected.listed(store), "{context}");
    assert!(!mapping.is_empty(), "{context}");
    let inverse = mapping.inverse().expect(context);
    let turned = |entry| match entry {
        Entry::Value(l, r) => Entry::Value(r, l),
        Entry::Block(l, r) => Entry::Block(r, l),
        Entry::Op(l, r) => Entry::Op(r, l),
    };
    assert_eq!(inverse.entries().map(turned).collect::<HashSet<_>>(), mapping.entries().collect(), "{context}");
    assert_eq!(mapping.then(&inverse).and_then(|own| own.then(mapping)).as_ref(), Ok(mapping), "{context}");
    let mut cleared = mapping.clone();
    cleared.clear();
    assert!(cleared.is_empty() && cleared.words().iter().all(|image| *image == NONE), "{context}: cleared");
}
