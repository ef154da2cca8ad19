//! What a store holds, read without its words: totals, ids by number, and a view of each operation, block, region and value.

use crate::columns::Column::*;
use crate::columns::{self, BLOCK_SLOTS, Column, Count, INHERENT, SLOTS, at, part};
use crate::eras::Eras;
use crate::ids::{BlockId, Id, OpId, RegionId, ValueId};
use crate::refused::Refused;
use crate::store::{Attribute, Inherent, Owner, Store};

/// How many there are of each thing in a store.
#[derive(Clone, Copy, PartialEq, Eq, Debug)]
pub struct Totals {
    /// Operations, 512 at most.
    pub operations: u32,
    /// Blocks, 256 at most.
    pub blocks: u32,
    /// Regions, 256 at most.
    pub regions: u32,
    /// Values, 2,048 at most.
    pub values: u32,
    /// Operands of all operations, 2,048 at most.
    pub operands: u32,
    /// Successors of all operations, 512 at most.
    pub successors: u32,
    /// Attributes of all operations and blocks, 1,024 at most.
    pub attributes: u32,
}

impl Store {
    /// How many there are of each thing.
    pub fn totals(&self) -> Totals {
        let count = |of| columns::count(self.words(), of);
        Totals {
            operations: count(Count::Operations),
            blocks: count(Count::Blocks),
            regions: count(Count::Regions),
            values: count(Count::Values),
            operands: count(Count::Operands),
            successors: count(Count::Successors),
            attributes: count(Count::Attributes),
        }
    }

    /// The operation of this number, if there is one.
    pub fn op_id(&self, number: u32) -> Option<OpId> {
        self.id(number)
    }

    /// The block of this number, if there is one.
    pub fn block_id(&self, number: u32) -> Option<BlockId> {
        self.id(number)
    }

    /// The region of this number, if there is one.
    pub fn region_id(&self, number: u32) -> Option<RegionId> {
        self.id(number)
    }

    /// The value of this number, if there is one.
    pub fn value_id(&self, number: u32) -> Option<ValueId> {
        self.id(number)
    }

    /// What an operation has. Refused by 2 where it isn't of this store, or has gone.
    pub fn operation(&self, op: OpId) -> Result<Operation<'_>, Refused> {
        Ok(Operation { store: self, n: self.own(op)? })
    }

    /// What a block has. Refused by 2 where it isn't of this store, or has gone.
    pub fn block(&self, block: BlockId) -> Result<Block<'_>, Refused> {
        Ok(Block { store: self, n: self.own(block)? })
    }

    /// What a region has. Refused by 2 where it isn't of this store, or has gone.
    pub fn region(&self, region: RegionId) -> Result<Region<'_>, Refused> {
        Ok(Region { store: self, n: self.own(region)? })
    }

    /// What a value is. Refused by 2 where it isn't of this store, or has gone.
    pub fn value(&self, value: ValueId) -> Result<Value<'_>, Refused> {
        Ok(Value { store: self, n: self.own(value)? })
    }

    /// All operations, by rising number.
    pub fn operations(&self) -> impl Iterator<Item = Operation<'_>> + Clone {
        self.numbers(Count::Operations).map(|n| Operation { store: self, n })
    }

    /// All blocks, by rising number.
    pub fn blocks(&self) -> impl Iterator<Item = Block<'_>> + Clone {
        self.numbers(Count::Blocks).map(|n| Block { store: self, n })
    }

    /// All regions, by rising number.
    pub fn regions(&self) -> impl Iterator<Item = Region<'_>> + Clone {
        self.numbers(Count::Regions).map(|n| Region { store: self, n })
    }

    /// All values, by rising number.
    pub fn values(&self) -> impl Iterator<Item = Value<'_>> + Clone {
        self.numbers(Count::Values).map(|n| Value { store: self, n })
    }

    fn numbers(&self, of: Count) -> core::ops::Range<usize> {
        0..columns::count(self.words(), of) as usize
    }

    fn id<I: Id>(&self, number: u32) -> Option<I> {
        (number < columns::count(self.words(), I::OF)).then(|| self.existing(number))
    }

    /// Which ids are good.
    #[inline]
    pub(crate) fn eras(&self) -> &Eras {
        self.sound.eras()
    }

    /// The id of a number that exists.
    #[inline]
    pub(crate) fn existing<I: Id>(&self, number: u32) -> I {
        I::existing(number, self.eras().owner(I::OF, number))
    }

    fn own<I: Id>(&self, id: I) -> Result<usize, Refused> {
        if !self.eras().has(id) {
            return Err(Refused::NOTHING_THERE);
        }
        Ok(id.number() as usize)
    }

    fn at(&self, column: Column, n: usize) -> u32 {
        at(self.words(), column, n)
    }

    /// The ids of a range of numbers.
    fn ids<'a, I: Id + 'a>(&'a self, first: Column, end: Column, n: usize) -> impl ExactSizeIterator<Item = I> + Clone + 'a {
        columns::range(self.words(), first, end, n).map(|number| self.existing(number))
    }

    /// The ids that stand in a part of a shared list.
    fn listed<'a, I: Id + 'a>(
        &'a self,
        list: Column,
        first: Column,
        end: Column,
        n: usize,
    ) -> impl ExactSizeIterator<Item = I> + Clone + 'a {
        let range = columns::range(self.words(), first, end, n);
        part(self.words(), list, range).iter().map(|number| self.existing(*number))
    }

    /// The ids in a range of numbers whose entry in `column` is `owner`.
    fn children<'a, I: Id + 'a>(
        &'a self,
        range: [Column; 2],
        n: usize,
        column: Column,
        owner: u32,
    ) -> impl Iterator<Item = I> + Clone + 'a {
        let range = columns::range(self.words(), range[0], range[1], n);
        range.filter(move |child| self.at(column, *child as usize) == owner).map(|child| self.existing(child))
    }

    /// The attributes in so many slots.
    fn attributes(&self, slot: usize, count: u32) -> impl ExactSizeIterator<Item = Attribute> + Clone + '_ {
        (slot..slot + count as usize).map(|slot| self.attribute(slot))
    }

    /// The attribute in a slot: its kind, and whether it is inherent, share a word.
    fn attribute(&self, slot: usize) -> Attribute {
        let word = self.at(SlotKind, slot);
        let inherent = if word < INHERENT { Inherent::No } else { Inherent::Yes };
        Attribute { key: self.at(SlotKey, slot), kind: word % INHERENT, content: self.at(SlotContent, slot), inherent }
    }
}

/// An operation of a store, to be read.
#[derive(Clone, Copy, Debug)]
pub struct Operation<'a> {
    store: &'a Store,
    n: usize,
}

impl<'a> Operation<'a> {
    /// Its id.
    pub fn id(self) -> OpId {
        self.store.existing(self.n as u32)
    }

    /// Its kind.
    pub fn kind(self) -> u32 {
        self.store.at(OpKind, self.n)
    }

    /// The block that it is in, if any.
    pub fn parent(self) -> Option<BlockId> {
        self.store.at(OpParent, self.n).checked_sub(1).map(|block| self.store.existing(block))
    }

    /// Its location.
    pub fn location(self) -> u32 {
        self.store.at(OpLocation, self.n)
    }

    /// The number of regions around it.
    pub fn nesting(self) -> u32 {
        self.store.at(OpDepth, self.n)
    }

    /// Its regions.
    pub fn regions(self) -> impl ExactSizeIterator<Item = RegionId> + Clone + 'a {
        self.store.ids(OpRegionFirst, OpRegionEnd, self.n)
    }

    /// Its results.
    pub fn results(self) -> impl ExactSizeIterator<Item = ValueId> + Clone + 'a {
        self.store.ids(OpResultFirst, OpResultEnd, self.n)
    }

    /// Its operands.
    pub fn operands(self) -> impl ExactSizeIterator<Item = ValueId> + Clone + 'a {
        self.store.listed(OperandWords, OpOperandFirst, OpOperandEnd, self.n)
    }

    /// Its successors.
    pub fn successors(self) -> impl ExactSizeIterator<Item = BlockId> + Clone + 'a {
        self.store.listed(SuccessorWords, OpSuccessorFirst, OpSuccessorEnd, self.n)
    }

    /// Its attributes, by rising key.
    pub fn attributes(self) -> impl ExactSizeIterator<Item = Attribute> + Clone + 'a {
        self.store.attributes(self.n * SLOTS, self.store.at(OpAttributes, self.n))
    }
}

/// A block of a store, to be read.
#[derive(Clone, Copy, Debug)]
pub struct Block<'a> {
    store: &'a Store,
    n: usize,
}

impl<'a> Block<'a> {
    /// Its id.
    pub fn id(self) -> BlockId {
        self.store.existing(self.n as u32)
    }

    /// The region that it is in.
    pub fn region(self) -> RegionId {
        self.store.existing(self.store.at(BlockRegion, self.n))
    }

    /// Its location.
    pub fn location(self) -> u32 {
        self.store.at(BlockLocation, self.n)
    }

    /// Its arguments.
    pub fn arguments(self) -> impl ExactSizeIterator<Item = ValueId> + Clone + 'a {
        self.store.ids(BlockArgumentFirst, BlockArgumentEnd, self.n)
    }

    /// Its operations, from first to last.
    pub fn operations(self) -> impl Iterator<Item = OpId> + Clone + 'a {
        self.store.children([BlockOpFirst, BlockOpEnd], self.n, OpParent, self.n as u32 + 1)
    }

    /// Its attributes, by rising key.
    pub fn attributes(self) -> impl ExactSizeIterator<Item = Attribute> + Clone + 'a {
        self.store.attributes(BLOCK_SLOTS + self.n * SLOTS, self.store.at(BlockAttributes, self.n))
    }
}

/// A region of a store, to be read.
#[derive(Clone, Copy, Debug)]
pub struct Region<'a> {
    store: &'a Store,
    n: usize,
}

impl<'a> Region<'a> {
    /// Its id.
    pub fn id(self) -> RegionId {
        self.store.existing(self.n as u32)
    }

    /// The operation that it is a region of.
    pub fn operation(self) -> OpId {
        self.store.existing(self.store.at(RegionOp, self.n))
    }

    /// Its blocks, from first to last.
    pub fn blocks(self) -> impl Iterator<Item = BlockId> + Clone + 'a {
        self.store.children([RegionBlockFirst, RegionBlockEnd], self.n, BlockRegion, self.n as u32)
    }
}

/// A value of a store, to be read.
#[derive(Clone, Copy, Debug)]
pub struct Value<'a> {
    store: &'a Store,
    n: usize,
}

impl Value<'_> {
    /// Its id.
    pub fn id(self) -> ValueId {
        self.store.existing(self.n as u32)
    }

    /// Its type.
    pub fn get_type(self) -> u32 {
        self.store.at(ValueType, self.n)
    }

    /// The operation whose result it is, or the block whose argument it is.
    pub fn owner(self) -> Owner {
        let code = self.store.at(ValueOwner, self.n);
        match code % 2 {
            0 => Owner::Op(self.store.existing(code / 2)),
            _ => Owner::Block(self.store.existing(code / 2)),
        }
    }

    /// Its place among its owner's results or arguments, from 0.
    pub fn place(self) -> u32 {
        let first = match self.owner() {
            Owner::Op(op) => self.store.at(OpResultFirst, op.number() as usize),
            Owner::Block(block) => self.store.at(BlockArgumentFirst, block.number() as usize),
        };
        self.n as u32 - first
    }
}
