//! Building, by store numbers.

use crate::{
    Mapping,
    attribute::NumberAttr,
    basic_block::BasicBlock,
    context::{Context, Ptr},
    identifier::Identifier,
    irbuild::{cloning::clone_operation, rewriter::IRRewriter},
    location::Location,
    operation::{OpId, Operation},
    region::Region,
    r#type::TypeHandle,
    value::Value,
};

/// pliron's context with what was built in it, by store number.
///
/// Operations, blocks, regions and values are numbered from 0, each in order of creation. The
/// caller is trusted: what document 01 would refuse may panic.
#[derive(Default)]
pub struct Oracle {
    pub(crate) ctx: Context,
    /// By number, since a value of pliron's names its owner too.
    pub(crate) values: Vec<Value>,
}

/// What an attribute is set on, with its number.
#[derive(Clone, Copy, Debug, PartialEq, Eq)]
pub enum Owner {
    /// An operation.
    Op(u32),
    /// A block.
    Block(u32),
}

/// The lists of a new operation.
#[derive(Clone, Copy, Debug, Default, PartialEq, Eq)]
pub struct Lists<'a> {
    /// The types of its results; each result is a new value.
    pub result_types: &'a [u32],
    /// The values that it uses, by number.
    pub operands: &'a [u32],
    /// The blocks that it names, by number.
    pub successors: &'a [u32],
}

/// How many of each there are.
#[derive(Clone, Copy, Debug, Default, PartialEq, Eq)]
pub struct Counts {
    /// Operations.
    pub operations: usize,
    /// Blocks.
    pub blocks: usize,
    /// Regions.
    pub regions: usize,
    /// Values.
    pub values: usize,
}

impl Oracle {
    /// An empty store.
    pub fn new() -> Self {
        Self::default()
    }

    /// Makes an operation with as many new regions, puts it at the end of its parent block, where
    /// it has one, and gives its number.
    pub fn new_operation(&mut self, kind: u32, parent: Option<u32>, location: u32, regions: u32, lists: Lists<'_>) -> u32 {
        let operands = lists.operands.iter().map(|v| self.value(*v)).collect();
        let successors = lists.successors.iter().map(|b| Ptr::from_number(*b));
        let types = lists.result_types.iter().map(|ty| TypeHandle(*ty));
        let op = Operation::new(&mut self.ctx, ((), OpId(kind)), types, operands, successors.collect(), regions as usize);
        op.deref_mut(&self.ctx).set_loc(Location(location));
        self.values.extend(op.deref(&self.ctx).results());
        if let Some(block) = parent {
            op.insert_at_back(Ptr::from_number(block), &self.ctx);
        }
        op.number()
    }

    /// Makes a block, puts it at the end of its region, and gives its number. It has no label.
    pub fn new_block(&mut self, region: u32, location: u32, argument_types: &[u32]) -> u32 {
        let types = argument_types.iter().map(|ty| TypeHandle(*ty));
        let block = BasicBlock::new(&mut self.ctx, None, types);
        block.deref_mut(&self.ctx).set_loc(Location(location));
        self.values.extend(block.deref(&self.ctx).arguments());
        block.insert_at_back(Ptr::<Region>::from_number(region), &self.ctx);
        block.number()
    }

    /// Sets an attribute; a key already there is replaced.
    pub fn set_attribute(&mut self, owner: Owner, key: u32, attr: NumberAttr) {
        let key = Identifier(key);
        let attr = Box::new(attr);
        match owner {
            Owner::Op(number) => {
                let op = Ptr::<Operation>::from_number(number);
                op.deref_mut(&self.ctx).attributes.0.insert(key, attr);
            }
            Owner::Block(number) => {
                let block = Ptr::<BasicBlock>::from_number(number);
                block.deref_mut(&self.ctx).attributes.0.insert(key, attr);
            }
        }
    }

    /// Puts a value in the place of an operand.
    pub fn set_operand(&mut self, op: u32, index: u32, value: u32) {
        let op = Ptr::<Operation>::from_number(op);
        op.deref_mut(&self.ctx).operands[index as usize] = self.value(value);
    }

    /// Clones an operation with all inside it by pliron's `clone_operation`, from what the mapping
    /// holds, puts the clone at the end of its parent block, where it has one, and gives its number.
    /// The values of the clone have numbers only once [`Oracle::number_values`] has been called.
    pub fn clone_operation(&mut self, mapping: &mut Mapping, op: u32, parent: Option<u32>) -> u32 {
        let clone = clone_operation(Ptr::from_number(op), &mut self.ctx, &mut IRRewriter::default(), &mut mapping.0);
        if let Some(block) = parent {
            clone.insert_at_back(Ptr::from_number(block), &self.ctx);
        }
        clone.number()
    }

    /// Finds the values that clones have made, by their numbers.
    pub fn number_values(&mut self) {
        let ctx = &self.ctx;
        let results = ctx.operations.ptrs().flat_map(|op| op.deref(ctx).results().collect::<Vec<_>>());
        let arguments = ctx.blocks.ptrs().flat_map(|block| block.deref(ctx).arguments().collect::<Vec<_>>());
        self.values = results.chain(arguments).collect();
        self.values.sort_by_key(Value::number);
    }

    /// How many of each there are.
    pub fn counts(&self) -> Counts {
        Counts {
            operations: self.ctx.operations.len(),
            blocks: self.ctx.blocks.len(),
            regions: self.ctx.regions.len(),
            values: self.values.len(),
        }
    }

    pub(crate) fn value(&self, number: u32) -> Value {
        self.values[number as usize]
    }
}
