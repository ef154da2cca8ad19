//! The model of the building calls: which are refused and by what, and what an accepted one does, as document 01 says.

use warzhigo::Attribute;
use warzhigo::lent::Owner;

use super::call::{Answer, Call, New};
use super::picture::{Block, Op, Picture, Region, Value};

/// The first cause that holds, of causes in the order in which they are tested.
pub fn first(causes: &[(bool, u32)]) -> Result<(), u32> {
    causes.iter().find(|(holds, _)| *holds).map_or(Ok(()), |(_, cause)| Err(*cause))
}

impl Picture {
    /// Answers a call. A refused one changes nothing.
    pub fn apply(&mut self, call: &Call) -> Answer {
        self.allows(call)?;
        match call {
            Call::Operation(new) => Ok(Some(self.new_operation(new))),
            Call::Block { region, location, argument_types } => Ok(Some(self.new_block(*region, *location, argument_types))),
            Call::Attribute(owner, attribute) => {
                self.set_attribute(*owner, *attribute);
                Ok(None)
            }
            Call::Operand { op, index, value } => {
                self.ops[*op as usize].operands[*index as usize] = *value;
                Ok(None)
            }
            Call::Copy { op, parent } => Ok(Some(self.copy(*op, *parent))),
        }
    }

    /// The cause by which a call is refused, if it is.
    pub fn allows(&self, call: &Call) -> Result<(), u32> {
        match call {
            Call::Operation(new) => self.allows_operation(new),
            Call::Block { region, argument_types, .. } => self.allows_block(*region, argument_types),
            Call::Attribute(owner, attribute) => self.allows_attribute(*owner, *attribute),
            Call::Operand { op, index, value } => self.allows_operand(*op, *index, *value),
            Call::Copy { op, parent } => self.allows_copy(*op, *parent),
        }
    }

    fn has_block(&self, n: u32) -> bool {
        (n as usize) < self.blocks.len()
    }

    fn has_value(&self, n: u32) -> bool {
        (n as usize) < self.values.len()
    }

    /// How deep an operation in this block is.
    pub fn nesting_in(&self, block: u32) -> u32 {
        let region = self.blocks[block as usize].region;
        self.ops[self.regions[region as usize].op as usize].nesting + 1
    }

    fn allows_operation(&self, new: &New) -> Result<(), u32> {
        let New { parent, regions, result_types, operands, successors, .. } = new;
        let missing = parent.is_some_and(|block| !self.has_block(block))
            || operands.iter().any(|value| !self.has_value(*value))
            || successors.iter().any(|block| !self.has_block(*block));
        let long = *regions > 8 || result_types.len() > 16 || operands.len() > 16 || successors.len() > 8;
        first(&[(missing, 2), (long, 4)])?;
        let deep = parent.is_some_and(|block| self.nesting_in(block) > 32);
        let totals = self.totals();
        let full = totals.operations + 1 > 512
            || totals.regions + regions > 256
            || totals.values + result_types.len() as u32 > 2048
            || totals.operands + operands.len() as u32 > 2048
            || totals.successors + successors.len() as u32 > 512;
        first(&[(deep, 5), (full, 3)])
    }

    fn allows_block(&self, region: u32, argument_types: &[u32]) -> Result<(), u32> {
        let totals = self.totals();
        let full = totals.blocks + 1 > 256 || totals.values + argument_types.len() as u32 > 2048;
        first(&[(region >= totals.regions, 2), (argument_types.len() > 16, 4), (full, 3)])
    }

    fn allows_attribute(&self, owner: Owner, attribute: Attribute) -> Result<(), u32> {
        let there = match owner {
            Owner::Op(n) => self.ops.get(n as usize).map(|op| &op.attributes),
            Owner::Block(n) => self.blocks.get(n as usize).map(|block| &block.attributes),
        };
        first(&[(attribute.kind > 63, 6), (there.is_none(), 2)])?;
        let there = there.expect("it was asked whether the owner is there");
        let new_key = there.iter().all(|other| other.key != attribute.key);
        first(&[(new_key && there.len() == 8, 4), (new_key && self.totals().attributes == 1024, 3)])
    }

    fn allows_operand(&self, op: u32, index: u32, value: u32) -> Result<(), u32> {
        match self.ops.get(op as usize) {
            None => Err(2),
            Some(op) => first(&[(!self.has_value(value), 2), (index as usize >= op.operands.len(), 7)]),
        }
    }

    /// New values of one owner, by their types.
    fn new_values(&mut self, owner: Owner, types: &[u32]) -> Vec<u32> {
        let from = self.values.len() as u32;
        let values = types.iter().zip(0..).map(|(ty, place)| Value { ty: *ty, owner, place });
        self.values.extend(values);
        (from..self.values.len() as u32).collect()
    }

    pub fn new_operation(&mut self, new: &New) -> u32 {
        let n = self.ops.len() as u32;
        let from = self.regions.len() as u32;
        self.regions.extend((0..new.regions).map(|_| Region { op: n, blocks: Vec::new() }));
        let results = self.new_values(Owner::Op(n), &new.result_types);
        let nesting = new.parent.map_or(0, |block| self.nesting_in(block));
        if let Some(block) = new.parent {
            self.blocks[block as usize].operations.push(n);
        }
        self.ops.push(Op {
            kind: new.kind,
            parent: new.parent,
            location: new.location,
            nesting,
            regions: (from..from + new.regions).collect(),
            results,
            operands: new.operands.clone(),
            successors: new.successors.clone(),
            attributes: Vec::new(),
        });
        n
    }

    pub fn new_block(&mut self, region: u32, location: u32, argument_types: &[u32]) -> u32 {
        let n = self.blocks.len() as u32;
        let arguments = self.new_values(Owner::Block(n), argument_types);
        self.regions[region as usize].blocks.push(n);
        self.blocks.push(Block { region, location, arguments, operations: Vec::new(), attributes: Vec::new() });
        n
    }

    pub fn set_attribute(&mut self, owner: Owner, attribute: Attribute) {
        let attributes = match owner {
            Owner::Op(n) => &mut self.ops[n as usize].attributes,
            Owner::Block(n) => &mut self.blocks[n as usize].attributes,
        };
        attributes.retain(|other| other.key != attribute.key);
        attributes.push(attribute);
        attributes.sort_by_key(|attribute| attribute.key);
    }
}
