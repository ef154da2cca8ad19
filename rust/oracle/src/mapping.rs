//! pliron's mapping, by store numbers. `IrMapping` can't be gone through, so its entries are found
//! by looking up every number of the store.

use crate::{Oracle, context::Ptr, irbuild::cloning::IrMapping};

/// pliron's mapping.
///
/// A value is known to it with its owner, so a mapping belongs to the store that it was first used
/// with.
#[derive(Debug, Default)]
pub struct Mapping(pub(crate) IrMapping);

impl Mapping {
    /// An empty mapping.
    #[inline]
    pub fn new() -> Self {
        Self::default()
    }
}

impl Oracle {
    /// Enters the image of a value; an earlier one is replaced.
    pub fn enter_value(&self, mapping: &mut Mapping, left: u32, image: u32) {
        mapping.0.map_value(self.value(left), self.value(image));
    }

    /// Enters the image of a block; an earlier one is replaced.
    pub fn enter_block(&self, mapping: &mut Mapping, left: u32, image: u32) {
        let (from, to) = (Ptr::from_number(left), Ptr::from_number(image));
        mapping.0.map_block(from, to);
    }

    /// Enters the image of an operation; an earlier one is replaced.
    pub fn enter_op(&self, mapping: &mut Mapping, left: u32, image: u32) {
        let (from, to) = (Ptr::from_number(left), Ptr::from_number(image));
        mapping.0.map_op(from, to);
    }

    /// The values that have an image, each with it, by rising left number.
    pub fn value_entries(&self, mapping: &Mapping) -> Vec<(u32, u32)> {
        let values = self.values.iter();
        let entries = values.filter_map(|value| {
            let image = mapping.0.lookup_value(*value)?;
            Some((value.number(), image.number()))
        });
        entries.collect()
    }

    /// The blocks that have an image, each with it, by rising left number.
    pub fn block_entries(&self, mapping: &Mapping) -> Vec<(u32, u32)> {
        let blocks = self.ctx.blocks.ptrs();
        let entries = blocks.filter_map(|block| {
            let image = mapping.0.lookup_block(block)?;
            Some((block.number(), image.number()))
        });
        entries.collect()
    }

    /// The operations that have an image, each with it, by rising left number.
    pub fn op_entries(&self, mapping: &Mapping) -> Vec<(u32, u32)> {
        let ops = self.ctx.operations.ptrs();
        let entries = ops.filter_map(|op| {
            let image = mapping.0.lookup_op(op)?;
            Some((op.number(), image.number()))
        });
        entries.collect()
    }
}
