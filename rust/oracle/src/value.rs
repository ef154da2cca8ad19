//! Stands in for pliron's value.rs: what building, comparing and hashing need, with fields and
//! methods named as there. There are no use lists.

use core::hash::{Hash, Hasher};

use crate::{
    basic_block::BasicBlock,
    context::{Context, Ptr},
    operation::Operation,
    r#type::{TypeHandle, Typed},
};

#[derive(Debug, Clone, Copy, PartialEq, Eq)]
pub enum DefiningEntity {
    Op(Ptr<Operation>),
    Block(Ptr<BasicBlock>),
}

#[derive(Debug, Clone, Copy, PartialEq, Eq)]
pub struct Value {
    pub(crate) val_uid: u64,
    pub(crate) defining_entity: DefiningEntity,
}

impl Hash for Value {
    /// pliron hashes both fields; here the store number stands for them, in 4 bytes.
    fn hash<H: Hasher>(&self, state: &mut H) {
        state.write_u32(self.number());
    }
}

impl Value {
    pub fn number(&self) -> u32 {
        self.val_uid as u32
    }

    /// A search among the owner's results or arguments, as in pliron.
    pub fn find_index(&self, ctx: &Context) -> usize {
        match self.defining_entity {
            DefiningEntity::Op(op) => {
                let op = op.deref(ctx);
                op.results.iter().position(|r| r.val_uid == self.val_uid)
            }
            DefiningEntity::Block(block) => {
                let block = block.deref(ctx);
                block.args.iter().position(|a| a.val_uid == self.val_uid)
            }
        }
        .expect("a value stands in its owner's list")
    }
}

impl Typed for Value {
    fn get_type(&self, ctx: &Context) -> TypeHandle {
        let index = self.find_index(ctx);
        match self.defining_entity {
            DefiningEntity::Op(op) => op.deref(ctx).results[index].ty,
            DefiningEntity::Block(block) => block.deref(ctx).args[index].ty,
        }
    }
}
