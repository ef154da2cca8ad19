//! Stands in for pliron's region.rs: what building, comparing and hashing need, with fields and
//! methods named as there.

use crate::{
    basic_block::BasicBlock,
    context::{Arena, Context, Ptr, private::ArenaObj},
    linked_list::{ContainsLinkedList, private},
    operation::Operation,
};

#[derive(Default)]
struct BlocksInRegion {
    first: Option<Ptr<BasicBlock>>,
    last: Option<Ptr<BasicBlock>>,
}

pub struct Region {
    self_ptr: Ptr<Region>,
    parent_op: Ptr<Operation>,
    blocks: BlocksInRegion,
}

impl Region {
    pub fn new(ctx: &mut Context, parent_op: Ptr<Operation>) -> Ptr<Region> {
        ctx.regions.alloc(|self_ptr| Region { self_ptr, parent_op, blocks: BlocksInRegion::default() })
    }

    pub fn get_parent_op(&self) -> Ptr<Operation> {
        self.parent_op
    }

    pub fn find_index_in_parent(&self, ctx: &Context) -> usize {
        let parent_op = self.parent_op.deref(ctx);
        let mut regions = parent_op.regions.iter();
        regions.position(|region| *region == self.self_ptr).expect("a region stands in its operation's list")
    }
}

impl private::ContainsLinkedList<BasicBlock> for Region {
    fn set_head(&mut self, head: Option<Ptr<BasicBlock>>) {
        self.blocks.first = head;
    }

    fn set_tail(&mut self, tail: Option<Ptr<BasicBlock>>) {
        self.blocks.last = tail;
    }
}

impl ContainsLinkedList<BasicBlock> for Region {
    fn get_head(&self) -> Option<Ptr<BasicBlock>> {
        self.blocks.first
    }

    fn get_tail(&self) -> Option<Ptr<BasicBlock>> {
        self.blocks.last
    }
}

impl ArenaObj for Region {
    fn get_arena(ctx: &Context) -> &Arena<Self> {
        &ctx.regions
    }
}
