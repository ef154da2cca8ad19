//! Stands in for pliron's basic_block.rs: what building, comparing and hashing need, with fields
//! and methods named as there. There are no use lists.

use crate::{
    attribute::AttributeDict,
    common_traits::Named,
    context::{Arena, Context, Ptr, private::ArenaObj},
    identifier::Identifier,
    linked_list::{ContainsLinkedList, LinkedList, private},
    location::Location,
    operation::Operation,
    region::Region,
    r#type::TypeHandle,
    value::{DefiningEntity, Value},
};

pub struct BlockArgument {
    pub(crate) val_uid: u64,
    pub(crate) ty: TypeHandle,
}

impl BlockArgument {
    fn new(ctx: &Context, ty: TypeHandle) -> BlockArgument {
        let val_uid = ctx.get_new_value_uid();
        BlockArgument { val_uid, ty }
    }

    fn as_value(&self, block: Ptr<BasicBlock>) -> Value {
        Value { defining_entity: DefiningEntity::Block(block), val_uid: self.val_uid }
    }
}

#[derive(Default)]
struct OpsInBlock {
    first: Option<Ptr<Operation>>,
    last: Option<Ptr<Operation>>,
}

#[derive(Default)]
struct RegionLinks {
    parent_region: Option<Ptr<Region>>,
    next_block: Option<Ptr<BasicBlock>>,
    prev_block: Option<Ptr<BasicBlock>>,
}

pub struct BasicBlock {
    self_ptr: Ptr<BasicBlock>,
    pub(crate) label: Option<Identifier>,
    ops_list: OpsInBlock,
    pub(crate) args: Vec<BlockArgument>,
    region_links: RegionLinks,
    pub attributes: AttributeDict,
    loc: Location,
}

impl Named for BasicBlock {
    fn unique_name(&self, _ctx: &Context) -> String {
        match self.label {
            None => format!("block{}", self.self_ptr.number()),
            Some(Identifier(label)) => format!("{label}_block{}", self.self_ptr.number()),
        }
    }
}

impl BasicBlock {
    pub fn new(ctx: &mut Context, label: Option<Identifier>, arg_types: impl IntoIterator<Item = TypeHandle>) -> Ptr<BasicBlock> {
        let args = arg_types.into_iter();
        let args = args.map(|ty| BlockArgument::new(ctx, ty));
        let args = args.collect();
        ctx.blocks.alloc(|self_ptr| BasicBlock {
            self_ptr,
            label,
            ops_list: OpsInBlock::default(),
            args,
            region_links: RegionLinks::default(),
            attributes: AttributeDict::default(),
            loc: Location::default(),
        })
    }

    pub fn loc(&self) -> &Location {
        &self.loc
    }

    pub fn set_loc(&mut self, loc: Location) {
        self.loc = loc;
    }

    pub fn get_parent_region(&self) -> Option<Ptr<Region>> {
        self.region_links.parent_region
    }

    pub fn arguments(&self) -> impl Iterator<Item = Value> + Clone + '_ {
        self.args.iter().map(|arg| arg.as_value(self.self_ptr))
    }

    pub fn get_num_arguments(&self) -> usize {
        self.args.len()
    }
}

impl PartialEq for BasicBlock {
    fn eq(&self, other: &Self) -> bool {
        self.self_ptr == other.self_ptr
    }
}

impl private::ContainsLinkedList<Operation> for BasicBlock {
    fn set_head(&mut self, head: Option<Ptr<Operation>>) {
        self.ops_list.first = head;
    }

    fn set_tail(&mut self, tail: Option<Ptr<Operation>>) {
        self.ops_list.last = tail;
    }
}

impl ContainsLinkedList<Operation> for BasicBlock {
    fn get_head(&self) -> Option<Ptr<Operation>> {
        self.ops_list.first
    }

    fn get_tail(&self) -> Option<Ptr<Operation>> {
        self.ops_list.last
    }
}

impl private::LinkedList for BasicBlock {
    type ContainerType = Region;

    fn set_next(&mut self, next: Option<Ptr<Self>>) {
        self.region_links.next_block = next;
    }

    fn set_prev(&mut self, prev: Option<Ptr<Self>>) {
        self.region_links.prev_block = prev;
    }

    fn set_container(&mut self, container: Option<Ptr<Region>>) {
        self.region_links.parent_region = container;
    }
}

impl LinkedList for BasicBlock {
    fn get_next(&self) -> Option<Ptr<Self>> {
        self.region_links.next_block
    }

    fn get_prev(&self) -> Option<Ptr<Self>> {
        self.region_links.prev_block
    }

    fn get_container(&self) -> Option<Ptr<Region>> {
        self.region_links.parent_region
    }
}

impl ArenaObj for BasicBlock {
    fn get_arena(ctx: &Context) -> &Arena<Self> {
        &ctx.blocks
    }
}
