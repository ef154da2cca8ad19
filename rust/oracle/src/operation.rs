//! Stands in for pliron's operation.rs: what building, comparing and hashing need, with fields and
//! methods named as there. There are no use lists, so an operand is its value and a successor its
//! block.

use crate::{
    attribute::AttributeDict,
    basic_block::BasicBlock,
    context::{Arena, Context, Ptr, private::ArenaObj},
    linked_list::{LinkedList, private},
    location::Location,
    region::Region,
    r#type::TypeHandle,
    value::{DefiningEntity, Value},
};

/// The kind. In pliron, the names of the dialect and of the operation.
#[derive(Clone, Copy, PartialEq, Eq, Hash)]
pub struct OpId(pub u32);

/// In pliron the first field makes the concrete operation.
pub type ConcreteOpInfo = ((), OpId);

pub struct OpResult {
    pub(crate) val_uid: u64,
    pub(crate) ty: TypeHandle,
}

impl OpResult {
    fn new(ctx: &Context, ty: TypeHandle) -> OpResult {
        let val_uid = ctx.get_new_value_uid();
        OpResult { val_uid, ty }
    }

    fn as_value(&self, op: Ptr<Operation>) -> Value {
        Value { defining_entity: DefiningEntity::Op(op), val_uid: self.val_uid }
    }
}

#[derive(Default)]
struct BlockLinks {
    parent_block: Option<Ptr<BasicBlock>>,
    next_op: Option<Ptr<Operation>>,
    prev_op: Option<Ptr<Operation>>,
}

pub struct Operation {
    self_ptr: Ptr<Operation>,
    concrete_op: ConcreteOpInfo,
    pub(crate) results: Vec<OpResult>,
    pub(crate) operands: Vec<Value>,
    successors: Vec<Ptr<BasicBlock>>,
    block_links: BlockLinks,
    pub attributes: AttributeDict,
    pub(crate) regions: Vec<Ptr<Region>>,
    loc: Location,
}

impl Operation {
    pub fn new(
        ctx: &mut Context,
        concrete_op: ConcreteOpInfo,
        result_types: impl IntoIterator<Item = TypeHandle>,
        operands: Vec<Value>,
        successors: Vec<Ptr<BasicBlock>>,
        num_regions: usize,
    ) -> Ptr<Operation> {
        let results = result_types.into_iter();
        let results = results.map(|ty| OpResult::new(ctx, ty));
        let results = results.collect();
        let newop = ctx.operations.alloc(|self_ptr| Operation {
            self_ptr,
            concrete_op,
            results,
            operands,
            successors,
            block_links: BlockLinks::default(),
            attributes: AttributeDict::default(),
            regions: Vec::new(),
            loc: Location::default(),
        });
        let regions = (0..num_regions).map(|_| Region::new(ctx, newop)).collect();
        newop.deref_mut(ctx).regions = regions;
        newop
    }

    pub fn get_parent_block(&self) -> Option<Ptr<BasicBlock>> {
        self.block_links.parent_block
    }

    pub fn concrete_op_info(&self) -> ConcreteOpInfo {
        self.concrete_op
    }

    pub fn get_opid(ptr: Ptr<Self>, ctx: &Context) -> OpId {
        ptr.deref(ctx).concrete_op.1
    }

    pub fn loc(&self) -> &Location {
        &self.loc
    }

    pub fn set_loc(&mut self, loc: Location) {
        self.loc = loc;
    }

    pub fn get_num_results(&self) -> usize {
        self.results.len()
    }

    pub fn results(&self) -> impl Iterator<Item = Value> + Clone + '_ {
        self.results.iter().map(|res| res.as_value(self.self_ptr))
    }

    pub fn result_types(&self) -> impl Iterator<Item = TypeHandle> + Clone + '_ {
        self.results.iter().map(|res| res.ty)
    }

    pub fn push_operand(op: Ptr<Operation>, ctx: &Context, operand: Value) {
        op.deref_mut(ctx).operands.push(operand);
    }

    pub fn get_num_operands(&self) -> usize {
        self.operands.len()
    }

    pub fn operands(&self) -> impl Iterator<Item = Value> + Clone + '_ {
        self.operands.iter().copied()
    }

    pub fn get_num_successors(&self) -> usize {
        self.successors.len()
    }

    pub fn successors(&self) -> impl Iterator<Item = Ptr<BasicBlock>> + Clone + '_ {
        self.successors.iter().copied()
    }

    pub fn num_regions(&self) -> usize {
        self.regions.len()
    }

    pub fn get_region(&self, reg_idx: usize) -> Ptr<Region> {
        self.regions[reg_idx]
    }
}

impl PartialEq for Operation {
    fn eq(&self, other: &Self) -> bool {
        self.self_ptr == other.self_ptr
    }
}

impl private::LinkedList for Operation {
    type ContainerType = BasicBlock;

    fn set_next(&mut self, next: Option<Ptr<Self>>) {
        self.block_links.next_op = next;
    }

    fn set_prev(&mut self, prev: Option<Ptr<Self>>) {
        self.block_links.prev_op = prev;
    }

    fn set_container(&mut self, container: Option<Ptr<BasicBlock>>) {
        self.block_links.parent_block = container;
    }
}

impl LinkedList for Operation {
    fn get_next(&self) -> Option<Ptr<Self>> {
        self.block_links.next_op
    }

    fn get_prev(&self) -> Option<Ptr<Self>> {
        self.block_links.prev_op
    }

    fn get_container(&self) -> Option<Ptr<BasicBlock>> {
        self.block_links.parent_block
    }
}

impl ArenaObj for Operation {
    fn get_arena(ctx: &Context) -> &Arena<Self> {
        &ctx.operations
    }
}

/// Only for the printing of a verdict in equivalence.rs.
pub struct OpDbg<'a> {
    pub op: Ptr<Operation>,
    pub ctx: &'a Context,
}

impl core::fmt::Display for OpDbg<'_> {
    fn fmt(&self, f: &mut core::fmt::Formatter<'_>) -> core::fmt::Result {
        let OpId(kind) = Operation::get_opid(self.op, self.ctx);
        write!(f, "op{} of kind {kind}", self.op.number())
    }
}
