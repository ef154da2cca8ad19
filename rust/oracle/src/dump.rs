//! The store as text.

use crate::{
    Oracle,
    attribute::AttributeDict,
    basic_block::BasicBlock,
    context::{Context, Ptr},
    linked_list::ContainsLinkedList,
    operation::{OpId, Operation},
    region::Region,
    r#type::Typed,
    value::{DefiningEntity, Value},
};

impl Oracle {
    /// The store, its lines parted by a vertical bar. Lists are parted by commas, attributes stand
    /// by rising key as KEY:KIND:CONTENT with `:i` behind an inherent one, and PARENT is `-` for none:
    ///
    /// ```text
    /// op N KIND PARENT LOCATION r[REGIONS] v[RESULTS] u[OPERANDS] s[SUCCESSORS] a[ATTRIBUTES]
    /// block N REGION LOCATION v[ARGUMENTS] o[OPERATIONS] a[ATTRIBUTES]
    /// region N OPERATION b[BLOCKS]
    /// value N TYPE OWNER.PLACE
    /// totals OPERANDS SUCCESSORS ATTRIBUTES
    /// ```
    ///
    /// OWNER is `o` or `b` and a number. There is one line of totals, and one of the others for
    /// each thing in the store.
    pub fn dump(&self) -> String {
        let ctx = &self.ctx;
        let mut lines: Vec<String> = Vec::new();
        lines.extend(ctx.operations.ptrs().map(|op| operation_line(ctx, op)));
        lines.extend(ctx.blocks.ptrs().map(|block| block_line(ctx, block)));
        lines.extend(ctx.regions.ptrs().map(|region| region_line(ctx, region)));
        lines.extend(self.values.iter().map(|value| value_line(ctx, value)));
        lines.push(totals_line(ctx));
        lines.join("|")
    }
}

fn operation_line(ctx: &Context, ptr: Ptr<Operation>) -> String {
    let op = ptr.deref(ctx);
    let OpId(kind) = op.concrete_op_info().1;
    let parent = op.get_parent_block();
    let parent = parent.map_or("-".to_string(), |block| block.number().to_string());
    let regions = (0..op.num_regions()).map(|index| op.get_region(index));
    format!(
        "op {} {kind} {parent} {} r[{}] v[{}] u[{}] s[{}] a[{}]",
        ptr.number(),
        op.loc().0,
        list(regions.map(|region| region.number())),
        list(op.results().map(|value| value.number())),
        list(op.operands().map(|value| value.number())),
        list(op.successors().map(|block| block.number())),
        attributes(&op.attributes)
    )
}

fn block_line(ctx: &Context, ptr: Ptr<BasicBlock>) -> String {
    let block = ptr.deref(ctx);
    let region = block.get_parent_region();
    let region = region.expect("a block is made in a region");
    format!(
        "block {} {} {} v[{}] o[{}] a[{}]",
        ptr.number(),
        region.number(),
        block.loc().0,
        list(block.arguments().map(|value| value.number())),
        list(block.iter(ctx).map(|op| op.number())),
        attributes(&block.attributes)
    )
}

fn region_line(ctx: &Context, ptr: Ptr<Region>) -> String {
    let region = ptr.deref(ctx);
    format!("region {} {} b[{}]", ptr.number(), region.get_parent_op().number(), list(region.iter(ctx).map(|block| block.number())))
}

fn value_line(ctx: &Context, value: &Value) -> String {
    let owner = match value.defining_entity {
        DefiningEntity::Op(op) => format!("o{}", op.number()),
        DefiningEntity::Block(block) => format!("b{}", block.number()),
    };
    let (ty, place) = (value.get_type(ctx).0, value.find_index(ctx));
    format!("value {} {ty} {owner}.{place}", value.number())
}

fn totals_line(ctx: &Context) -> String {
    let (mut operands, mut successors, mut attributes) = (0, 0, 0);
    for op in ctx.operations.ptrs() {
        let op = op.deref(ctx);
        operands += op.get_num_operands();
        successors += op.get_num_successors();
        attributes += op.attributes.0.len();
    }
    for block in ctx.blocks.ptrs() {
        attributes += block.deref(ctx).attributes.0.len();
    }
    format!("totals {operands} {successors} {attributes}")
}

fn attributes(dict: &AttributeDict) -> String {
    let mut entries: Vec<_> = dict.0.iter().collect();
    entries.sort_by_key(|(key, _)| **key);
    let entries = entries.iter();
    let entries = entries.map(|(key, attr)| {
        let flag = if attr.inherent() { ":i" } else { "" };
        format!("{}:{}:{}{flag}", key.0, attr.kind(), attr.content())
    });
    entries.collect::<Vec<_>>().join(",")
}

fn list(numbers: impl Iterator<Item = u32>) -> String {
    let texts: Vec<_> = numbers.map(|number| number.to_string()).collect();
    texts.join(",")
}
