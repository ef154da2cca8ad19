//! A store as plain data, read through the accessors of the crate and never through words. The models work on it.

use warzhigo::lent::Owner;
use warzhigo::{Attribute, Inherent, Store, Totals};

#[derive(Clone, PartialEq, Eq, Debug, Default)]
pub struct Picture {
    pub ops: Vec<Op>,
    pub blocks: Vec<Block>,
    pub regions: Vec<Region>,
    pub values: Vec<Value>,
}

#[derive(Clone, PartialEq, Eq, Debug)]
pub struct Op {
    pub kind: u32,
    pub parent: Option<u32>,
    pub location: u32,
    pub nesting: u32,
    pub regions: Vec<u32>,
    pub results: Vec<u32>,
    pub operands: Vec<u32>,
    pub successors: Vec<u32>,
    pub attributes: Vec<Attribute>,
}

#[derive(Clone, PartialEq, Eq, Debug)]
pub struct Block {
    pub region: u32,
    pub location: u32,
    pub arguments: Vec<u32>,
    pub operations: Vec<u32>,
    pub attributes: Vec<Attribute>,
}

#[derive(Clone, PartialEq, Eq, Debug)]
pub struct Region {
    pub op: u32,
    pub blocks: Vec<u32>,
}

#[derive(Clone, PartialEq, Eq, Debug)]
pub struct Value {
    pub ty: u32,
    pub owner: Owner,
    pub place: u32,
}

impl Picture {
    pub fn of(store: &Store, context: &str) -> Picture {
        let picture = Picture {
            ops: store.operations().map(Op::of).collect(),
            blocks: store.blocks().map(Block::of).collect(),
            regions: store.regions().map(Region::of).collect(),
            values: store.values().map(Value::of).collect(),
        };
        assert_eq!(store.totals(), picture.totals(), "{context}: the store counts what it holds");
        picture
    }

    pub fn totals(&self) -> Totals {
        let keys = |owners: &mut dyn Iterator<Item = usize>| owners.sum::<usize>() as u32;
        Totals {
            operations: self.ops.len() as u32,
            blocks: self.blocks.len() as u32,
            regions: self.regions.len() as u32,
            values: self.values.len() as u32,
            operands: self.ops.iter().map(|op| op.operands.len() as u32).sum(),
            successors: self.ops.iter().map(|op| op.successors.len() as u32).sum(),
            attributes: keys(&mut self.ops.iter().map(|op| op.attributes.len()))
                + keys(&mut self.blocks.iter().map(|block| block.attributes.len())),
        }
    }

    /// The same, with no attribute inherent.
    pub fn without_flags(&self) -> Picture {
        let mut picture = self.clone();
        let of_ops = picture.ops.iter_mut().flat_map(|op| &mut op.attributes);
        let of_blocks = picture.blocks.iter_mut().flat_map(|block| &mut block.attributes);
        of_ops.chain(of_blocks).for_each(|attribute| attribute.inherent = Inherent::No);
        picture
    }

    /// The lines of `D` in the form for calls, parted by vertical bars, but for the one of marks.
    pub fn dump(&self) -> String {
        let mut lines = Vec::new();
        lines.extend(self.ops.iter().enumerate().map(|(n, op)| op.line(n)));
        lines.extend(self.blocks.iter().enumerate().map(|(n, block)| block.line(n)));
        lines.extend(self.regions.iter().enumerate().map(|(n, r)| format!("region {n} {} b{}", r.op, list(&r.blocks))));
        lines.extend(self.values.iter().enumerate().map(|(n, value)| value.line(n)));
        let totals = self.totals();
        lines.push(format!("totals {} {} {}", totals.operands, totals.successors, totals.attributes));
        lines.join("|")
    }
}

impl Op {
    fn of(op: warzhigo::Operation<'_>) -> Op {
        Op {
            kind: op.kind(),
            parent: op.parent().map(|block| block.number()),
            location: op.location(),
            nesting: op.nesting(),
            regions: op.regions().map(|region| region.number()).collect(),
            results: op.results().map(|value| value.number()).collect(),
            operands: op.operands().map(|value| value.number()).collect(),
            successors: op.successors().map(|block| block.number()).collect(),
            attributes: op.attributes().collect(),
        }
    }

    fn line(&self, n: usize) -> String {
        let parent = self.parent.map_or("-".to_string(), |block| block.to_string());
        let [regions, results] = [&self.regions, &self.results].map(|items| list(items));
        let [operands, successors] = [&self.operands, &self.successors].map(|items| list(items));
        let (kind, location, attributes) = (self.kind, self.location, keys(&self.attributes));
        format!("op {n} {kind} {parent} {location} r{regions} v{results} u{operands} s{successors} a{attributes}")
    }
}

impl Block {
    fn of(block: warzhigo::Block<'_>) -> Block {
        Block {
            region: block.region().number(),
            location: block.location(),
            arguments: block.arguments().map(|value| value.number()).collect(),
            operations: block.operations().map(|op| op.number()).collect(),
            attributes: block.attributes().collect(),
        }
    }

    fn line(&self, n: usize) -> String {
        let (arguments, operations, attributes) = (list(&self.arguments), list(&self.operations), keys(&self.attributes));
        format!("block {n} {} {} v{arguments} o{operations} a{attributes}", self.region, self.location)
    }
}

impl Region {
    fn of(region: warzhigo::Region<'_>) -> Region {
        Region { op: region.operation().number(), blocks: region.blocks().map(|block| block.number()).collect() }
    }
}

impl Value {
    fn of(value: warzhigo::Value<'_>) -> Value {
        let owner = match value.owner() {
            warzhigo::Owner::Op(op) => Owner::Op(op.number()),
            warzhigo::Owner::Block(block) => Owner::Block(block.number()),
        };
        Value { ty: value.get_type(), owner, place: value.place() }
    }

    fn line(&self, n: usize) -> String {
        let owner = match self.owner {
            Owner::Op(op) => format!("o{op}"),
            Owner::Block(block) => format!("b{block}"),
        };
        format!("value {n} {} {owner}.{}", self.ty, self.place)
    }
}

fn list(items: &[u32]) -> String {
    format!("[{}]", items.iter().map(u32::to_string).collect::<Vec<_>>().join(","))
}

fn keys(items: &[Attribute]) -> String {
    let items = items.iter().map(|Attribute { key, kind, content, inherent }| match inherent {
        Inherent::No => format!("{key}:{kind}:{content}"),
        Inherent::Yes => format!("{key}:{kind}:{content}:i"),
    });
    format!("[{}]", items.collect::<Vec<_>>().join(","))
}
