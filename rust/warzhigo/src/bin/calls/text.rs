//! Answers as text, a mapping's entries and a store among them.

use std::fmt::{Display, Write};

use warzhigo::{Attribute, Extent, Inherent, Owner, Run, Store};

use crate::replay::ENTRIES;

/// `v0>2 v1>3/b0>1/o0>2 o1>3`.
pub fn entries(mapping: &[u32]) -> String {
    let part = |sort: usize, letter: char| {
        let images = mapping[ENTRIES[sort]..ENTRIES[sort + 1]].iter().enumerate();
        joined(images.filter(|(_, image)| **image != u32::MAX).map(|(n, image)| format!("{letter}{n}>{image}")), " ")
    };
    [part(0, 'v'), part(1, 'b'), part(2, 'o')].join("/")
}

/// `run,0,3`, or `run,none`.
pub fn run(found: Option<Run>) -> String {
    found.map_or("run,none".to_string(), |Run { left, right }| format!("run,{left},{right}"))
}

/// `size,56,0,0,1,0`: the key's length, values, blocks, operations, nesting.
pub fn extent(extent: Extent) -> String {
    let Extent { bytes, values, blocks, operations, nesting } = extent;
    format!("size,{bytes},{values},{blocks},{operations},{nesting}")
}

/// `-,-,0`: each operation's twin, or `-` where it has none.
pub fn twins(twins: &[u32]) -> String {
    let field = |twin: &u32| if *twin == u32::MAX { "-".to_string() } else { twin.to_string() };
    joined(twins.iter().map(field), ",")
}

/// Bytes in hexadecimal, two digits to a byte.
pub fn hexadecimal(bytes: &[u8]) -> String {
    let digit = |n: u8| char::from(b"0123456789abcdef"[n as usize]);
    bytes.iter().flat_map(|byte| [digit(byte >> 4), digit(byte & 15)]).collect()
}

fn joined(items: impl Iterator<Item = impl Display>, between: &str) -> String {
    items.map(|item| item.to_string()).collect::<Vec<_>>().join(between)
}

fn list(items: impl Iterator<Item = impl Display>) -> String {
    format!("[{}]", joined(items, ","))
}

/// `[0:63:9,2:5:1:i]`, with `:i` behind an inherent one.
fn attributes(items: impl Iterator<Item = Attribute>) -> String {
    let flag = |inherent| match inherent {
        Inherent::No => "",
        Inherent::Yes => ":i",
    };
    list(items.map(|Attribute { key, kind, content, inherent }| format!("{key}:{kind}:{content}{}", flag(inherent))))
}

/// All that the store holds, a line for each thing, parted by vertical bars.
pub fn dump(store: &Store) -> String {
    let mut text = String::new();
    operations(store, &mut text).and_then(|()| others(store, &mut text)).expect("a string takes all that is written to it");
    text
}

fn operations(store: &Store, text: &mut String) -> std::fmt::Result {
    for op in store.operations() {
        let parent = op.parent().map_or("-".to_string(), |block| block.to_string());
        write!(text, "op {} {} {parent} {} ", op.id(), op.kind(), op.location())?;
        write!(text, "r{} v{} ", list(op.regions()), list(op.results()))?;
        write!(text, "u{} s{} a{}|", list(op.operands()), list(op.successors()), attributes(op.attributes()))?;
    }
    Ok(())
}

fn others(store: &Store, text: &mut String) -> std::fmt::Result {
    for block in store.blocks() {
        write!(text, "block {} {} {} ", block.id(), block.region(), block.location())?;
        write!(text, "v{} o{} a{}|", list(block.arguments()), list(block.operations()), attributes(block.attributes()))?;
    }
    for region in store.regions() {
        write!(text, "region {} {} b{}|", region.id(), region.operation(), list(region.blocks()))?;
    }
    for value in store.values() {
        let owner = match value.owner() {
            Owner::Op(op) => format!("o{op}"),
            Owner::Block(block) => format!("b{block}"),
        };
        write!(text, "value {} {} {owner}.{}|", value.id(), value.get_type(), value.place())?;
    }
    let totals = store.totals();
    write!(text, "totals {} {} {}|", totals.operands, totals.successors, totals.attributes)?;
    write!(text, "marks {} remembered {}", list(store.marks()), store.remembered())
}
