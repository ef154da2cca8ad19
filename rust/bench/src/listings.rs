//! Listings of edition 2: a store, and questions as long as there is room for them in 65,536 bytes, with the labels that edition 1 wants.

use std::fmt::Write;

use warzhigo::{Attribute, Inherent};

use crate::cases::{self, Shape};
use crate::shapes::{self, Call, Each, NewOperation, PLAIN, Sketch};

/// The bytes that a listing may have.
const ROOM: usize = 65_536;

pub struct Listing {
    pub name: &'static str,
    pub text: String,
    pub questions: usize,
}

/// A listing that builds this, and asks for these pairs of operations over and over.
fn listing(name: &'static str, calls: &[Call], pairs: &[(u32, u32)]) -> Listing {
    let mut text = "opstore,2\n".to_string();
    calls.iter().for_each(|call| line(&mut text, call));
    let room = ROOM - ",0".len() * calls.iter().filter(|call| matches!(call, Call::Block { .. })).count();
    let asked = pairs.iter().cycle().map(|(left, right)| format!("q,o,{left},{right},0,0\n"));
    let mut questions = 0;
    for question in asked {
        if text.len() + question.len() > room {
            break;
        }
        text.push_str(&question);
        questions += 1;
    }
    Listing { name, text, questions }
}

/// The line of a building call.
fn line(text: &mut String, call: &Call) {
    let list = |items: &[u32]| items.iter().fold(items.len().to_string(), |list, item| format!("{list},{item}"));
    let written = match call {
        Call::Operation(new) => {
            let parent = new.parent.map_or("-".to_string(), |block| block.to_string());
            let lists = [&new.types, &new.operands, &new.successors].map(|items| list(items)).join(",");
            writeln!(text, "o,{},{parent},{},{},{lists}", new.kind, new.location, new.regions)
        }
        Call::Block { region, location, types } => writeln!(text, "b,{region},{location},{}", list(types)),
        Call::Attribute(op, Attribute { key, kind, content, inherent }) => {
            let letter = if *inherent == Inherent::Yes { 'i' } else { 'a' };
            writeln!(text, "{letter},o,{op},{key},{kind},{content}")
        }
        Call::Operand { op, index, value } => writeln!(text, "s,{op},{index},{value}"),
    };
    written.expect("a string has room");
}

/// A listing about one fragment, compared with itself.
fn alone(name: &'static str, fragment: impl FnOnce(&mut Sketch) -> u32) -> Listing {
    let mut sketch = Sketch::default();
    let root = fragment(&mut sketch);
    listing(name, &sketch.calls, &[(root, root)])
}

/// A listing about the two fragments of a case.
fn two(name: &'static str, shape: Shape, n: u32) -> Listing {
    let case = cases::case(shape, n);
    listing(name, &case.calls, &[(case.left, case.right)])
}

pub fn all() -> Vec<Listing> {
    let neighbours: Vec<(u32, u32)> = (0..255).map(|i| (2 * i, 2 * i + 2)).collect();
    vec![
        alone("flat 500", |sketch| shapes::flat(sketch, 7, 500, PLAIN)),
        alone("nested 500", |sketch| shapes::nested(sketch, 500)),
        alone("attributes, 120 x 8", |sketch| shapes::flat(sketch, 7, 120, Each { attributes: 8, operands: 1 })),
        alone("operands, 120 x 16", |sketch| shapes::flat(sketch, 7, 120, Each { attributes: 0, operands: 16 })),
        alone("250 blocks x 2", |sketch| shapes::blocks(sketch, 501, false)),
        alone("deep 33", deep),
        two("two of flat 20", Shape::Flat, 20),
        listing("a store at every limit, neighbours, most unequal", &cases::full(), &neighbours),
        two("two of flat 150, unequal at first sight", Shape::Unequal, 150),
        alone("250 blocks x 2, round robin", |sketch| shapes::blocks(sketch, 501, true)),
        alone("120 regions x 2 blocks, round robin", regions),
    ]
}

/// 33 operations, each but the first in a region of the one before, the last at nesting 32.
fn deep(sketch: &mut Sketch) -> u32 {
    let root = sketch.root(7, None);
    let mut region = root.region;
    for _ in 0..32 {
        let (block, _) = sketch.block(region, 1);
        region = sketch.root(7, Some(block)).region;
    }
    root.number
}

/// 15 operations of 8 regions, 2 blocks in each region and 2 operations in each block; blocks are made for each region in turn, operations
/// for each block in turn.
fn regions(sketch: &mut Sketch) -> u32 {
    let root = sketch.root(7, None);
    let (top, _) = sketch.block(root.region, 1);
    let holder = NewOperation { kind: 7, parent: Some(top), location: 1, regions: 8, ..Default::default() };
    let first = (0..15).map(|_| sketch.operation(holder.clone()).region).min().expect("15 of them");
    let mut blocks: Vec<(u32, u32)> = (0..240).map(|i| sketch.block(first + i % 120, 1)).collect();
    for _ in 0..2 {
        for (block, value) in &mut blocks {
            *value = sketch.leaf(8, *block, *value).value;
        }
    }
    root.number
}
