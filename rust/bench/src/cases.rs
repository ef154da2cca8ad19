//! What is compared and hashed: two fragments of a shape and a size, in one store.

use warzhigo::Inherent;

use crate::shapes::{self, Call, Each, NewOperation, PLAIN, Sketch};

/// The sizes, in operations.
pub const SIZES: [u32; 8] = [1, 3, 5, 10, 20, 50, 150, 500];

#[derive(Clone, Copy, PartialEq, Eq)]
pub enum Shape {
    Flat,
    Nested,
    Attributes,
    Operands,
    Blocks,
    Interleaved,
    Unequal,
}

impl Shape {
    pub const ALL: [Shape; 7] =
        [Shape::Flat, Shape::Nested, Shape::Attributes, Shape::Operands, Shape::Blocks, Shape::Interleaved, Shape::Unequal];

    pub fn name(self) -> &'static str {
        match self {
            Shape::Flat => "flat",
            Shape::Nested => "nested",
            Shape::Attributes => "attribute-rich",
            Shape::Operands => "operand-rich",
            Shape::Blocks => "many blocks",
            Shape::Interleaved => "interleaved",
            Shape::Unequal => "unequal at first sight",
        }
    }
}

/// A store, and the two operations in it that are compared; the left one is hashed.
pub struct Case {
    pub calls: Vec<Call>,
    pub left: u32,
    pub right: u32,
}

/// Do two fragments of this size fit into one store? Where they don't, one is compared with itself, or, in the unequal shape, with a single
/// operation.
pub fn two_fit(n: u32) -> bool {
    2 * n <= 512
}

/// What each operation has: as much as one owner may, or fewer, so that all fit into the store.
pub fn each(shape: Shape, n: u32) -> Each {
    let operations = if two_fit(n) { 2 * n } else { n };
    match shape {
        Shape::Attributes => Each { attributes: (1024 / operations).min(8), operands: 1 },
        Shape::Operands => Each { attributes: 0, operands: (2048 / operations).min(16) },
        _ => PLAIN,
    }
}

/// The case of a shape and a size.
pub fn case(shape: Shape, n: u32) -> Case {
    let mut sketch = Sketch::default();
    let left = fragment(&mut sketch, shape, n, 7);
    let right = match (two_fit(n), shape) {
        (true, Shape::Unequal) => fragment(&mut sketch, shape, n, 6),
        (true, _) => fragment(&mut sketch, shape, n, 7),
        (false, Shape::Unequal) => fragment(&mut sketch, shape, 1, 6),
        (false, _) => left,
    };
    Case { calls: sketch.calls, left, right }
}

/// One fragment; flat ones have the given kind outside.
pub fn fragment(sketch: &mut Sketch, shape: Shape, n: u32, kind: u32) -> u32 {
    match shape {
        Shape::Nested => shapes::nested(sketch, n),
        Shape::Blocks => shapes::blocks(sketch, n, false),
        Shape::Interleaved => shapes::blocks(sketch, n, true),
        _ => shapes::flat(sketch, kind, n, each(shape, n)),
    }
}

/// Two flat fragments of 20 operations: alone, or in the middle of a store that has 512 operations.
pub fn twenty(full: bool) -> Case {
    let mut sketch = Sketch::default();
    let others = if full { 512 - 40 } else { 0 };
    bystanders(&mut sketch, others / 2);
    let left = shapes::flat(&mut sketch, 7, 20, PLAIN);
    let right = shapes::flat(&mut sketch, 7, 20, PLAIN);
    bystanders(&mut sketch, others / 2);
    Case { calls: sketch.calls, left, right }
}

/// Operations that belong to neither fragment.
fn bystanders(sketch: &mut Sketch, count: u32) {
    for _ in 0..count {
        let operands = if sketch.operations() == 0 { vec![] } else { vec![0; 4] };
        sketch.operation(NewOperation { kind: 9, types: shapes::types(4), operands, ..Default::default() });
    }
}

/// A store that is at every limit: 256 operations of one region, one block and one operation in it. Neighbours are equal at first sight;
/// one pair of five is equal to the end.
pub fn full() -> Vec<Call> {
    let mut sketch = Sketch::default();
    for i in 0..256 {
        let root = sketch.root(7, None);
        let (block, argument) = sketch.block(root.region, 4);
        let inner = sketch.operation(NewOperation {
            kind: 8 + (i % 5_u32).saturating_sub(1),
            parent: Some(block),
            location: 2,
            types: shapes::types(4),
            operands: (0..8).map(|j| argument + j % 4).collect(),
            successors: vec![block, block],
            ..Default::default()
        });
        (0..4).for_each(|key| sketch.attribute(inner.number, key, key + 100, Inherent::No));
    }
    sketch.calls
}
