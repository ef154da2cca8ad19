//! Fragments as building calls, in plain data: each side makes its own store from them.

use warzhigo::{Attribute, Inherent};

/// A building call, by numbers.
#[derive(Clone)]
pub enum Call {
    Operation(NewOperation),
    Block { region: u32, location: u32, types: Vec<u32> },
    Attribute(u32, Attribute),
    Operand { op: u32, index: u32, value: u32 },
}

#[derive(Clone, Default)]
pub struct NewOperation {
    pub kind: u32,
    pub parent: Option<u32>,
    pub location: u32,
    pub regions: u32,
    pub types: Vec<u32>,
    pub operands: Vec<u32>,
    pub successors: Vec<u32>,
}

/// The numbers that a new operation has, and the first ones of its regions and results.
pub struct Made {
    pub number: u32,
    pub region: u32,
    pub value: u32,
}

/// Building calls in the making: it counts what they will have made.
#[derive(Default)]
pub struct Sketch {
    pub calls: Vec<Call>,
    operations: u32,
    blocks: u32,
    regions: u32,
    values: u32,
}

/// The one type that values have here.
const TYPE: u32 = 3;

/// A list of so many types.
pub fn types(count: usize) -> Vec<u32> {
    vec![TYPE; count]
}

impl Sketch {
    pub fn operation(&mut self, new: NewOperation) -> Made {
        let made = Made { number: self.operations, region: self.regions, value: self.values };
        self.operations += 1;
        self.regions += new.regions;
        self.values += new.types.len() as u32;
        self.calls.push(Call::Operation(new));
        made
    }

    /// A block with so many arguments: its number, and that of its first argument.
    pub fn block(&mut self, region: u32, arguments: usize) -> (u32, u32) {
        let made = (self.blocks, self.values);
        self.blocks += 1;
        self.values += arguments as u32;
        self.calls.push(Call::Block { region, location: 1, types: types(arguments) });
        made
    }

    pub fn attribute(&mut self, op: u32, key: u32, content: u32, inherent: Inherent) {
        self.calls.push(Call::Attribute(op, Attribute { key, kind: key, content, inherent }));
    }

    /// An operation that holds one region.
    pub fn root(&mut self, kind: u32, parent: Option<u32>) -> Made {
        self.operation(NewOperation { kind, parent, location: 1, regions: 1, ..Default::default() })
    }

    /// An operation with one result and no region.
    pub fn leaf(&mut self, kind: u32, parent: u32, operand: u32) -> Made {
        let operands = vec![operand];
        self.operation(NewOperation { kind, parent: Some(parent), location: 2, types: types(1), operands, ..Default::default() })
    }

    pub fn operations(&self) -> u32 {
        self.operations
    }
}

/// What each operation of a flat fragment has.
#[derive(Clone, Copy)]
pub struct Each {
    pub attributes: u32,
    pub operands: u32,
}

/// What it has in the plain shape.
pub const PLAIN: Each = Each { attributes: 0, operands: 2 };

/// Operations side by side in one block, each with one result and operands among the nine values before it. Gives the outer operation,
/// which has the given kind.
pub fn flat(sketch: &mut Sketch, kind: u32, n: u32, each: Each) -> u32 {
    if n == 1 {
        let alone = NewOperation { kind, location: 1, types: types(1), ..Default::default() };
        let root = sketch.operation(alone).number;
        describe(sketch, root, 0, each);
        return root;
    }
    let root = sketch.root(kind, None);
    describe(sketch, root.number, 0, each);
    let (block, argument) = sketch.block(root.region, 2);
    let mut values = vec![argument, argument + 1];
    for i in 0..n - 1 {
        let near = values.len().min(9);
        let back = |j: u32| 1 + (i * 7 + j * 3) as usize % near;
        let operands = (0..each.operands).map(|j| values[values.len() - back(j)]).collect();
        let new = NewOperation { kind: 8 + i % 5, parent: Some(block), location: i + 2, types: types(1), operands, ..Default::default() };
        let made = sketch.operation(new);
        values.push(made.value);
        describe(sketch, made.number, i, each);
    }
    root.number
}

/// Sets the attributes of one operation, by keys that neither rise nor fall.
fn describe(sketch: &mut Sketch, op: u32, i: u32, each: Each) {
    for key in [0, 5, 2, 7, 4, 1, 6, 3].into_iter().filter(|key| *key < each.attributes) {
        sketch.attribute(op, key, i + key, Inherent::No);
    }
}

/// A leaf beside an operation with a region, and so on in that region, down to nesting 31; then from the top again.
pub fn nested(sketch: &mut Sketch, n: u32) -> u32 {
    if n == 1 {
        return flat(sketch, 7, 1, PLAIN);
    }
    let root = sketch.root(7, None);
    let top = sketch.block(root.region, 1);
    let (mut block, mut value) = top;
    let (mut left, mut depth) = (n - 1, 1);
    while left > 0 {
        if left >= 2 {
            value = sketch.leaf(8, block, value).value;
            left -= 1;
        }
        left -= 1;
        if left == 0 || depth == 31 {
            sketch.leaf(9, block, value);
            ((block, value), depth) = (top, 1);
            continue;
        }
        let inner = sketch.root(7, Some(block));
        (block, value) = sketch.block(inner.region, 1);
        depth += 1;
    }
    root.number
}

/// Half as many blocks as operations in one region; the last operation of each names another block. The operations are made block by block,
/// or one for each block in turn, round and round.
pub fn blocks(sketch: &mut Sketch, n: u32, in_turn: bool) -> u32 {
    if n == 1 {
        return flat(sketch, 7, 1, PLAIN);
    }
    let root = sketch.root(7, None);
    let count = ((n - 1) / 2).max(1);
    let mut made: Vec<(u32, u32)> = (0..count).map(|_| sketch.block(root.region, 1)).collect();
    let first = made[0].0;
    let place = |i: u32| if in_turn { i % count } else { (i / 2).min(count - 1) };
    let mut left = vec![0; count as usize];
    (0..n - 1).for_each(|i| left[place(i) as usize] += 1);
    for i in 0..n - 1 {
        let at = place(i);
        let (block, value) = made[at as usize];
        left[at as usize] -= 1;
        if left[at as usize] > 0 {
            made[at as usize].1 = sketch.leaf(8, block, value).value;
        } else {
            let successors = vec![first + (at * 5 + 1) % count];
            let operands = vec![value];
            sketch.operation(NewOperation { kind: 8, parent: Some(block), location: 2, operands, successors, ..Default::default() });
        }
    }
    root.number
}
