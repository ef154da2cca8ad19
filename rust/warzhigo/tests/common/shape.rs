//! What fragments are like that are made at random.

#[derive(Clone, Copy, Debug)]
pub struct Shape {
    /// How many calls make one.
    pub calls: u32,
    /// How often each call is made, beside the others: new operation, new block, set attribute, set operand.
    pub weights: [u32; 4],
    /// How many regions an operation has at least.
    pub fewest_regions: u32,
    /// The longest lists.
    pub regions: u32,
    pub results: u32,
    pub operands: u32,
    pub successors: u32,
    pub arguments: u32,
    /// In how many of 100 cases a new thing goes into the newest block or region.
    pub deepening: u32,
    /// How many keys there are.
    pub keys: u32,
    /// How many kinds, types, locations and contents there are: the fewer, the more is equal.
    pub letters: u32,
    /// In how many of 100 cases a name is one from outside the fragment.
    pub outside: u32,
}

pub const GENERAL: Shape = Shape {
    calls: 24,
    weights: [8, 6, 3, 3],
    fewest_regions: 0,
    regions: 2,
    results: 2,
    operands: 3,
    successors: 2,
    arguments: 2,
    deepening: 40,
    keys: 4,
    letters: 2,
    outside: 20,
};

/// Few letters and short lists: much is equal by chance.
pub const PLAIN: Shape = Shape { calls: 12, weights: [6, 5, 1, 1], operands: 1, successors: 1, letters: 1, keys: 1, ..GENERAL };

/// Regions in regions, past the nesting that is allowed.
pub const NESTED: Shape =
    Shape { calls: 150, weights: [20, 20, 1, 1], fewest_regions: 1, regions: 1, deepening: 99, letters: 1, keys: 1, ..GENERAL };

/// Keys that are set, set again and set in any order, up to the limit and past it.
pub const ATTRIBUTES: Shape = Shape { calls: 40, weights: [3, 2, 30, 0], keys: 10, ..GENERAL };

pub const OPERANDS: Shape = Shape { weights: [10, 4, 0, 10], operands: 16, results: 12, successors: 0, letters: 1, ..GENERAL };

/// Blocks that name one another.
pub const SUCCESSORS: Shape = Shape { weights: [10, 8, 0, 0], successors: 8, operands: 1, letters: 1, ..GENERAL };

/// Many regions, few blocks, and blocks without operations.
pub const EMPTY: Shape = Shape { calls: 14, weights: [6, 3, 1, 0], regions: 8, letters: 1, deepening: 10, ..GENERAL };

/// Enough calls and lists to pass totals.
pub const FULL: Shape =
    Shape { calls: 560, weights: [12, 5, 22, 2], regions: 1, results: 16, operands: 16, successors: 8, arguments: 16, keys: 12, ..GENERAL };

pub const USUAL: [Shape; 7] = [GENERAL, PLAIN, PLAIN, ATTRIBUTES, OPERANDS, SUCCESSORS, EMPTY];
