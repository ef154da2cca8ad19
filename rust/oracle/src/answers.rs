//! Comparing and hashing, by store numbers: pliron's functions are called here, inlined into the
//! caller, so that a measurement is pliron's and not this interface's.

use crate::{
    Mapping, Oracle,
    attribute::Attribute,
    context::{Context, Ptr},
    irbuild::equivalence::{
        EqResult, IgnoreConfig, basic_block_eq, basic_block_hash, operation_eq, operation_hash, region_eq, region_hash,
    },
};

/// What a number names in a comparison or a hash.
#[derive(Clone, Copy, Debug, PartialEq, Eq)]
pub enum Sort {
    /// An operation.
    Op,
    /// A block.
    Block,
    /// A region.
    Region,
}

/// The Rust's answer, by numbers.
#[derive(Clone, Copy, Debug, PartialEq, Eq)]
pub enum Verdict {
    /// The two are equal.
    Eq,
    /// The first two operations found to be unequal.
    FirstNEQOps(u32, u32),
    /// The first two regions found to be unequal.
    FirstNEQRegions(u32, u32),
    /// The first two blocks found to be unequal.
    FirstNEQBlocks(u32, u32),
}

impl Oracle {
    /// Compares two of one sort, from what the mapping holds; entries made stay in it, also after
    /// a failure. An attribute is ignored when the bit of its kind is set, bit 0 being the lowest,
    /// unless it is inherent.
    #[inline]
    pub fn compare(&self, mapping: &mut Mapping, sort: Sort, lhs: u32, rhs: u32, ignore_locations: bool, ignore_bits: u64) -> Verdict {
        let (ctx, mapper) = (&self.ctx, &mut mapping.0);
        let config = &self.ignore_config(ignore_locations, ignore_bits);
        verdict(match sort {
            Sort::Op => operation_eq(ctx, mapper, ptr(lhs), ptr(rhs), config),
            Sort::Block => basic_block_eq(ctx, mapper, ptr(lhs), ptr(rhs), config),
            Sort::Region => region_eq(ctx, mapper, ptr(lhs), ptr(rhs), config),
        })
    }

    /// Hashes one; what is ignored is told as in `compare`.
    #[inline]
    pub fn hash(&self, sort: Sort, number: u32, ignore_locations: bool, ignore_bits: u64) -> u64 {
        let ctx = &self.ctx;
        let config = &self.ignore_config(ignore_locations, ignore_bits);
        match sort {
            Sort::Op => operation_hash(ctx, ptr(number), config),
            Sort::Block => basic_block_hash(ctx, ptr(number), config),
            Sort::Region => region_hash(ctx, ptr(number), config),
        }
    }

    #[inline]
    fn ignore_config(&self, ignore_loc: bool, ignore_bits: u64) -> IgnoreConfig {
        self.ctx.ignore_bits.set(ignore_bits);
        IgnoreConfig { ignore_loc, ignore_attr }
    }
}

/// "The oracle counts an inherent attribute as one of a kind that its ignore function never
/// ignores."
fn ignore_attr(ctx: &Context, attr: &dyn Attribute) -> bool {
    !attr.inherent() && ctx.ignore_bits.get() >> attr.kind() & 1 == 1
}

fn ptr<T>(number: u32) -> Ptr<T> {
    Ptr::from_number(number)
}

#[inline]
fn verdict(result: EqResult) -> Verdict {
    match result {
        EqResult::Eq => Verdict::Eq,
        EqResult::FirstNEQOps((l, r)) => Verdict::FirstNEQOps(l.number(), r.number()),
        EqResult::FirstNEQRegions((l, r)) => Verdict::FirstNEQRegions(l.number(), r.number()),
        EqResult::FirstNEQBlocks((l, r)) => Verdict::FirstNEQBlocks(l.number(), r.number()),
    }
}
