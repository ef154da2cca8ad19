//! Stands in for pliron's location.rs: a location is a number.

use core::hash::Hash;

use crate::{context::Context, irbuild::decontext::StableHash, utils::table::FxHasher};

#[derive(Clone, Default, PartialEq, Eq)]
pub struct Location(pub u32);

impl StableHash for Location {
    fn stable_hash(&self, _ctx: &Context, state: &mut FxHasher) {
        self.0.hash(state);
    }
}
