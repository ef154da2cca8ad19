//! Stands in for pliron's type.rs: a type is a number.

use core::hash::Hash;

use crate::{context::Context, irbuild::decontext::StableHash, utils::table::FxHasher};

#[derive(Clone, Copy, PartialEq, Eq)]
pub struct TypeHandle(pub u32);

impl StableHash for TypeHandle {
    fn stable_hash(&self, _ctx: &Context, state: &mut FxHasher) {
        self.0.hash(state);
    }
}

pub trait Typed {
    fn get_type(&self, ctx: &Context) -> TypeHandle;
}
