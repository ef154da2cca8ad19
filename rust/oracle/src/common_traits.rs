//! Stands in for pliron's common_traits.rs: the one method that equivalence.rs prints by.

use crate::context::Context;

pub trait Named {
    fn unique_name(&self, ctx: &Context) -> String;
}
