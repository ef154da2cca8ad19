//! Stands in for pliron's printable.rs: equivalence.rs can print a verdict, which nothing here asks
//! for.

use core::fmt;

use crate::context::Context;

pub struct State;

/// Implemented in pliron's text, and called nowhere.
#[allow(dead_code)]
pub trait Printable {
    fn fmt(&self, ctx: &Context, state: &State, f: &mut fmt::Formatter<'_>) -> fmt::Result;
}
