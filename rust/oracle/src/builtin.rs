//! Stands in for pliron's builtin/: one name of it is mentioned.

pub mod attributes {
    /// Named by `IGNORE_LOC_NAMES`, a constant that nothing here uses.
    pub struct GivenNamesAttr;
}
