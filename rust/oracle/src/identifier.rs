//! Stands in for pliron's identifier.rs: a key is a number, ordered and fed to a hash as one.

#[derive(Clone, Copy, PartialEq, Eq, PartialOrd, Ord, Hash)]
pub struct Identifier(pub u32);
