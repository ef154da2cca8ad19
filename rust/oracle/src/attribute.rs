//! Stands in for pliron's attribute.rs: an attribute is its kind and content, two numbers, and
//! whether it is inherent, boxed as a trait object as in pliron.

use core::{any::Any, hash::Hash};

use crate::{
    context::Context,
    identifier::Identifier,
    irbuild::decontext::StableHash,
    utils::table::{FxHasher, IMap},
};

pub trait Attribute: Any {
    fn kind(&self) -> u32;
    fn content(&self) -> u32;
    fn inherent(&self) -> bool;
    fn as_any(&self) -> &dyn Any;
    /// Stands in for dyn-clone.
    fn boxed(&self) -> AttrObj;
}

impl dyn Attribute {
    /// Stands in for downcast-rs.
    pub fn is<T: Any>(&self) -> bool {
        self.as_any().is::<T>()
    }
}

impl PartialEq for dyn Attribute {
    fn eq(&self, other: &Self) -> bool {
        self.kind() == other.kind() && self.content() == other.content() && self.inherent() == other.inherent()
    }
}

pub type AttrObj = Box<dyn Attribute>;

impl StableHash for AttrObj {
    fn stable_hash(&self, _ctx: &Context, state: &mut FxHasher) {
        self.kind().hash(state);
        self.content().hash(state);
        u8::from(self.inherent()).hash(state);
    }
}

/// The one attribute there is here.
#[derive(Clone, Copy, Debug, PartialEq, Eq)]
pub struct NumberAttr {
    /// The bit by which it may be ignored.
    pub kind: u32,
    /// Its content.
    pub content: u32,
    /// It is never ignored.
    pub inherent: bool,
}

impl Attribute for NumberAttr {
    fn kind(&self) -> u32 {
        self.kind
    }

    fn content(&self) -> u32 {
        self.content
    }

    fn inherent(&self) -> bool {
        self.inherent
    }

    fn as_any(&self) -> &dyn Any {
        self
    }

    fn boxed(&self) -> AttrObj {
        Box::new(*self)
    }
}

impl Clone for AttrObj {
    fn clone(&self) -> AttrObj {
        (**self).boxed()
    }
}

#[derive(Clone, Default)]
pub struct AttributeDict(pub IMap<Identifier, AttrObj>);
