//! pliron 0.20.0's structural equality, mapping and hash of operations, blocks and regions, and its
//! cloning within one context, as published, to compare answers with and to measure against.
//!
//! pliron's own text stands unchanged in `pliron/`. The rest of pliron, as far as that text names
//! it, is stood in for by small modules of the same names, with the stand-ins of document 01:
//! kinds, types, locations and keys are numbers and feed 4 bytes to a hash; an attribute is its
//! kind and content, and whether it is inherent, which feeds 1 byte; a store number stands where
//! pliron hashes a `Value` or a `Ptr`; `FxHasher` is the published 64-bit FNV-1a; the ignore
//! function reads 64 bits, and never ignores an inherent attribute.
//!
//! The stand-ins work as pliron does where that costs time: hash maps are hashbrown's, attributes
//! are boxed, and a value's type is searched for at its owner. FNV-1a is slower than rustc-hash's
//! `FxHasher`, which takes a word by one product, though here it takes the bytes of a number that
//! are 0 by one, too; pointers without a slot map's check, and small vectors for indexmap, are
//! quicker.
//!
//! ```
//! use oracle::{Lists, Mapping, Oracle, Sort, Verdict};
//!
//! let mut oracle = Oracle::new();
//! let first = oracle.new_operation(7, None, 5, 0, Lists::default());
//! let second = oracle.new_operation(7, None, 6, 0, Lists::default());
//! let mut mapping = Mapping::new();
//! let verdict = oracle.compare(&mut mapping, Sort::Op, first, second, true, 0);
//! assert_eq!(verdict, Verdict::Eq);
//! assert_eq!(oracle.op_entries(&mapping), [(first, second)]);
//! ```

// The modules that bear pliron's names are private, so this asks only about the interface.
#![deny(missing_docs)]

extern crate alloc; // pliron's text names it

mod answers;
mod attribute;
mod basic_block;
mod builtin;
mod common_traits;
mod context;
mod dump;
mod identifier;
mod irbuild;
mod location;
mod mapping;
mod operation;
mod oracle;
mod printable;
mod region;
#[cfg(test)]
mod tests;
mod r#type;
mod utils;
mod value;

// pliron's text: left to its own lints and form.
#[allow(dead_code, unused_imports, clippy::all)]
#[path = "../pliron/src/linked_list.rs"]
#[rustfmt::skip]
mod linked_list;

pub use answers::{Sort, Verdict};
pub use attribute::NumberAttr;
pub use mapping::Mapping;
pub use oracle::{Counts, Lists, Oracle, Owner};
