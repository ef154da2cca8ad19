//! Warzhigo from Rust: structural equality, mapping, hash and key of the operations, blocks and regions of an IR, proved to follow their
//! rules in every store.
//!
//! Ten lines that build two operations and find them equal:
//!
//! ```
//! use warzhigo::{Ignore, Mapping, NewOperation, Store, operation_eq, operation_hash};
//!
//! let mut store = Store::new();
//! let typed = store.new_operation(&NewOperation { kind: 8, location: 1, result_types: &[5], ..Default::default() })?;
//! let again = store.new_operation(&NewOperation { kind: 8, location: 2, result_types: &[5], ..Default::default() })?;
//! let mut mapping = Mapping::new();
//! if operation_hash(&store, typed, &Ignore::LOCATIONS)? == operation_hash(&store, again, &Ignore::LOCATIONS)? {
//!     let answer = operation_eq(&store, &mut mapping, typed, again, &Ignore::LOCATIONS)?;
//!     assert!(answer.is_eq());
//! }
//! # Ok::<(), warzhigo::Refused>(())
//! ```
//!
//! - [`Store`] holds the IR: the four building calls make it, and views such as [`Operation`] read it.
//! - [`Store::clone_operation`] copies an operation with all inside it.
//! - [`operation_eq`], [`basic_block_eq`] and [`region_eq`] compare, [`operation_hash`], [`basic_block_hash`] and [`region_hash`] hash; names
//!   and parameters are those of pliron's `irbuild::equivalence`. [`Ignore`] says what doesn't count, [`Inherent`] which attributes always
//!   do, [`Mapping`] what corresponds.
//! - [`Mapping::entries`] writes down what corresponds, [`Mapping::inverse`] reads it backwards, and [`Mapping::then`] puts two together.
//! - [`Renamed`] is a list of types that have been renamed: calls that are asked under one compare, hash and file by present types.
//! - [`operation_key`], [`basic_block_key`] and [`region_key`] give the bytes by which a fragment is filed, and [`compare_keys`] their order.
//! - [`operation_extent`], [`basic_block_extent`] and [`region_extent`] tell how large a key will be, before it is written.
//! - [`Store::repeated_run`] finds two equal runs of operations in one block.
//! - [`Store::twins_of_operations`] finds all twins of a form at once, and [`Store::independent`] tells whether two fragments
//!   meet the premise of the laws.
//! - [`Store::mark`] names the store as it stands, and [`Store::go_back`] returns to it.
//! - A call outside the rules is [`Refused`] by number, and has changed nothing.
//! - [`twins`] and [`sums`] answer the questions of a whole listing, and [`convert`] writes it in the other edition.
//! - [`lent`] has every call on words of any origin.
//!
//! The calls are those of the static library `libwarzhigo_c.a`, whose functions are proved; this crate adds the types around them, and is tested.
//! What a caller can mix up is an error: an id of another store, or of what has gone, names nothing (2); a mapping with entries of such isn't
//! allowed (8).

#![no_std]
#![deny(missing_docs, unsafe_code, unsafe_op_in_unsafe_fn)]
#![deny(clippy::undocumented_unsafe_blocks)]

extern crate alloc;

mod columns;
mod copying;
mod entries;
mod equivalence;
mod eras;
mod extents;
#[allow(unsafe_code)] // the only module that has any
mod ffi;
mod grouping;
mod ids;
mod keys;
pub mod lent;
mod listing;
mod mapping;
mod marks;
mod reading;
mod refused;
mod renamed;
mod runs;
mod store;
mod touched;

pub use entries::Entry;
pub use equivalence::{EqResult, Ignore, basic_block_eq, basic_block_hash, operation_eq, operation_hash, region_eq, region_hash};
pub use extents::{Extent, basic_block_extent, operation_extent, region_extent};
pub use ids::{BlockId, OpId, RegionId, ValueId};
pub use keys::{
    FragmentId, basic_block_key, basic_block_key_into, compare_keys, operation_key, operation_key_into, region_key, region_key_into,
};
pub use listing::{convert, sums, twins};
pub use mapping::Mapping;
pub use marks::MarkId;
pub use reading::{Block, Operation, Region, Totals, Value};
pub use refused::Refused;
pub use renamed::{Options, Renamed};
pub use runs::Run;
pub use store::{Attribute, Inherent, NewOperation, Owner, Store};

/// The code in README.md.
#[cfg(doctest)]
#[doc = include_str!("../../../README.md")]
struct Readme;
