//! Every cause of a refusal that can be met, with the good neighbours of each limit. A refused call leaves every word as it was: `apply`
//! and `comparison_refused` look.
//!
//! Causes 16 and 17, of marks, are met in the test `marks`.

#[path = "../common/mod.rs"]
mod common;

mod copies;
mod in_words;
mod limits;
mod listings;
mod mappings;
mod names;
mod order;
mod stores;
mod totals;
mod unsound;
