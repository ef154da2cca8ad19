//! The C functions of `libwarzhigo_c.a`, as `crates/warzhigo_c` exports them and `include/warzhigo.h` declares them, and all unsafe code of this
//! crate: [`lent`] has those that anything may be lent to, [`known`] those that ask for a sound store, an index of a list of types and an
//! allowed mapping, whose words are in [`allowed`].
//!
//! A slice crosses as its pointer and its length, an answer as a struct of numbers, and [`Inherent`] as its number.

pub(crate) mod allowed;
pub(crate) mod known;
pub(crate) mod lent;

use crate::store::Inherent;

/// What a comparison answers. Code 0 is equal, 1 names operations, 2 blocks, 3 regions; 4 is a refusal, and its cause is `left`.
#[repr(C)]
#[derive(Clone, Copy)]
pub(crate) struct Verdict {
    pub(crate) code: u32,
    pub(crate) left: u32,
    pub(crate) right: u32,
    pub(crate) paired: u32,
}

/// What a hash answers. Code 0 is a hash, `word`; 1 is a refusal, and its cause is `cause`.
#[repr(C)]
#[derive(Clone, Copy)]
pub(crate) struct HashAnswer {
    pub(crate) word: u64,
    pub(crate) code: u32,
    pub(crate) cause: u32,
}

/// What a key call answers. Code 0 is a key of so many bytes, `length`; 1 is a refusal, and its cause is `cause`.
#[repr(C)]
#[derive(Clone, Copy)]
pub(crate) struct KeyAnswer {
    pub(crate) length: u32,
    pub(crate) code: u32,
    pub(crate) cause: u32,
}

/// What a call for an extent answers. Code 0 is how large a key will be; 1 is a refusal, and its cause is `cause`.
#[repr(C)]
#[derive(Clone, Copy)]
pub(crate) struct ExtentAnswer {
    pub(crate) bytes: u32,
    pub(crate) values: u32,
    pub(crate) blocks: u32,
    pub(crate) operations: u32,
    pub(crate) nesting: u32,
    pub(crate) code: u32,
    pub(crate) cause: u32,
}

/// What the search for repeated runs answers. Code 0 is two starts; 1 is none; 2 is a refusal, and its cause is `left`.
#[repr(C)]
#[derive(Clone, Copy)]
pub(crate) struct RunAnswer {
    pub(crate) code: u32,
    pub(crate) left: u32,
    pub(crate) right: u32,
}

/// What a question for independence answers. Code 0 is no; 1 is yes; 2 is a refusal, and its cause is `cause`.
#[repr(C)]
#[derive(Clone, Copy)]
pub(crate) struct Independence {
    pub(crate) code: u32,
    pub(crate) cause: u32,
}

/// What the search for twins answers. Code 0 is a word for each of so many `operations`; 1 is a refusal, and its cause is `cause`.
#[repr(C)]
#[derive(Clone, Copy)]
pub(crate) struct Grouped {
    pub(crate) operations: usize,
    pub(crate) code: u32,
    pub(crate) cause: u32,
}

/// What a building call answers, and likewise the copier, and a call that sets a mark or goes back. Code 0 is a new number, `number`; 1
/// is accepted; 2 is a refusal, and its cause is `number`.
#[repr(C)]
#[derive(Clone, Copy)]
pub(crate) struct Outcome {
    pub(crate) code: u32,
    pub(crate) number: u32,
}

/// What `twins`, `sums` and `convert` answer. Code 0 is printed, so many `bytes`; 1 is a refusal, and its cause is `cause`; 2 is too little room.
#[repr(C)]
#[derive(Clone, Copy)]
pub(crate) struct Output {
    pub(crate) bytes: usize,
    pub(crate) code: u32,
    pub(crate) cause: u32,
}

/// Where a mapping has entries: words `value` up to `end`, of values, and `owner` up to `past`, of blocks and operations. Where the first
/// number is not the smaller one, there are none.
#[repr(C)]
#[derive(Clone, Copy)]
#[cfg_attr(not(test), allow(dead_code))] // for other callers: `touched` finds them here
pub(crate) struct Entries {
    pub(crate) value: u32,
    pub(crate) end: u32,
    pub(crate) owner: u32,
    pub(crate) past: u32,
}

#[rustfmt::skip] // one function to a line, or two: the test `names` reads them
unsafe extern "C" {
    fn wz_store_words() -> usize;
    fn wz_mapping_words() -> usize;
    fn wz_output_bytes() -> usize;
    fn wz_converted_bytes() -> usize;
    fn wz_key_bytes() -> usize;
    fn wz_index_words() -> usize;

    fn wz_is_sound(store: *const u32, words: usize) -> bool;
    #[allow(dead_code)] // for other callers: a store of this crate is tested whole
    fn wz_known_marks_are_sound(store: *const u32, words: usize) -> bool;
    fn wz_known_is_allowed(store: *const u32, words: usize, mapping: *const u32, entries: usize) -> bool;
    fn wz_known_index_types(types: *const u32, type_words: usize, index: *mut u32, index_words: usize) -> usize;
    #[cfg_attr(not(test), allow(dead_code))]
    fn wz_known_entered(store: *const u32, words: usize, mapping: *const u32, entries: usize, sort: u32, lhs: u32, paired: u32) -> Entries;

    fn wz_new_operation(store: *mut u32, words: usize, kind: u32, placed: bool, block: u32, location: u32, regions: u32, types: *const u32, type_count: usize,
        operands: *const u32, operand_count: usize, successors: *const u32, successor_count: usize) -> Outcome;
    fn wz_known_new_operation(store: *mut u32, words: usize, kind: u32, placed: bool, block: u32, location: u32, regions: u32, types: *const u32, type_count: usize,
        operands: *const u32, operand_count: usize, successors: *const u32, successor_count: usize) -> Outcome;
    fn wz_new_block(store: *mut u32, words: usize, region: u32, location: u32, types: *const u32, type_count: usize) -> Outcome;
    fn wz_known_new_block(store: *mut u32, words: usize, region: u32, location: u32, types: *const u32, type_count: usize) -> Outcome;
    fn wz_set_attribute(store: *mut u32, words: usize, blocks: bool, n: u32, key: u32, kind: u32, content: u32, inherent: Inherent) -> Outcome;
    fn wz_known_set_attribute(store: *mut u32, words: usize, blocks: bool, n: u32, key: u32, kind: u32, content: u32, inherent: Inherent) -> Outcome;
    fn wz_set_operand(store: *mut u32, words: usize, n: u32, i: u32, v: u32) -> Outcome;
    fn wz_known_set_operand(store: *mut u32, words: usize, n: u32, i: u32, v: u32) -> Outcome;
    fn wz_set_mark(store: *mut u32, words: usize, mark: u32) -> Outcome;
    fn wz_known_set_mark(store: *mut u32, words: usize, mark: u32) -> Outcome;
    fn wz_go_back(store: *mut u32, words: usize, mark: u32) -> Outcome;
    fn wz_known_go_back(store: *mut u32, words: usize, mark: u32) -> Outcome;
    fn wz_clone_operation(store: *mut u32, words: usize, n: u32, placed: bool, block: u32, mapping: *mut u32, entries: usize) -> Outcome;
    fn wz_known_clone_operation(store: *mut u32, words: usize, n: u32, placed: bool, block: u32, mapping: *mut u32, entries: usize) -> Outcome;

    fn wz_operation_eq(store: *const u32, words: usize, types: *const u32, type_words: usize, mapping: *mut u32, entries: usize, lhs: u32, rhs: u32, locations: bool, bits: u64) -> Verdict;
    fn wz_known_operation_eq(store: *const u32, words: usize, types: *const u32, type_words: usize, mapping: *mut u32, entries: usize, lhs: u32, rhs: u32, locations: bool, bits: u64) -> Verdict;
    fn wz_basic_block_eq(store: *const u32, words: usize, types: *const u32, type_words: usize, mapping: *mut u32, entries: usize, lhs: u32, rhs: u32, locations: bool, bits: u64) -> Verdict;
    fn wz_known_basic_block_eq(store: *const u32, words: usize, types: *const u32, type_words: usize, mapping: *mut u32, entries: usize, lhs: u32, rhs: u32, locations: bool, bits: u64) -> Verdict;
    fn wz_region_eq(store: *const u32, words: usize, types: *const u32, type_words: usize, mapping: *mut u32, entries: usize, lhs: u32, rhs: u32, locations: bool, bits: u64) -> Verdict;
    fn wz_known_region_eq(store: *const u32, words: usize, types: *const u32, type_words: usize, mapping: *mut u32, entries: usize, lhs: u32, rhs: u32, locations: bool, bits: u64) -> Verdict;

    fn wz_operation_hash(store: *const u32, words: usize, types: *const u32, type_words: usize, n: u32, locations: bool, bits: u64) -> HashAnswer;
    fn wz_known_operation_hash(store: *const u32, words: usize, types: *const u32, type_words: usize, n: u32, locations: bool, bits: u64) -> HashAnswer;
    fn wz_basic_block_hash(store: *const u32, words: usize, types: *const u32, type_words: usize, n: u32, locations: bool, bits: u64) -> HashAnswer;
    fn wz_known_basic_block_hash(store: *const u32, words: usize, types: *const u32, type_words: usize, n: u32, locations: bool, bits: u64) -> HashAnswer;
    fn wz_region_hash(store: *const u32, words: usize, types: *const u32, type_words: usize, n: u32, locations: bool, bits: u64) -> HashAnswer;
    fn wz_known_region_hash(store: *const u32, words: usize, types: *const u32, type_words: usize, n: u32, locations: bool, bits: u64) -> HashAnswer;

    fn wz_operation_key(store: *const u32, words: usize, types: *const u32, type_words: usize, key: *mut u8, room: usize, n: u32, locations: bool, bits: u64) -> KeyAnswer;
    fn wz_known_operation_key(store: *const u32, words: usize, types: *const u32, type_words: usize, key: *mut u8, room: usize, n: u32, locations: bool, bits: u64) -> KeyAnswer;
    fn wz_known_operation_key_length(store: *const u32, words: usize, types: *const u32, type_words: usize, n: u32, locations: bool, bits: u64) -> usize;
    fn wz_basic_block_key(store: *const u32, words: usize, types: *const u32, type_words: usize, key: *mut u8, room: usize, n: u32, locations: bool, bits: u64) -> KeyAnswer;
    fn wz_known_basic_block_key(store: *const u32, words: usize, types: *const u32, type_words: usize, key: *mut u8, room: usize, n: u32, locations: bool, bits: u64) -> KeyAnswer;
    fn wz_known_basic_block_key_length(store: *const u32, words: usize, types: *const u32, type_words: usize, n: u32, locations: bool, bits: u64) -> usize;
    fn wz_region_key(store: *const u32, words: usize, types: *const u32, type_words: usize, key: *mut u8, room: usize, n: u32, locations: bool, bits: u64) -> KeyAnswer;
    fn wz_known_region_key(store: *const u32, words: usize, types: *const u32, type_words: usize, key: *mut u8, room: usize, n: u32, locations: bool, bits: u64) -> KeyAnswer;
    fn wz_known_region_key_length(store: *const u32, words: usize, types: *const u32, type_words: usize, n: u32, locations: bool, bits: u64) -> usize;
    fn wz_operation_extent(store: *const u32, words: usize, n: u32, locations: bool, bits: u64) -> ExtentAnswer;
    fn wz_known_operation_extent(store: *const u32, words: usize, n: u32, locations: bool, bits: u64) -> ExtentAnswer;
    fn wz_basic_block_extent(store: *const u32, words: usize, n: u32, locations: bool, bits: u64) -> ExtentAnswer;
    fn wz_known_basic_block_extent(store: *const u32, words: usize, n: u32, locations: bool, bits: u64) -> ExtentAnswer;
    fn wz_region_extent(store: *const u32, words: usize, n: u32, locations: bool, bits: u64) -> ExtentAnswer;
    fn wz_known_region_extent(store: *const u32, words: usize, n: u32, locations: bool, bits: u64) -> ExtentAnswer;
    fn wz_repeated_run(store: *const u32, words: usize, types: *const u32, type_words: usize, block: u32, length: u32, locations: bool, bits: u64) -> RunAnswer;
    fn wz_known_repeated_run(store: *const u32, words: usize, types: *const u32, type_words: usize, block: u32, length: u32, locations: bool, bits: u64) -> RunAnswer;
    fn wz_operations_independent(store: *const u32, words: usize, lhs: u32, rhs: u32) -> Independence;
    fn wz_known_operations_independent(store: *const u32, words: usize, lhs: u32, rhs: u32) -> Independence;
    fn wz_basic_blocks_independent(store: *const u32, words: usize, lhs: u32, rhs: u32) -> Independence;
    fn wz_known_basic_blocks_independent(store: *const u32, words: usize, lhs: u32, rhs: u32) -> Independence;
    fn wz_regions_independent(store: *const u32, words: usize, lhs: u32, rhs: u32) -> Independence;
    fn wz_known_regions_independent(store: *const u32, words: usize, lhs: u32, rhs: u32) -> Independence;
    fn wz_twins_of_operations(store: *const u32, words: usize, types: *const u32, type_words: usize, locations: bool, bits: u64, twins: *mut u32, room: usize) -> Grouped;
    fn wz_known_twins_of_operations(store: *const u32, words: usize, types: *const u32, type_words: usize, locations: bool, bits: u64, twins: *mut u32, room: usize) -> Grouped;
    fn wz_compare_keys(lhs: *const u8, lhs_length: usize, rhs: *const u8, rhs_length: usize) -> i32;

    fn wz_twins(listing: *const u8, length: usize, store: *mut u32, words: usize, mapping: *mut u32, entries: usize, out: *mut u8, room: usize) -> Output;
    fn wz_sums(listing: *const u8, length: usize, store: *mut u32, words: usize, out: *mut u8, room: usize) -> Output;
    fn wz_convert(listing: *const u8, length: usize, out: *mut u8, room: usize) -> Output;
}
