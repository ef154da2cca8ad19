//! The offered calls on any words: each tests what it is lent, and refuses.

use super::*;
use crate::equivalence::{Ignore, Sort};
use crate::store::{Attribute, NewOperation, Owner};

/// The words of a store.
#[inline]
pub(crate) fn store_words() -> usize {
    // SAFETY: it takes nothing, and gives a constant.
    unsafe { wz_store_words() }
}

/// The words of a mapping.
#[inline]
pub(crate) fn mapping_words() -> usize {
    // SAFETY: it takes nothing, and gives a constant.
    unsafe { wz_mapping_words() }
}

/// The bytes that `twins` and `sums` want for their output.
#[inline]
pub(crate) fn output_bytes() -> usize {
    // SAFETY: it takes nothing, and gives a constant.
    unsafe { wz_output_bytes() }
}

/// The bytes that `convert` wants for its output.
#[inline]
pub(crate) fn converted_bytes() -> usize {
    // SAFETY: it takes nothing, and gives a constant.
    unsafe { wz_converted_bytes() }
}

/// Bytes that every key fits into.
#[inline]
pub(crate) fn key_bytes() -> usize {
    // SAFETY: it takes nothing, and gives a constant.
    unsafe { wz_key_bytes() }
}

/// The words that an index of a list of renamed types is made in.
#[inline]
pub(crate) fn index_words() -> usize {
    // SAFETY: it takes nothing, and gives a constant.
    unsafe { wz_index_words() }
}

// SAFETY, of every call below: a pointer and a length that stand side by side are those of one Rust slice, which is borrowed for the whole
// call, `&mut` where the function writes. The functions are proved to stay within what they are lent, whatever it holds, and to return;
// none keeps a pointer.

#[inline]
pub(crate) fn is_sound(store: &[u32]) -> bool {
    // SAFETY: as above.
    unsafe { wz_is_sound(store.as_ptr(), store.len()) }
}

#[inline]
pub(crate) fn new_operation(store: &mut [u32], new: &NewOperation<'_, u32, u32>) -> Outcome {
    // SAFETY: as above.
    unsafe {
        wz_new_operation(
            store.as_mut_ptr(),
            store.len(),
            new.kind,
            new.parent.is_some(),
            new.parent.unwrap_or(0),
            new.location,
            new.regions,
            new.result_types.as_ptr(),
            new.result_types.len(),
            new.operands.as_ptr(),
            new.operands.len(),
            new.successors.as_ptr(),
            new.successors.len(),
        )
    }
}

#[inline]
pub(crate) fn new_block(store: &mut [u32], region: u32, location: u32, types: &[u32]) -> Outcome {
    // SAFETY: as above.
    unsafe { wz_new_block(store.as_mut_ptr(), store.len(), region, location, types.as_ptr(), types.len()) }
}

#[inline]
pub(crate) fn set_attribute(store: &mut [u32], owner: Owner<u32, u32>, attribute: Attribute) -> Outcome {
    let (blocks, n) = owner.code();
    let Attribute { key, kind, content, inherent } = attribute;
    // SAFETY: as above.
    unsafe { wz_set_attribute(store.as_mut_ptr(), store.len(), blocks, n, key, kind, content, inherent) }
}

#[inline]
pub(crate) fn set_operand(store: &mut [u32], op: u32, index: u32, value: u32) -> Outcome {
    // SAFETY: as above.
    unsafe { wz_set_operand(store.as_mut_ptr(), store.len(), op, index, value) }
}

#[inline]
pub(crate) fn set_mark(store: &mut [u32], mark: u32) -> Outcome {
    // SAFETY: as above.
    unsafe { wz_set_mark(store.as_mut_ptr(), store.len(), mark) }
}

#[inline]
pub(crate) fn go_back(store: &mut [u32], mark: u32) -> Outcome {
    // SAFETY: as above.
    unsafe { wz_go_back(store.as_mut_ptr(), store.len(), mark) }
}

#[inline]
pub(crate) fn clone_operation(store: &mut [u32], op: u32, parent: Option<u32>, mapping: &mut [u32]) -> Outcome {
    let (words, count) = (store.as_mut_ptr(), store.len());
    let (map, entries) = (mapping.as_mut_ptr(), mapping.len());
    // SAFETY: as above.
    unsafe { wz_clone_operation(words, count, op, parent.is_some(), parent.unwrap_or(0), map, entries) }
}

#[inline]
pub(crate) fn compare(sort: Sort, store: &[u32], types: &[u32], mapping: &mut [u32], pair: (u32, u32), ignore: &Ignore) -> Verdict {
    let call = match sort {
        Sort::Op => wz_operation_eq,
        Sort::Block => wz_basic_block_eq,
        Sort::Region => wz_region_eq,
    };
    let (list, rows) = (types.as_ptr(), types.len());
    let (map, entries) = (mapping.as_mut_ptr(), mapping.len());
    // SAFETY: as above.
    unsafe { call(store.as_ptr(), store.len(), list, rows, map, entries, pair.0, pair.1, ignore.locations, ignore.bits) }
}

#[inline]
pub(crate) fn hash(sort: Sort, store: &[u32], types: &[u32], n: u32, ignore: &Ignore) -> HashAnswer {
    let call = match sort {
        Sort::Op => wz_operation_hash,
        Sort::Block => wz_basic_block_hash,
        Sort::Region => wz_region_hash,
    };
    // SAFETY: as above.
    unsafe { call(store.as_ptr(), store.len(), types.as_ptr(), types.len(), n, ignore.locations, ignore.bits) }
}

#[inline]
pub(crate) fn key(sort: Sort, store: &[u32], types: &[u32], n: u32, ignore: &Ignore, key: &mut [u8]) -> KeyAnswer {
    let call = match sort {
        Sort::Op => wz_operation_key,
        Sort::Block => wz_basic_block_key,
        Sort::Region => wz_region_key,
    };
    let (list, rows) = (types.as_ptr(), types.len());
    // SAFETY: as above.
    unsafe { call(store.as_ptr(), store.len(), list, rows, key.as_mut_ptr(), key.len(), n, ignore.locations, ignore.bits) }
}

#[inline]
pub(crate) fn extent(sort: Sort, store: &[u32], n: u32, ignore: &Ignore) -> ExtentAnswer {
    let call = match sort {
        Sort::Op => wz_operation_extent,
        Sort::Block => wz_basic_block_extent,
        Sort::Region => wz_region_extent,
    };
    // SAFETY: as above.
    unsafe { call(store.as_ptr(), store.len(), n, ignore.locations, ignore.bits) }
}

#[inline]
pub(crate) fn repeated_run(store: &[u32], types: &[u32], block: u32, length: u32, ignore: &Ignore) -> RunAnswer {
    let (list, rows) = (types.as_ptr(), types.len());
    // SAFETY: as above.
    unsafe { wz_repeated_run(store.as_ptr(), store.len(), list, rows, block, length, ignore.locations, ignore.bits) }
}

#[inline]
pub(crate) fn independent(sort: Sort, store: &[u32], pair: (u32, u32)) -> Independence {
    let call = match sort {
        Sort::Op => wz_operations_independent,
        Sort::Block => wz_basic_blocks_independent,
        Sort::Region => wz_regions_independent,
    };
    // SAFETY: as above.
    unsafe { call(store.as_ptr(), store.len(), pair.0, pair.1) }
}

#[inline]
pub(crate) fn twins_of_operations(store: &[u32], types: &[u32], ignore: &Ignore, twins: &mut [u32]) -> Grouped {
    let (list, rows) = (types.as_ptr(), types.len());
    let (found, room) = (twins.as_mut_ptr(), twins.len());
    // SAFETY: as above.
    unsafe { wz_twins_of_operations(store.as_ptr(), store.len(), list, rows, ignore.locations, ignore.bits, found, room) }
}

#[inline]
pub(crate) fn compare_keys(lhs: &[u8], rhs: &[u8]) -> i32 {
    // SAFETY: as above.
    unsafe { wz_compare_keys(lhs.as_ptr(), lhs.len(), rhs.as_ptr(), rhs.len()) }
}

pub(crate) fn twins(listing: &[u8], store: &mut [u32], mapping: &mut [u32], out: &mut [u8]) -> Output {
    let (length, words, entries, room) = (listing.len(), store.len(), mapping.len(), out.len());
    // SAFETY: as above.
    unsafe { wz_twins(listing.as_ptr(), length, store.as_mut_ptr(), words, mapping.as_mut_ptr(), entries, out.as_mut_ptr(), room) }
}

pub(crate) fn sums(listing: &[u8], store: &mut [u32], out: &mut [u8]) -> Output {
    // SAFETY: as above.
    unsafe { wz_sums(listing.as_ptr(), listing.len(), store.as_mut_ptr(), store.len(), out.as_mut_ptr(), out.len()) }
}

pub(crate) fn convert(listing: &[u8], out: &mut [u8]) -> Output {
    // SAFETY: as above.
    unsafe { wz_convert(listing.as_ptr(), listing.len(), out.as_mut_ptr(), out.len()) }
}
