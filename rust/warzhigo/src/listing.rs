//! `twins`, `sums` and `convert`: a listing's bytes in, what is printed for it out.

use alloc::vec;
use alloc::vec::Vec;

use crate::ffi::Output;
use crate::ffi::lent;
use crate::lent::Listed;

/// What the program `twins` prints for a listing: a line for each question, then the share. Any bytes may be given; what lies outside the
/// rules is a line `refused,LINE,CAUSE` of the output.
///
/// ```
/// let listing = b"opstore,2\no,7,-,5,0,0,0,0\no,7,-,6,0,0,0,0\nq,o,0,1,1,0\n";
/// assert_eq!(warzhigo::twins(listing), b"eq,-,-,1\nshare,100\n");
/// ```
pub fn twins(listing: &[u8]) -> Vec<u8> {
    let mut mapping = vec![0; lent::mapping_words()];
    answered(|store, out| lent::twins(listing, store, &mut mapping, out))
}

/// What the program `sums` prints for a listing: both hashes for each question.
///
/// ```
/// use warzhigo::{Ignore, NewOperation, Store, operation_hash, sums};
///
/// let mut store = Store::new();
/// let op = store.new_operation(&NewOperation { kind: 7, location: 5, ..Default::default() })?;
/// let hash = operation_hash(&store, op, &Ignore::LOCATIONS)?;
/// let printed = sums(b"opstore,2\no,7,-,5,0,0,0,0\nq,o,0,0,1,0\n");
/// assert_eq!(printed, format!("{hash:016x},{hash:016x}\n").as_bytes());
/// # Ok::<(), warzhigo::Refused>(())
/// ```
pub fn sums(listing: &[u8]) -> Vec<u8> {
    answered(|store, out| lent::sums(listing, store, out))
}

/// What the program `convert` prints for a listing: the same listing in the other edition, or, where it is refused, the line
/// `refused,LINE,CAUSE` alone. From edition 1 to 2 the labels of blocks go, and from 2 to 1 each block gets the label 0.
///
/// ```
/// let older = b"opstore,1\no,7,-,5,1,0,0,0\nb,0,9,5,1,3\n";
/// let newer = b"opstore,2\no,7,-,5,1,0,0,0\nb,0,5,1,3\n";
/// assert_eq!(warzhigo::convert(older), newer);
/// assert_eq!(warzhigo::convert(newer), b"opstore,1\no,7,-,5,1,0,0,0\nb,0,0,5,1,3\n");
/// assert_eq!(warzhigo::convert(b"opstore,2\ni,o,0,2,5,9\n"), b"refused,2,20\n");
/// ```
pub fn convert(listing: &[u8]) -> Vec<u8> {
    printed(lent::converted_bytes(), |out| lent::convert(listing, out))
}

/// What is printed by a program that builds a store.
fn answered(program: impl FnOnce(&mut [u32], &mut [u8]) -> Output) -> Vec<u8> {
    let mut store = vec![0; lent::store_words()];
    printed(lent::output_bytes(), |out| program(&mut store, out))
}

/// What is printed in buffers of the right lengths: nothing is then refused, and the room suffices.
fn printed(room: usize, program: impl FnOnce(&mut [u8]) -> Output) -> Vec<u8> {
    let mut out = vec![0; room];
    match program(&mut out).listed() {
        Listed::Printed(bytes) => out.truncate(bytes),
        Listed::Refused(_) | Listed::NoRoom => unreachable!("the buffers have their lengths"),
    }
    out.shrink_to_fit();
    out
}
