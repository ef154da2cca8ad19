//! The calls that don't test what they are lent, behind types that hold what those calls ask for: [`SoundWords`] are sound, with their
//! marks, and [`IndexWords`] an index of a list of renamed types, from the time they are made; [`AllowedWords`] are a mapping that is lent
//! only where it is allowed.

use alloc::boxed::Box;
use alloc::vec;
use alloc::vec::Vec;

use super::allowed::AllowedWords;
use super::*;
use crate::columns::numbered;
use crate::equivalence::{Fragment, Ignore, Sort};
use crate::eras::Eras;
use crate::refused::Refused;
use crate::renamed::Options;
use crate::store::{Attribute, NewOperation, Owner};

/// The words of a sound store, and which ids are good for it. They are made empty or tested once; after that only building calls write to
/// them, and those that set marks and go back, and each is proved to leave a sound store sound.
pub(crate) struct SoundWords {
    words: Box<[u32]>,
    eras: Eras,
}

// SAFETY, of every call on known words below: `words` of `SoundWords` are sound, those of `IndexWords` an index, and a mapping comes from
// `AllowedWords::lent`, which gives it only where it is allowed beside them as they are: that is all that these calls ask for. Pointers and
// lengths are as in `lent`.

impl SoundWords {
    /// The empty store.
    pub(crate) fn empty() -> SoundWords {
        let words = vec![0; lent::store_words()].into_boxed_slice();
        SoundWords { words, eras: Eras::new() }
    }

    /// These words, if they are sound; else they are refused by 1.
    pub(crate) fn tested(words: Box<[u32]>) -> Result<SoundWords, Refused> {
        match lent::is_sound(&words) {
            true => Ok(SoundWords { words, eras: Eras::new() }),
            false => Err(Refused::NOT_SOUND),
        }
    }

    /// The same words as a store of its own.
    pub(crate) fn copied(&self) -> SoundWords {
        SoundWords { words: self.words.clone(), eras: Eras::new() }
    }

    pub(crate) fn into_words(self) -> Box<[u32]> {
        self.words
    }

    pub(crate) fn words(&self) -> &[u32] {
        &self.words
    }

    #[inline]
    pub(crate) fn eras(&self) -> &Eras {
        &self.eras
    }

    #[inline]
    pub(crate) fn new_operation(&mut self, new: &NewOperation<'_, u32, u32>) -> Outcome {
        // SAFETY: as above.
        unsafe {
            wz_known_new_operation(
                self.words.as_mut_ptr(),
                self.words.len(),
                new.kind,
                new.parent.is_some(),
                new.parent.unwrap_or(0),
                new.location,
                new.regions,
                new.result_types.as_ptr(),
                new.result_types.len(),
                new.operands.as_ptr(),
                new.operands.len(),
                new.successors.as_ptr(),
                new.successors.len(),
            )
        }
    }

    #[inline]
    pub(crate) fn new_block(&mut self, region: u32, location: u32, types: &[u32]) -> Outcome {
        let (store, words) = (self.words.as_mut_ptr(), self.words.len());
        // SAFETY: as above.
        unsafe { wz_known_new_block(store, words, region, location, types.as_ptr(), types.len()) }
    }

    #[inline]
    pub(crate) fn set_attribute(&mut self, owner: Owner<u32, u32>, attribute: Attribute) -> Outcome {
        let (blocks, n) = owner.code();
        let Attribute { key, kind, content, inherent } = attribute;
        // SAFETY: as above.
        unsafe { wz_known_set_attribute(self.words.as_mut_ptr(), self.words.len(), blocks, n, key, kind, content, inherent) }
    }

    #[inline]
    pub(crate) fn set_operand(&mut self, op: u32, index: u32, value: u32) -> Outcome {
        // SAFETY: as above.
        unsafe { wz_known_set_operand(self.words.as_mut_ptr(), self.words.len(), op, index, value) }
    }

    pub(crate) fn set_mark(&mut self, mark: u32) -> Outcome {
        // SAFETY: as above.
        unsafe { wz_known_set_mark(self.words.as_mut_ptr(), self.words.len(), mark) }
    }

    /// The only call that takes numbers away: where it has, an era begins.
    pub(crate) fn go_back(&mut self, mark: u32) -> Outcome {
        let (before, next) = (numbered(&self.words), self.eras.next());
        // SAFETY: as above.
        let outcome = unsafe { wz_known_go_back(self.words.as_mut_ptr(), self.words.len(), mark) };
        let left = numbered(&self.words);
        if left != before {
            self.eras.begin(next, left);
        }
        outcome
    }

    /// Refused by 8 where the mapping has entries of another store, or of what has gone away. An accepted copy leaves the mapping its entries
    /// alone, which are of this store by the eras that it has: no number goes away.
    pub(crate) fn clone_operation(&mut self, op: u32, parent: Option<u32>, mapping: &mut AllowedWords) -> Result<Outcome, Refused> {
        let (map, entries) = mapping.lent(&self.eras)?;
        let (store, words) = (self.words.as_mut_ptr(), self.words.len());
        // SAFETY: as above.
        Ok(unsafe { wz_known_clone_operation(store, words, op, parent.is_some(), parent.unwrap_or(0), map, entries) })
    }

    /// Refused by 8 where the mapping has entries of another store, or of what has gone away.
    #[inline]
    pub(crate) fn compare(&self, sort: Sort, mapping: &mut AllowedWords, pair: (u32, u32), options: Options) -> Result<Verdict, Refused> {
        let (map, entries) = mapping.lent(&self.eras)?;
        let call = match sort {
            Sort::Op => wz_known_operation_eq,
            Sort::Block => wz_known_basic_block_eq,
            Sort::Region => wz_known_region_eq,
        };
        let (store, words) = (self.words.as_ptr(), self.words.len());
        let (index, rows) = options.types.index.lent();
        // SAFETY: as above.
        Ok(unsafe { call(store, words, index, rows, map, entries, pair.0, pair.1, options.ignore.locations, options.ignore.bits) })
    }

    /// Where the last comparison in this store has made its entries in the mapping, which was empty before it: of its left fragment and its
    /// count. That a comparison leaves such a mapping is proved (`EntersPaired`).
    #[cfg(test)]
    fn entered(&self, mapping: &AllowedWords, sort: Sort, lhs: u32, paired: u32) -> Entries {
        let (store, words) = (self.words.as_ptr(), self.words.len());
        let (map, entries) = (mapping.words().as_ptr(), mapping.words().len());
        // SAFETY: as above, and the tests below lend what one comparison has left of an empty mapping.
        unsafe { wz_known_entered(store, words, map, entries, sort as u32, lhs, paired) }
    }

    #[inline]
    pub(crate) fn hash(&self, sort: Sort, n: u32, options: Options) -> HashAnswer {
        let call = match sort {
            Sort::Op => wz_known_operation_hash,
            Sort::Block => wz_known_basic_block_hash,
            Sort::Region => wz_known_region_hash,
        };
        let (index, rows) = options.types.index.lent();
        // SAFETY: as above.
        unsafe { call(self.words.as_ptr(), self.words.len(), index, rows, n, options.ignore.locations, options.ignore.bits) }
    }

    #[inline]
    pub(crate) fn key(&self, sort: Sort, n: u32, options: Options, key: &mut [u8]) -> KeyAnswer {
        let call = match sort {
            Sort::Op => wz_known_operation_key,
            Sort::Block => wz_known_basic_block_key,
            Sort::Region => wz_known_region_key,
        };
        let (store, words) = (self.words.as_ptr(), self.words.len());
        let (index, rows) = options.types.index.lent();
        let (bytes, room) = (key.as_mut_ptr(), key.len());
        // SAFETY: as above.
        unsafe { call(store, words, index, rows, bytes, room, n, options.ignore.locations, options.ignore.bits) }
    }

    #[inline]
    pub(crate) fn extent(&self, sort: Sort, n: u32, ignore: &Ignore) -> ExtentAnswer {
        let call = match sort {
            Sort::Op => wz_known_operation_extent,
            Sort::Block => wz_known_basic_block_extent,
            Sort::Region => wz_known_region_extent,
        };
        // SAFETY: as above.
        unsafe { call(self.words.as_ptr(), self.words.len(), n, ignore.locations, ignore.bits) }
    }

    /// How long a key will be. Refused by 2 where the fragment is of another store, or has gone away.
    #[inline]
    pub(crate) fn key_length<I: Fragment>(&self, fragment: I, options: Options) -> Result<usize, Refused> {
        if !self.eras.has(fragment) {
            return Err(Refused::NOTHING_THERE);
        }
        let call = match I::SORT {
            Sort::Op => wz_known_operation_key_length,
            Sort::Block => wz_known_basic_block_key_length,
            Sort::Region => wz_known_region_key_length,
        };
        let (store, words) = (self.words.as_ptr(), self.words.len());
        let (index, rows) = options.types.index.lent();
        // SAFETY: as above; and the fragment exists, as these calls ask for too: its id is good for the eras of this store, of which one
        // begins whenever numbers go away.
        Ok(unsafe { call(store, words, index, rows, fragment.number(), options.ignore.locations, options.ignore.bits) })
    }

    pub(crate) fn repeated_run(&self, block: u32, length: u32, options: Options) -> RunAnswer {
        let (store, words) = (self.words.as_ptr(), self.words.len());
        let (index, rows) = options.types.index.lent();
        // SAFETY: as above.
        unsafe { wz_known_repeated_run(store, words, index, rows, block, length, options.ignore.locations, options.ignore.bits) }
    }

    #[inline]
    pub(crate) fn independent(&self, sort: Sort, pair: (u32, u32)) -> Independence {
        let call = match sort {
            Sort::Op => wz_known_operations_independent,
            Sort::Block => wz_known_basic_blocks_independent,
            Sort::Region => wz_known_regions_independent,
        };
        // SAFETY: as above.
        unsafe { call(self.words.as_ptr(), self.words.len(), pair.0, pair.1) }
    }

    pub(crate) fn twins_of_operations(&self, options: Options, twins: &mut [u32]) -> Grouped {
        let (store, words) = (self.words.as_ptr(), self.words.len());
        let (index, rows) = options.types.index.lent();
        let (found, room) = (twins.as_mut_ptr(), twins.len());
        // SAFETY: as above.
        unsafe { wz_known_twins_of_operations(store, words, index, rows, options.ignore.locations, options.ignore.bits, found, room) }
    }
}

/// An index of a list of renamed types: no words for the empty list, or as the library has made it. Nothing writes to it.
#[derive(Clone)]
pub(crate) struct IndexWords {
    words: Vec<u32>,
}

impl IndexWords {
    /// That of the empty list.
    pub(crate) const fn none() -> IndexWords {
        IndexWords { words: Vec::new() }
    }

    /// That of this list, if it holds; else it is refused by 14.
    pub(crate) fn tested(types: &[u32]) -> Result<IndexWords, Refused> {
        let mut words = vec![0; lent::index_words()];
        // SAFETY: as in `lent`: the list may be any words, and the index has the length that is asked for.
        let length = unsafe { wz_known_index_types(types.as_ptr(), types.len(), words.as_mut_ptr(), words.len()) };
        words.truncate(if types.is_empty() { 0 } else { length });
        match length {
            0 => Err(Refused::TYPES),
            _ => Ok(IndexWords { words }),
        }
    }

    pub(crate) fn words(&self) -> &[u32] {
        &self.words
    }

    #[inline]
    fn lent(&self) -> (*const u32, usize) {
        (self.words.as_ptr(), self.words.len())
    }
}

#[cfg(test)]
mod tests {
    use super::super::allowed::NONE;
    use super::*;
    use crate::{Mapping, OpId, Store, operation_eq};

    /// An operation with a block of so many others, and as many strangers between it and them.
    fn fragment(store: &mut Store, inner: usize, strangers: usize) -> OpId {
        let plain = NewOperation { kind: 1, result_types: &[3], ..Default::default() };
        let op = store.new_operation(&NewOperation { regions: 1, ..plain }).unwrap();
        let region = store.operation(op).unwrap().regions().next().unwrap();
        let block = store.new_block(region, 0, &[4, 5]).unwrap();
        for _ in 0..strangers {
            store.new_operation(&plain).unwrap();
        }
        for _ in 0..inner {
            store.new_operation(&NewOperation { parent: Some(block), ..plain }).unwrap();
        }
        op
    }

    #[test]
    fn entries_that_are_found_are_all() {
        for (inner, strangers) in [(0, 0), (1, 0), (7, 3), (20, 90), (100, 0)] {
            let mut store = Store::new();
            let [left, right] = [(); 2].map(|()| fragment(&mut store, inner, strangers));
            for lhs in [left.number(), right.number(), 511, u32::MAX] {
                let mut mapping = Mapping::new();
                let answer = operation_eq(&store, &mut mapping, left, right, &Ignore::NOTHING).unwrap();
                let found = store.sound.entered(&mapping.words, Sort::Op, lhs, answer.paired());
                let mut words = mapping.words().to_vec();
                for entries in [found.value..found.end, found.owner..found.past] {
                    entries.for_each(|i| words[i as usize] = NONE);
                }
                assert!(answer.paired() as usize == inner + 2 && words.iter().all(|image| *image == NONE), "{inner}, {strangers}, {lhs}");
            }
        }
    }
}
