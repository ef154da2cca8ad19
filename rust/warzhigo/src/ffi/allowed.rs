//! The words of a mapping, which are lent only where they are allowed: what their entries name may have gone away since they were made.

use alloc::boxed::Box;
use alloc::collections::BTreeMap;
use alloc::vec;
use core::ops::Range;

use super::known::SoundWords;
use super::*;
use crate::eras::{Counts, Eras};
use crate::ids::{BlockId, Identity, Mapped, OpId, ValueId};
use crate::refused::Refused;

/// The entry of a number without an image.
pub(crate) const NONE: u32 = u32::MAX;

/// The words of a mapping, and the store that its entries are of.
///
/// Every entry but those by hand was allowed beside that store when it had these eras: it was tested then, or made by a comparison, or is
/// of two ids that were good then.
#[derive(Clone)]
pub(crate) struct AllowedWords {
    words: Box<[u32]>,
    of: Option<Eras>,
    /// Entries by hand, and those made of others that may be of what has gone, by their place among the words, with the eras of both ids:
    /// it is seen when the mapping is lent next whether the ids are good.
    by_hand: BTreeMap<usize, [Identity; 2]>,
}

impl AllowedWords {
    /// The empty mapping, of no store yet.
    pub(crate) fn empty() -> AllowedWords {
        let words = vec![NONE; lent::mapping_words()].into_boxed_slice();
        AllowedWords { words, of: None, by_hand: BTreeMap::new() }
    }

    /// These words, if they are allowed beside the store; else they are refused by 8.
    pub(crate) fn tested(words: Box<[u32]>, store: &SoundWords) -> Result<AllowedWords, Refused> {
        let (lent, count) = (store.words().as_ptr(), store.words().len());
        // SAFETY: as for the calls on known words; the mapping may be any words.
        match unsafe { wz_known_is_allowed(lent, count, words.as_ptr(), words.len()) } {
            true => Ok(AllowedWords { words, of: Some(store.eras().clone()), by_hand: BTreeMap::new() }),
            false => Err(Refused::MAPPING),
        }
    }

    pub(crate) fn words(&self) -> &[u32] {
        &self.words
    }

    /// The words, to lend beside the store that has these eras now; refused by 8 where an entry isn't allowed there. A mapping that
    /// belonged to another store has to be empty, and belongs to this one from now on.
    #[inline]
    pub(super) fn lent(&mut self, store: &Eras) -> Result<(*mut u32, usize), Refused> {
        let known = self.of.as_ref().is_some_and(|of| of.newest() == store.newest()) && self.by_hand.is_empty();
        match known || self.is_allowed_now(store) {
            true => Ok((self.words.as_mut_ptr(), self.words.len())),
            false => Err(Refused::MAPPING),
        }
    }

    /// Looks at every entry. If all are allowed, that is noted, for the eras that the store has.
    #[cold]
    fn is_allowed_now(&mut self, store: &Eras) -> bool {
        let left = match &self.of {
            Some(of) if of.store() == store.store() => store.left_since(of.newest()).unwrap_or([u32::MAX; 4]),
            _ => [0; 4],
        };
        let allowed = self.are_good::<ValueId>(store, left) && self.are_good::<BlockId>(store, left) && self.are_good::<OpId>(store, left);
        if allowed {
            self.of = Some(store.clone());
            self.by_hand.clear();
        }
        allowed
    }

    /// Of one sort: are the ids of entries by hand good, and both numbers of each other entry among those that are left?
    fn are_good<I: Mapped>(&self, store: &Eras, left: Counts) -> bool {
        let left = left[I::OF as usize];
        self.numbers::<I>().all(|(number, image)| match self.by_hand.get(&(I::ENTRIES + number as usize)) {
            Some([from, to]) => store.has(I::existing(number, *from)) && store.has(I::existing(image, *to)),
            None => number < left && image < left,
        })
    }

    /// The entries of one sort, by numbers.
    fn numbers<I: Mapped>(&self) -> impl Iterator<Item = (u32, u32)> + '_ {
        let images = self.words[I::ENTRIES..I::ENTRIES + I::COUNT].iter().copied();
        (0..).zip(images).filter(|(_, image)| *image != NONE)
    }

    /// The entries of one sort, by the ids that their store had for both when they were made.
    pub(crate) fn entries<I: Mapped>(&self) -> impl Iterator<Item = (I, I)> + '_ {
        self.numbers::<I>().filter_map(|(number, _)| self.entry(number))
    }

    /// What an id corresponds to, if it has an entry.
    pub(crate) fn image<I: Mapped>(&self, from: I) -> Option<I> {
        let (left, image) = self.entry::<I>(from.number())?;
        (left.identity() == from.identity()).then_some(image)
    }

    fn entry<I: Mapped>(&self, number: u32) -> Option<(I, I)> {
        let at = I::ENTRIES + number as usize;
        let image = Some(self.words[at]).filter(|image| *image != NONE)?;
        let [from, to] = match (self.by_hand.get(&at), &self.of) {
            (Some(by_hand), _) => *by_hand,
            (None, Some(of)) => [number, image].map(|number| of.owner(I::OF, number)),
            (None, None) => return None,
        };
        Some((I::existing(number, from), I::existing(image, to)))
    }

    /// Enters the image `to` of `from`; refused by 8 where they are not of one store, or not of the mapping's, as far as that can be told
    /// from the ids.
    pub(crate) fn enter<I: Mapped>(&mut self, from: I, to: I) -> Result<(), Refused> {
        if !self.has(from, to) && !self.may_have([from.identity(), to.identity()]) {
            return Err(Refused::MAPPING);
        }
        self.put(from, to);
        Ok(())
    }

    /// Are both good for the store that the entries are of, by the eras that it had?
    fn has<I: Mapped>(&self, from: I, to: I) -> bool {
        self.of.as_ref().is_some_and(|of| of.has(from) && of.has(to))
    }

    /// Enters the image `to` of `from`: by hand, unless both are good.
    fn put<I: Mapped>(&mut self, from: I, to: I) {
        let at = I::ENTRIES + from.number() as usize;
        if self.has(from, to) {
            self.by_hand.remove(&at);
        } else {
            self.by_hand.insert(at, [from.identity(), to.identity()]);
        }
        self.words[at] = to.number();
    }

    /// May ids of these eras be of one store, and of that of the entries that there are?
    fn may_have(&mut self, eras: [Identity; 2]) -> bool {
        if self.is_empty() {
            self.of = None;
        }
        let of = self.of.iter().map(Eras::store);
        let others = of.chain(self.by_hand.values().flatten().copied().take(2)).chain([eras[0]]);
        others.into_iter().all(|other| eras.iter().all(|one| one.may_be_of_one_store(other)))
    }

    /// Has it no entries?
    fn is_empty(&self) -> bool {
        self.by_hand.is_empty() && self.words.iter().all(|image| *image == NONE)
    }

    /// The store that its entries are of, if it has any. Of entries by hand alone it can be told from ids of that store's first era.
    fn store(&self) -> Option<Identity> {
        let of = self.of.as_ref().map(Eras::store);
        let told = of.or_else(|| self.by_hand.values().flatten().copied().find(|era| era.is_first()));
        told.filter(|_| !self.is_empty())
    }

    /// The same entries backwards, unless two of a sort have the same number on the right.
    pub(crate) fn inverse(&self) -> Option<AllowedWords> {
        let mut inverse = AllowedWords { of: self.of.clone(), ..AllowedWords::empty() };
        let all = inverse.turn::<ValueId>(self) && inverse.turn::<BlockId>(self) && inverse.turn::<OpId>(self);
        all.then_some(inverse)
    }

    /// Enters those of one sort backwards, up to one whose place is taken. Gives whether there is none.
    fn turn<I: Mapped>(&mut self, of: &AllowedWords) -> bool {
        of.entries::<I>().all(|(from, to)| {
            let free = self.words[I::ENTRIES + to.number() as usize] == NONE;
            if free {
                self.put(to, from);
            }
            free
        })
    }

    /// These entries followed by others, by ids; refused by 8 where they are of two stores, as far as that can be told.
    pub(crate) fn then(&self, other: &AllowedWords) -> Result<AllowedWords, Refused> {
        if self.store().zip(other.store()).is_some_and(|(one, other)| one != other) {
            return Err(Refused::MAPPING);
        }
        let of = self.of.as_ref().or(other.of.as_ref()).cloned();
        let mut both = AllowedWords { of, ..AllowedWords::empty() };
        both.follow::<ValueId>(self, other);
        both.follow::<BlockId>(self, other);
        both.follow::<OpId>(self, other);
        Ok(both)
    }

    /// Enters the images, in the other, of the images of one sort.
    fn follow<I: Mapped>(&mut self, one: &AllowedWords, other: &AllowedWords) {
        one.entries::<I>().for_each(|(from, middle)| {
            if let Some(to) = other.image(middle) {
                self.put(from, to);
            }
        });
    }

    /// Takes entries out, and all that were made by hand.
    #[inline]
    pub(crate) fn remove(&mut self, entries: &[Range<usize>]) {
        entries.iter().for_each(|entries| self.remove_range(entries.clone()));
        if !self.by_hand.is_empty() {
            core::mem::take(&mut self.by_hand).into_keys().for_each(|at| self.words[at] = NONE);
        }
    }

    /// A few are written one by one: to call a fill for each costs more.
    #[inline]
    fn remove_range(&mut self, entries: Range<usize>) {
        match &mut self.words[entries] {
            [] => {}
            [a] => *a = NONE,
            [a, b] => (*a, *b) = (NONE, NONE),
            many => many.fill(NONE),
        }
    }
}
