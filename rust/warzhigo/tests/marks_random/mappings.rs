//! Mappings that were kept from any time: entries by comparisons and by hand, of what is there and of what has gone.

use std::collections::BTreeSet;

use warzhigo::{Entry, Ignore, Mapping, Refused, Store, operation_eq};

use crate::common::call::Answer;
use crate::common::question::{Question, Sort};
use crate::counts::Counts;
use crate::kept::{AnyId, Kept};
use crate::trial::Trial;

/// Every so many goings back, documents are made of mappings.
const DOCUMENTS: u64 = 4;

/// A mapping, and its entries: both ids, each with the time at which its number was given.
#[derive(Clone, Default)]
struct Lent {
    mapping: Mapping,
    entries: Vec<[(AnyId, u64); 2]>,
    /// A copy has left its entries there, and no time was noted yet.
    copied: bool,
}

#[derive(Default)]
pub struct Mappings(Vec<Lent>);

/// The entries as ids.
fn entries(mapping: &Mapping) -> Vec<[AnyId; 2]> {
    let any = |entry| match entry {
        Entry::Value(l, r) => [l, r].map(AnyId::Value),
        Entry::Block(l, r) => [l, r].map(AnyId::Block),
        Entry::Op(l, r) => [l, r].map(AnyId::Op),
    };
    mapping.entries().map(any).collect()
}

impl Lent {
    /// By two ids that were kept, of one sort.
    fn enter(&mut self, from: (AnyId, u64), to: (AnyId, u64)) {
        let entered = match (from.0, to.0) {
            (AnyId::Op(l), AnyId::Op(r)) => self.mapping.map_op(l, r),
            (AnyId::Block(l), AnyId::Block(r)) => self.mapping.map_block(l, r),
            (AnyId::Value(l), AnyId::Value(r)) => self.mapping.map_value(l, r),
            _ => return,
        };
        assert_eq!(entered, Ok(()), "{from:?} to {to:?}, which are of one store");
        self.entries.retain(|[left, _]| (left.0.sort(), left.0.number()) != (from.0.sort(), from.0.number()));
        self.entries.push([from, to]);
    }

    /// Lends it to a comparison, which refuses it by 8 exactly where an entry names what has gone.
    fn lend(&mut self, store: &Store, kept: &Kept, question: &Question, context: &str) -> bool {
        let there = self.is_there(kept);
        let (before, mut words) = (self.mapping.words().to_vec(), self.mapping.words().to_vec());
        let [lhs, rhs] = [question.lhs, question.rhs].map(|n| store.op_id(n).expect("an operation"));
        let answer = operation_eq(store, &mut self.mapping, lhs, rhs, &question.ignore);
        if !there {
            assert_eq!(answer.map_err(Refused::number).err(), Some(8), "{context}: {:?}", self.entries);
            assert!(self.mapping.words() == before, "{context}: a refused mapping was written to");
            return false;
        }
        let lent = question.lent(store.words(), &mut words).expect(context);
        assert_eq!((answer.expect(context).paired(), self.mapping.words()), (lent.paired, &words[..]), "{context}");
        self.note(kept);
        true
    }

    /// Is all there that its entries name?
    fn is_there(&self, kept: &Kept) -> bool {
        self.entries.iter().flatten().all(|(id, time)| kept.time(*id) == Some(*time))
    }

    /// Its entries are those that it has now.
    fn note(&mut self, kept: &Kept) {
        let now = |id: AnyId| (id, kept.time(id).expect("what an entry names"));
        self.entries = entries(&self.mapping).into_iter().map(|pair| pair.map(now)).collect();
        self.copied = false;
    }

    /// Its entries are given by the ids that they were made of, or that were good when they were made.
    fn hold(&self, context: &str) {
        let mut expected: Vec<[AnyId; 2]> = self.entries.iter().map(|pair| pair.map(|(id, _)| id)).collect();
        expected.sort_by_key(|[left, _]| ([2, 1, 0, 0][left.sort()], left.number()));
        assert_eq!(entries(&self.mapping), expected, "{context}");
        for [left, image] in expected {
            let found = match left {
                AnyId::Op(id) => self.mapping.lookup_op(id).map(AnyId::Op),
                AnyId::Block(id) => self.mapping.lookup_block(id).map(AnyId::Block),
                AnyId::Region(_) => None,
                AnyId::Value(id) => self.mapping.lookup_value(id).map(AnyId::Value),
            };
            assert_eq!(found, Some(image), "{context}");
        }
    }
}

/// As a document.
impl Lent {
    /// Read backwards, if no number stands twice on the right.
    fn inverse(&self, context: &str) -> Option<Lent> {
        let images: BTreeSet<(usize, u32)> = self.entries.iter().map(|[_, (image, _)]| (image.sort(), image.number())).collect();
        let mapping = self.mapping.inverse();
        assert_eq!(mapping.is_some(), images.len() == self.entries.len(), "{context}: {:?}", self.entries);
        Some(Lent { mapping: mapping?, entries: self.entries.iter().map(|[left, image]| [*image, *left]).collect(), copied: false })
    }

    /// Followed by another of the same store: by ids, so by what they name, and not by numbers.
    fn then(&self, other: &Lent, context: &str) -> Lent {
        let mapping = self.mapping.then(&other.mapping).expect(context);
        let image = |id: &(AnyId, u64)| other.entries.iter().find(|[left, _]| left == id).map(|[_, image]| *image);
        let entries = self.entries.iter().filter_map(|[left, middle]| Some([*left, image(middle)?]));
        Lent { mapping, entries: entries.collect(), copied: false }
    }

    /// Its inverse, and it followed by another and by its inverse: each with the entries that are due, and lent as any other mapping.
    fn documents(&self, other: &Lent, trial: &Trial, kept: &Kept, question: &Question, context: &str, counts: &mut Counts) {
        let inverse = self.inverse(context);
        counts.inverses += inverse.as_ref().is_some_and(|inverse| !inverse.entries.is_empty()) as u64;
        counts.without_inverse += inverse.is_none() as u64;
        let there_and_back = inverse.as_ref().map(|inverse| self.then(inverse, context));
        for mut made in [Some(self.then(other, context)), there_and_back, inverse].into_iter().flatten() {
            counts.put_together += !made.entries.is_empty() as u64;
            made.hold(context);
            let taken = made.lend(&trial.store, kept, question, context);
            counts.put_together_refused += !taken as u64;
            made.mapping.clear();
            assert!(made.mapping.is_empty() && made.mapping.words().iter().all(|image| *image == u32::MAX), "{context}: cleared");
        }
    }
}

/// Two operations to compare.
fn question(trial: &mut Trial) -> Option<Question> {
    let count = trial.model.picture.ops.len() as u32;
    let [lhs, rhs] = [0; 2].map(|_| trial.random.below(count));
    (count > 0).then_some(Question { sort: Sort::Op, lhs, rhs, ignore: Ignore::NOTHING })
}

impl Mappings {
    /// Lends one of them to a copy, or an empty one. What names what has gone is refused by 8, and left as it was.
    pub fn lend_to(
        &mut self,
        trial: &mut Trial,
        kept: &Kept,
        context: &str,
        counts: &mut Counts,
        copy: impl FnOnce(&mut Store, &mut Mapping) -> Answer,
    ) -> Answer {
        let place = trial.random.below(self.0.len() as u32 + 1) as usize;
        let Some(lent) = self.0.get_mut(place) else { return copy(&mut trial.store, &mut Mapping::new()) };
        if lent.is_there(kept) {
            counts.copies_into_entries += !lent.entries.is_empty() as u64;
            let answer = copy(&mut trial.store, &mut lent.mapping);
            lent.copied = answer.is_ok();
            return answer;
        }
        let (words, entries) = (trial.store.words().to_vec(), lent.mapping.words().to_vec());
        if let Some(op) = trial.store.op_id(0) {
            let refused = trial.store.clone_operation(op, None, &mut lent.mapping);
            assert_eq!(refused.map_err(Refused::number), Err(8), "{context}: {:?}", lent.entries);
            assert!(trial.store.words() == words && lent.mapping.words() == entries, "{context}: a refused copy has changed words");
            counts.copies_refused_by_8 += 1;
        }
        copy(&mut trial.store, &mut Mapping::new())
    }

    /// The times of what a copy has entered.
    pub fn copied(&mut self, kept: &Kept) {
        self.0.iter_mut().filter(|lent| lent.copied).for_each(|lent| lent.note(kept));
    }

    /// Now and then makes a mapping, or enters something into one.
    pub fn make(&mut self, trial: &mut Trial, kept: &Kept, context: &str) {
        if self.0.len() < 6 && trial.random.chance(10) {
            self.0.push(Lent::default());
        }
        let Some(question) = question(trial) else { return };
        let place = trial.random.below(self.0.len() as u32) as usize;
        let Some(lent) = self.0.get_mut(place) else { return };
        match trial.random.below(10) {
            0 => {
                lent.lend(&trial.store, kept, &question, context);
            }
            1 | 2 => {
                if let (Some(from), Some(to)) = (trial.random.any(&kept.ids), trial.random.any(&kept.ids)) {
                    lent.enter(from, to);
                }
            }
            3 if trial.random.chance(30) => {
                lent.mapping.clear();
                lent.entries.clear();
            }
            _ => {}
        }
        lent.hold(context);
    }

    /// Lends all of them: as copies, and now and then itself; and documents that are made of them.
    pub fn hold(&mut self, trial: &mut Trial, kept: &Kept, context: &str, counts: &mut Counts) {
        for place in 0..self.0.len() {
            let Some(question) = question(trial) else { return };
            if counts.gone_back % DOCUMENTS == 0 {
                let next = &self.0[(place + 1) % self.0.len()];
                self.0[place].documents(next, trial, kept, &question, context, counts);
            }
            let lent = &mut self.0[place];
            let mut copy = lent.clone();
            let taken = copy.lend(&trial.store, kept, &question, context);
            copy.hold(context);
            counts.mappings_taken += (taken && !lent.entries.is_empty()) as u64;
            counts.mappings_refused += !taken as u64;
            if trial.random.chance(30) {
                *lent = copy;
            }
        }
    }
}
