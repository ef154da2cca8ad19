//! Lists of renamed types: each answer under one is that of the store with types already replaced.

use std::collections::{BTreeMap, BTreeSet};

use warzhigo::lent;
use warzhigo::{Mapping, Refused, Renamed, Store};

use crate::common::layout::{LIMITS, VALUE_TYPE};
use crate::common::question::{LENT, Question, hash_inner, hash_lent_under, key_inner, key_lent_under};
use crate::common::walk::Entries;
use crate::counts::Counts;
use crate::trial::Trial;

/// Does the list hold? Else it is refused by 14.
fn holds(words: &[u32]) -> bool {
    let olds: BTreeSet<u32> = words.iter().copied().step_by(2).collect();
    let rows = words.len() / 2;
    let whole = words.len() == 2 * rows && rows <= 64;
    whole && olds.len() == rows && words.iter().skip(1).step_by(2).all(|present| !olds.contains(present))
}

/// The store with types already replaced, made from its words: each type that is picked by the present one that its row has.
fn replaced(store: &Store, words: &[u32], mut picked: impl FnMut() -> bool) -> Store {
    let rows: BTreeMap<u32, u32> = words.chunks(2).map(|row| (row[0], row[1])).collect();
    let mut all = store.words().to_vec();
    for t in &mut all[VALUE_TYPE..][..LIMITS[3] as usize] {
        *t = rows.get(t).copied().filter(|_| picked()).unwrap_or(*t);
    }
    Store::from_words(all).expect("types are nothing that soundness asks about")
}

impl Trial {
    /// A list of renamed types: most of them hold, and make types of the store one.
    pub fn types(&mut self) -> Vec<u32> {
        let of_store: BTreeSet<u32> = self.picture.values.iter().map(|value| value.ty).collect();
        let extra = self.random.pick(&[0, 0, 0, 0, 0, 1, 60, 70]);
        let olds = of_store.into_iter().chain((0..extra).map(|row| 1_000_000 + row * 64));
        let mut words = Vec::new();
        for old in olds {
            if self.random.chance(80) {
                words.extend([old, self.random.pick(&[2_000_000, 2_000_000, 2_000_001, u32::MAX])]);
            }
        }
        match self.random.below(10) {
            0 => words.push(7),
            1 if words.len() > 3 => words[2] = words[0],
            2 if words.len() > 3 => words[1] = words[2],
            _ => {}
        }
        words
    }

    /// Compares, hashes and keys two fragments under a list, in every way.
    pub fn renamed(&mut self, mapping: &mut Mapping, counts: &mut Counts) {
        let (question, words) = (self.question(), self.types());
        let entered = if self.random.chance(30) { self.entered(&question) } else { Entries::default() };
        let context = format!("seed {}: {question:?} under {words:?}", self.seed);
        counts.lists += 1;
        if !holds(&words) {
            counts.lists_refused += 1;
            return self.list_refused(&question, &words, &context);
        }
        let types = Renamed::from_words(&words).expect(&context);
        // some forms are written with present types already
        let mixed = replaced(&self.store, &words, || self.random.chance(20));
        let other = replaced(&self.store, &words, || true);
        let mut lent = entered.words();
        entered.enter(&mixed, mapping).expect(&context);
        let found = question.inner_under(&types, &mixed, mapping).expect(&context);
        assert_eq!(question.lent_under(&words, mixed.words(), &mut lent), Ok(found), "{context}");
        assert_eq!(Entries::of_words(&lent), Entries::of_mapping(mapping), "{context}");
        self.cleared(mapping);

        entered.enter(&other, mapping).expect(&context);
        assert_eq!(question.inner(&other, mapping), Ok(found), "{context}: against types replaced");
        assert_eq!(Entries::of_words(&lent), Entries::of_mapping(mapping), "{context}: against types replaced");
        mapping.clear();
        entered.enter(&mixed, mapping).expect(&context);
        counts.another_answer += (question.inner(&mixed, mapping) != Ok(found)) as u64;
        self.cleared(mapping);
        hashed_and_keyed(&question, (&mixed, &words, &types), &other, &context);
    }

    /// A list that doesn't hold is refused by 14, and nothing has changed.
    fn list_refused(&self, question: &Question, words: &[u32], context: &str) {
        let Question { sort, lhs, ref ignore, .. } = *question;
        let mut mapping = Entries::default().words();
        let mut bytes = vec![LENT; lent::key_bytes()];
        let refused = [
            Renamed::from_words(words).err(),
            question.lent_under(words, self.store.words(), &mut mapping).err(),
            hash_lent_under(words, self.store.words(), sort, lhs, ignore).err(),
            key_lent_under(words, self.store.words(), sort, lhs, ignore, &mut bytes).err(),
        ];
        assert_eq!(refused.map(|by| by.map(Refused::number)), [Some(14); 4], "{context}");
        assert!(Entries::of_words(&mapping).is_empty() && bytes.iter().all(|byte| *byte == LENT), "{context}");
    }
}

/// The hash and the key of both, in a store under a list and as words, are those in the store with types replaced.
fn hashed_and_keyed(question: &Question, (store, words, types): (&Store, &[u32], &Renamed), other: &Store, context: &str) {
    let Question { sort, ref ignore, .. } = *question;
    for n in [question.lhs, question.rhs] {
        let hash = hash_inner(other, sort, n, ignore);
        assert_eq!(hash_inner(store, sort, n, (ignore, types)), hash, "{context}: hash of {n}");
        assert_eq!(hash_lent_under(words, store.words(), sort, n, ignore), hash, "{context}: hash of {n}");
        let key = key_inner(other, sort, n, ignore).expect(context);
        assert_eq!(key_inner(store, sort, n, (ignore, types)).as_ref(), Ok(&key), "{context}: key of {n}");
        let mut bytes = vec![LENT; key.len()];
        assert_eq!(key_lent_under(words, store.words(), sort, n, ignore, &mut bytes), Ok(key.len()), "{context}: key of {n}");
        assert_eq!(bytes, key, "{context}: key of {n}");
    }
}
