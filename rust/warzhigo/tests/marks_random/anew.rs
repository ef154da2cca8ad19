//! A store that went back, beside one that was built anew by the accepted calls up to the mark: all answers are the same.

use warzhigo::{Mapping, Store};

use crate::common::question::{Question, Sort, hash_inner, hash_lent, ignore_rule, key_inner, key_is, no_entries};
use crate::counts::Counts;
use crate::trial::Trial;

const SORTS: [Sort; 3] = [Sort::Op, Sort::Block, Sort::Region];

impl Trial {
    pub fn is_as_built_anew(&mut self, context: &str, counts: &mut Counts) {
        let mut anew = Store::new();
        for call in &self.model.calls {
            assert!(matches!(call.by_ids(&mut anew), Some(Ok(_))), "{context}: {call:?} anew");
        }
        for sort in SORTS {
            let count = match sort {
                Sort::Op => self.model.picture.ops.len(),
                Sort::Block => self.model.picture.blocks.len(),
                Sort::Region => self.model.picture.regions.len(),
            };
            if count > 0 {
                let [lhs, rhs] = [0; 2].map(|_| self.random.below(count as u32));
                let ignore = ignore_rule(&mut self.random);
                self.answers_as(&anew, &Question { sort, lhs, rhs, ignore }, context);
                counts.built_anew += 1;
            }
        }
    }

    /// Comparison with its mapping, hash and key.
    fn answers_as(&self, anew: &Store, question: &Question, context: &str) {
        let context = format!("{context}: {question:?}");
        let Question { sort, lhs, ref ignore, .. } = *question;
        let (mut mapping, mut other, mut lent) = (Mapping::new(), Mapping::new(), no_entries());
        let found = question.inner(&self.store, &mut mapping);
        assert_eq!(found, question.inner(anew, &mut other), "{context}");
        assert_eq!(found, question.lent(self.store.words(), &mut lent), "{context}");
        assert!(mapping.words() == other.words() && mapping.words() == lent, "{context}: mappings");
        let hash = hash_inner(anew, sort, lhs, ignore);
        assert_eq!(hash_inner(&self.store, sort, lhs, ignore), hash, "{context}");
        assert_eq!(hash_lent(self.store.words(), sort, lhs, ignore), hash, "{context}");
        let key = key_inner(anew, sort, lhs, ignore).expect(&context);
        key_is(&self.store, sort, lhs, ignore, &key, &context);
    }
}
