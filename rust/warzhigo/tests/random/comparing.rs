//! Comparisons in every way: by ids, on lent words, by pliron, and by the model.

use warzhigo::Mapping;

use crate::common::question::{NONE, Question};
use crate::common::walk::{Entries, Longer, compared};
use crate::counts::Counts;
use crate::trial::Trial;

impl Trial {
    /// One to three comparisons into one mapping, which begins empty or with entered images, and is cleared afterwards.
    pub fn comparisons(&mut self, mapping: &mut Mapping, counts: &mut Counts) {
        let first = self.question();
        let entered = if self.random.chance(30) { self.entered(&first) } else { Entries::default() };
        entered.enter(&self.store, mapping).unwrap_or_else(|refused| panic!("seed {}: {refused}", self.seed));
        let mut sides = Sides::new(self, &entered);
        counts.lent_entries += !entered.is_empty() as u64;
        sides.compare(self, &first, mapping, counts);
        for _ in 0..self.random.pick(&[0, 0, 1, 2]) {
            let question = self.question();
            counts.earlier_entries += 1;
            sides.compare(self, &question, mapping, counts);
        }
        self.cleared(mapping);
        for n in [first.lhs, first.rhs] {
            self.hashed(first.sort, n, first.ignore, counts);
        }
    }

    pub fn cleared(&self, mapping: &mut Mapping) {
        mapping.clear();
        assert!(mapping.words().iter().all(|image| *image == NONE), "seed {}: a cleared mapping has entries", self.seed);
        assert!(mapping.is_empty(), "seed {}: a cleared mapping says that it has entries", self.seed);
    }
}

/// The mappings of one run of comparisons, beside the one by ids.
struct Sides {
    lent: Vec<u32>,
    pliron: oracle::Mapping,
    rules: Entries,
    zip: Entries,
    /// No walk so far has met a left list that is one longer.
    in_domain: bool,
}

impl Sides {
    fn new(trial: &Trial, entered: &Entries) -> Sides {
        Sides {
            lent: entered.words(),
            pliron: entered.oracles(&trial.oracle),
            rules: entered.clone(),
            zip: entered.clone(),
            in_domain: true,
        }
    }

    /// Asks all sides. Ours follows the rules, and pliron does where no left list is one longer, else only by its `zip`.
    fn compare(&mut self, trial: &Trial, question: &Question, mapping: &mut Mapping, counts: &mut Counts) {
        let context = format!("seed {}: {question:?}", trial.seed);
        let before = self.rules.clone();
        let (rules, met) = compared(&trial.picture, &mut self.rules, question, Longer::Rules);
        let (zip, _) = compared(&trial.picture, &mut self.zip, question, Longer::Zip);
        self.in_domain &= !met;

        let ours = question.inner(&trial.store, mapping).expect(&context);
        let lent = question.lent(trial.store.words(), &mut self.lent).expect(&context);
        assert_eq!((ours, lent), (rules, rules), "{context}");
        assert_eq!(Entries::of_mapping(mapping), self.rules, "{context}");
        assert_eq!(mapping.is_empty(), self.rules.is_empty(), "{context}");
        assert_eq!(Entries::of_words(&self.lent), self.rules, "{context}");

        let pliron = question.on_oracle(&trial.oracle, &mut self.pliron);
        let pliron_entries = Entries::of_oracle(&trial.oracle, &self.pliron);
        assert_eq!(pliron, zip.verdict, "{context}: pliron and the model with `zip`");
        assert_eq!(pliron_entries, self.zip, "{context}: pliron and the model with `zip`");
        if self.in_domain {
            assert_eq!((ours.verdict, &self.rules), (pliron, &pliron_entries), "{context}: ours and pliron");
        }
        if met {
            assert_ne!(ours.verdict, pliron, "{context}: pliron can't find the length");
        }
        counts.compared(question, ours);
        counts.outside_domain += met as u64;
        counts.by_entries(trial, question, ours, &before);
        counts.by_flags(trial, question, ours, before);
    }
}
