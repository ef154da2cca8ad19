//! A store at random, and what is asked of it.

use oracle::Oracle;
use warzhigo::Store;

use crate::common::call::apply;
use crate::common::numbers::Random;
use crate::common::picture::Picture;
use crate::common::plan::Plan;
use crate::common::question::{NONE, Question, Sort, ignore_rule};
use crate::common::walk::Entries;
use crate::counts::Counts;

/// One store, built three times over, and what is asked of it.
pub struct Trial {
    pub seed: u64,
    pub random: Random,
    pub store: Store,
    pub oracle: Oracle,
    pub picture: Picture,
    /// The picture without flags.
    pub plain: Picture,
    pub plan: Plan,
}

impl Trial {
    /// Builds a store by a plan: the store, the model and pliron agree on every call and on what is there afterwards.
    pub fn built(seed: u64, counts: &mut Counts) -> Trial {
        let context = format!("seed {seed}");
        let plan = Plan::new(seed);
        let (mut store, mut oracle) = (Store::new(), Oracle::new());
        for (call, expected) in &plan.calls {
            let answer = apply(&mut store, call, &context);
            assert_eq!(answer, *expected, "{context}: {call:?}");
            if let Ok(number) = answer {
                assert_eq!(call.on_oracle(&mut oracle), number, "{context}: {call:?}");
            }
            counts.calls += 1;
            if let Err(cause) = answer {
                counts.refused[cause as usize] += 1;
            }
        }
        let picture = Picture::of(&store, &context);
        assert_eq!(picture, plan.picture, "{context}");
        assert_eq!(picture.dump(), oracle.dump(), "{context}");
        counts.stores += 1;
        counts.deepest_nesting = picture.ops.iter().map(|op| op.nesting).fold(counts.deepest_nesting, u32::max);
        Trial { seed, random: Random::new(!seed), store, oracle, plain: picture.without_flags(), picture, plan }
    }

    /// Two fragments to compare: of near twins, the two that correspond, or any two. There is an operation in every store of these.
    pub fn question(&mut self) -> Question {
        let drawn = self.random.pick(&[Sort::Op, Sort::Block, Sort::Region]);
        let sort = if self.count(drawn) == 0 { Sort::Op } else { drawn };
        let any_two = [self.count(sort); 2].map(|count| self.random.below(count));
        let (lhs, rhs) = self.corresponding(sort).unwrap_or(any_two.into());
        Question { sort, lhs, rhs, ignore: ignore_rule(&mut self.random) }
    }

    pub fn count(&self, sort: Sort) -> u32 {
        let count = match sort {
            Sort::Op => self.picture.ops.len(),
            Sort::Block => self.picture.blocks.len(),
            Sort::Region => self.picture.regions.len(),
        };
        count as u32
    }

    fn corresponding(&mut self, sort: Sort) -> Option<(u32, u32)> {
        let [left, right] = self.plan.twins.as_slice() else { return None };
        let [left, right] = [left, right].map(|twin| match sort {
            Sort::Op => &twin.ops,
            Sort::Block => &twin.blocks,
            Sort::Region => &twin.regions,
        });
        let shorter = left.len().min(right.len()) as u32;
        let n = if self.random.chance(40) { 0 } else { self.random.below(shorter) } as usize;
        let (l, r) = (*left.get(n)?, *right.get(n)?);
        let pair = if self.random.chance(50) { (l, r) } else { (r, l) };
        (self.random.chance(80) && l != NONE && r != NONE).then_some(pair)
    }

    /// Images to begin with: of any numbers, and of what the two operations name, so that they matter.
    pub fn entered(&mut self, question: &Question) -> Entries {
        let mut entries = Entries::default();
        let (random, picture) = (&mut self.random, &self.picture);
        for (count, to) in [
            (picture.values.len(), &mut entries.values),
            (picture.blocks.len(), &mut entries.blocks),
            (picture.ops.len(), &mut entries.ops),
        ] {
            let count = count as u32;
            to.extend((0..random.below(4).min(count)).map(|_| (random.below(count), random.below(count))));
        }
        if question.sort == Sort::Op {
            let [l, r] = [question.lhs, question.rhs].map(|n| &picture.ops[n as usize]);
            entries.values.extend(l.operands.iter().copied().zip(r.operands.iter().copied()));
            entries.blocks.extend(l.successors.iter().copied().zip(r.successors.iter().copied()));
        }
        entries
    }
}
