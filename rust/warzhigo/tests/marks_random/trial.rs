//! One list of calls, made in every way.

use warzhigo::{Ignore, Store};

use crate::common::call::{Answer, Call};
use crate::common::copying::Copying;
use crate::common::marked::{Marked, Step};
use crate::common::numbers::Random;
use crate::common::question::ignore_rule;
use crate::counts::Counts;
use crate::draw::{Nature, with_operands};
use crate::kept::Kept;
use crate::mappings::Mappings;
use crate::program::BY_LINE;

pub struct Trial {
    pub seed: u64,
    pub random: Random,
    pub store: Store,
    pub model: Marked,
    /// Each call, its answer, and the store after it as text, where that is short.
    pub log: Vec<(Step, Answer, String)>,
}

impl Trial {
    /// Makes a list of calls, and asserts after each that store, words and model agree.
    pub fn run(seed: u64, counts: &mut Counts) -> Trial {
        let mut random = Random::new(seed);
        let nature = Nature::new(&mut random);
        let mut trial = Trial { seed, random, store: Store::new(), model: Marked::default(), log: Vec::new() };
        let (mut kept, mut mappings) = (Kept::default(), Mappings::default());
        for _ in 0..nature.calls {
            let step = nature.step(&mut trial.random, &trial.model);
            let context = format!("seed {seed}: {step:?}");
            let answer = match step {
                Step::Build(Call::Copy { op, parent }) => trial.copy((op, parent), &mut mappings, &kept, &context, counts),
                _ => trial.make(&step, &context, counts),
            };
            kept.note(&mut trial, &context, counts);
            mappings.copied(&kept);
            if let (Step::Back(_), Ok(_)) = (&step, answer) {
                trial.is_as_built_anew(&context, counts);
                kept.hold(&trial, &context, counts);
                mappings.hold(&mut trial, &kept, &context, counts);
            }
            mappings.make(&mut trial, &kept, &context);
            if trial.random.chance(nature.bursts) {
                trial.burst(&context, counts);
            }
            trial.model.is(&trial.store, &context);
        }
        counts.lists += 1;
        trial
    }

    fn make(&mut self, step: &Step, context: &str, counts: &mut Counts) -> Answer {
        let before = Before::of(&self.model);
        let expected = self.model.apply(step);
        let answer = step.apply(&mut self.store, context);
        assert_eq!(answer, expected, "{context}");
        self.noted(&before, step, answer, counts)
    }

    fn noted(&mut self, before: &Before, step: &Step, answer: Answer, counts: &mut Counts) -> Answer {
        counts.note(before, step, answer, &self.model);
        let text = if self.log.len() < BY_LINE { self.model.dump() } else { String::new() };
        self.log.push((step.clone(), answer, text));
        answer
    }

    /// A copy, often lent a mapping that was kept. One with entries of what has gone is refused by 8, and then it is lent an empty one.
    fn copy(
        &mut self,
        (op, parent): (u32, Option<u32>),
        mappings: &mut Mappings,
        kept: &Kept,
        context: &str,
        counts: &mut Counts,
    ) -> Answer {
        let (before, step) = (Before::of(&self.model), Step::Build(Call::Copy { op, parent }));
        let mut picture = self.model.picture.clone();
        let expected = self.model.apply(&step);
        let ignore = [Ignore::NOTHING, ignore_rule(&mut self.random)];
        let copying = Copying { op, parent, ignore: &ignore };
        let answer = mappings.lend_to(self, kept, context, counts, |store, mapping| copying.make(store, &mut picture, mapping, context));
        assert_eq!(answer, expected, "{context}");
        self.noted(&before, &step, answer, counts)
    }

    /// Replacements of one operand, up to the most that are remembered, or beyond.
    fn burst(&mut self, context: &str, counts: &mut Counts) {
        let Some(op) = with_operands(&mut self.random, &self.model.picture) else { return };
        for n in 0..self.random.pick(&[10, 100, 400, 1025]) {
            let value = n % self.model.picture.values.len() as u32;
            let _ = self.make(&Step::Build(Call::Operand { op, index: 0, value }), context, counts);
        }
    }
}

/// What a store was like before a call, as far as it is counted.
struct Before {
    marks: Vec<u32>,
    remembered: u32,
    ops: usize,
}

impl Before {
    fn of(model: &Marked) -> Before {
        let marks = model.marks.iter().map(|mark| mark.number).collect();
        Before { marks, remembered: model.remembered(), ops: model.picture.ops.len() }
    }
}

impl Counts {
    fn note(&mut self, before: &Before, step: &Step, answer: Answer, after: &Marked) {
        self.calls += 1;
        self.most_marks = self.most_marks.max(after.marks.len());
        self.most_remembered = self.most_remembered.max(after.remembered());
        let place = |number: u32| before.marks.iter().position(|mark| *mark == number);
        match (step, answer) {
            (_, Err(cause)) => self.refused[cause as usize] += 1,
            (Step::Build(Call::Copy { .. }), Ok(_)) => {
                self.copies += 1;
                self.copies_marked += !before.marks.is_empty() as u64;
                assert_eq!(after.remembered(), before.remembered, "a copy replaces nothing");
            }
            (Step::Build(_), Ok(_)) => {}
            (Step::Mark(number), Ok(_)) => {
                self.marks_set += 1;
                self.marks_moved += place(*number).is_some() as u64;
                self.marks_freed += (place(*number) == Some(0) && after.remembered() < before.remembered) as u64;
            }
            (Step::Back(number), Ok(_)) => {
                self.gone_back += 1;
                self.gone_over_others += (place(*number) != before.marks.len().checked_sub(1)) as u64;
                self.gone_undone += (after.remembered() < before.remembered) as u64;
                self.gone_taken += (after.picture.ops.len() < before.ops) as u64;
            }
        }
    }
}
