//! What was run, and whether it is enough.

use oracle::Verdict;

use crate::common::question::Question;
use crate::common::walk::{Entries, Found, Longer, compared};
use crate::trial::Trial;

/// What was run.
#[derive(Default, Debug)]
pub struct Counts {
    pub stores: u64,
    pub calls: u64,
    /// Refused calls, by their cause.
    pub refused: [u64; 8],
    pub comparisons: u64,
    /// Comparisons of a fragment with itself, and those of two that are equal.
    pub with_itself: u64,
    pub equal: u64,
    pub operations_named: u64,
    pub blocks_named: u64,
    pub regions_named: u64,
    /// Comparisons whose walk met a left list that is one longer.
    pub outside_domain: u64,
    /// Comparisons that began with entered images, those into a mapping that an earlier one was lent, and those of them all that are
    /// equal by such entries only.
    pub lent_entries: u64,
    pub earlier_entries: u64,
    pub equal_by_entries: u64,
    /// Comparisons that would be equal if no attribute were inherent; and pairs in equal fragments that have an inherent attribute, and
    /// those of them whose kind is to be ignored.
    pub unequal_by_flags: u64,
    pub inherent_on_both: u64,
    pub never_ignored: u64,
    pub hashes: u64,
    pub keys: u64,
    /// Stores with more than two keys that were put in order.
    pub shelves: u64,
    /// Different fragments that are equal, with the same key; and with two, since the left one names what the right one defines.
    pub equal_and_one_key: u64,
    pub equal_and_two_keys: u64,
    pub longest_key: usize,
    pub deepest_extent: u32,
    /// Lists of renamed types, those that are refused, and comparisons that a list gave another answer.
    pub lists: u64,
    pub lists_refused: u64,
    pub another_answer: u64,
    /// Searches for repeated runs, those that found one, and those of them with more than one operation.
    pub runs: u64,
    pub runs_found: u64,
    pub long_runs: u64,
    pub reflexive: u64,
    pub premise_and_equal: u64,
    pub equal_without_premise: u64,
    /// Mappings of equal comparisons, those of them under a list of renamed types, those of a comparison that is equal the other way too, and
    /// those of one that is not.
    pub documents: u64,
    pub documents_renamed: u64,
    pub backwards: u64,
    pub one_way: u64,
    /// Mappings followed by another, and those of them between three different fragments.
    pub followed: u64,
    pub followed_by_a_third: u64,
    /// Copies that were made, those of more than one operation, those of operations that were copies, those that name what is inside and what
    /// isn't; and those refused, by their cause.
    pub copies: u64,
    pub copies_of_several: u64,
    pub copies_of_copies: u64,
    pub copies_naming_inside: u64,
    pub copies_naming_others: u64,
    pub copies_refused: [u64; 20],
    /// Copies that pliron's text makes alike, and those that it makes unlike, since it doesn't map a successor.
    pub copies_as_pliron: u64,
    pub copies_unlike_pliron: u64,
    /// The most operations in one copy.
    pub largest_copy: u64,
    pub deepest_nesting: u32,
    pub largest_paired: u32,
}

impl Counts {
    /// Counts a comparison and its answer.
    pub fn compared(&mut self, question: &Question, ours: Found) {
        self.comparisons += 1;
        self.largest_paired = self.largest_paired.max(ours.paired);
        match ours.verdict {
            Verdict::Eq if question.lhs == question.rhs => self.with_itself += 1,
            Verdict::Eq => self.equal += 1,
            Verdict::FirstNEQOps(..) => self.operations_named += 1,
            Verdict::FirstNEQBlocks(..) => self.blocks_named += 1,
            Verdict::FirstNEQRegions(..) => self.regions_named += 1,
        }
    }

    /// Counts an equal comparison that is unequal from an empty mapping.
    pub fn by_entries(&mut self, trial: &Trial, question: &Question, ours: Found, before: &Entries) {
        if ours.verdict == Verdict::Eq && !before.is_empty() {
            let (alone, _) = compared(&trial.picture, &mut Entries::default(), question, Longer::Rules);
            self.equal_by_entries += (alone.verdict != Verdict::Eq) as u64;
        }
    }

    /// Counts an unequal comparison that would be equal if no attribute were inherent.
    pub fn by_flags(&mut self, trial: &Trial, question: &Question, ours: Found, mut before: Entries) {
        if ours.verdict != Verdict::Eq {
            let (plain, _) = compared(&trial.plain, &mut before, question, Longer::Rules);
            self.unequal_by_flags += (plain.verdict == Verdict::Eq) as u64;
        }
    }

    /// That each thing was met often enough to mean something.
    pub fn often_enough(&self) {
        let all = self.comparisons;
        let at_least = [
            ("calls refused by 2", self.refused[2], self.calls / 100),
            ("calls refused by 3", self.refused[3], self.stores / 100),
            ("calls refused by 4", self.refused[4], self.calls / 500),
            ("calls refused by 5", self.refused[5], self.stores / 100),
            ("calls refused by 6", self.refused[6], self.calls / 1000),
            ("calls refused by 7", self.refused[7], self.calls / 1000),
            ("comparisons", all, self.stores * 5),
            ("equal", self.equal, all / 5),
            ("operations named", self.operations_named, all / 10),
            ("blocks named", self.blocks_named, all / 50),
            ("regions named", self.regions_named, all / 100),
            ("outside the domain", self.outside_domain, all / 100),
            ("lent entries", self.lent_entries, all / 10),
            ("earlier entries", self.earlier_entries, all / 10),
            ("equal by entries", self.equal_by_entries, all / 200),
            ("unequal by flags", self.unequal_by_flags, all / 200),
            ("inherent on both sides", self.inherent_on_both, self.stores),
            ("never ignored", self.never_ignored, self.stores / 5),
            ("hashes", self.hashes, self.stores * 5),
            ("keys", self.keys, self.stores * 5),
            ("shelves", self.shelves, self.stores / 2),
            ("equal and one key", self.equal_and_one_key, self.stores),
            ("equal and two keys", self.equal_and_two_keys, self.stores / 500),
            ("longest key", self.longest_key as u64, 10_000),
            ("deepest extent", self.deepest_extent as u64, 16),
            ("lists", self.lists, self.stores * 5),
            ("lists refused", self.lists_refused, self.lists / 20),
            ("another answer under a list", self.another_answer, self.lists / 20),
            ("runs", self.runs, self.stores),
            ("runs found", self.runs_found, self.runs / 20),
            ("runs of more than one operation", self.long_runs, self.runs / 100),
            ("premise and equal", self.premise_and_equal, self.stores),
            ("equal without premise", self.equal_without_premise, self.stores / 200),
            ("documents", self.documents, self.stores / 2),
            ("documents under a list", self.documents_renamed, self.documents / 5),
            ("backwards", self.backwards, self.documents / 2),
            ("one way", self.one_way, self.documents / 500),
            ("followed", self.followed, self.documents / 5),
            ("followed by a third", self.followed_by_a_third, self.documents / 50),
            ("copies", self.copies, self.stores),
            ("copies of several operations", self.copies_of_several, self.copies / 5),
            ("copies of copies", self.copies_of_copies, self.copies / 20),
            ("copies that name what is inside", self.copies_naming_inside, self.copies / 20),
            ("copies that name other things", self.copies_naming_others, self.copies / 20),
            ("copies refused by 2", self.copies_refused[2], self.stores / 100),
            ("copies refused by 3", self.copies_refused[3], self.stores / 100),
            ("copies refused by 5", self.copies_refused[5], self.stores / 100),
            ("copies refused by 18", self.copies_refused[18], self.stores / 100),
            ("copies refused by 19", self.copies_refused[19], self.stores / 100),
            ("copies as pliron's", self.copies_as_pliron, self.copies / 2),
            ("copies unlike pliron's", self.copies_unlike_pliron, self.stores / 500),
            ("largest copy", self.largest_copy, 50),
            ("deepest nesting", self.deepest_nesting as u64, 32),
            ("largest paired", self.largest_paired as u64, 64),
        ];
        for (what, count, least) in at_least {
            assert!(count >= least, "{what}: {count}, which is below {least}");
        }
    }
}
