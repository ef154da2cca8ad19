//! What was run, and whether it is enough.

/// What was run.
#[derive(Default, Debug)]
pub struct Counts {
    pub lists: u64,
    pub calls: u64,
    /// Refused calls, by their cause.
    pub refused: [u64; 20],
    pub marks_set: u64,
    /// Of these, marks that were set already; and of those, the oldest one with something remembered since.
    pub marks_moved: u64,
    pub marks_freed: u64,
    pub gone_back: u64,
    /// Of these, to a mark that is not the youngest; and those that undid replacements, or took things away.
    pub gone_over_others: u64,
    pub gone_undone: u64,
    pub gone_taken: u64,
    pub most_marks: usize,
    pub most_remembered: u32,
    /// Fragments hashed, filed and compared in a store that went back, and in one that was built anew.
    pub built_anew: u64,
    pub ids_good: u64,
    pub ids_gone: u64,
    /// Of these, ids whose number was given again.
    pub ids_given_again: u64,
    /// Copies that were made, those of them with a mark set, and those lent a mapping that had entries; and mappings that a copy refused,
    /// since an entry names what has gone.
    pub copies: u64,
    pub copies_marked: u64,
    pub copies_into_entries: u64,
    pub copies_refused_by_8: u64,
    pub mappings_taken: u64,
    pub mappings_refused: u64,
    /// Mappings with entries that were read backwards, and those that can't be; and such, and those put together of two, that have entries,
    /// and that are refused since one names what has gone.
    pub inverses: u64,
    pub without_inverse: u64,
    pub put_together: u64,
    pub put_together_refused: u64,
    pub by_program: u64,
}

impl Counts {
    /// That each thing was met often enough to mean something.
    pub fn often_enough(&self) {
        let at_least = [
            ("calls", self.calls, self.lists * 30),
            ("calls refused by 2", self.refused[2], self.calls / 100),
            ("calls refused by 4", self.refused[4], self.calls / 500),
            ("calls refused by 6", self.refused[6], self.calls / 1000),
            ("calls refused by 7", self.refused[7], self.calls / 1000),
            ("calls refused by 16", self.refused[16], self.calls / 100),
            ("calls refused by 17", self.refused[17], self.lists / 50),
            ("calls refused by 18", self.refused[18], self.lists / 50),
            ("calls refused by 19", self.refused[19], self.lists / 250),
            ("copies", self.copies, self.lists),
            ("copies with a mark set", self.copies_marked, self.copies / 5),
            ("copies into a mapping with entries", self.copies_into_entries, self.lists / 20),
            ("mappings that a copy refused", self.copies_refused_by_8, self.lists / 50),
            ("marks set", self.marks_set, self.calls / 20),
            ("marks moved", self.marks_moved, self.calls / 50),
            ("marks freed", self.marks_freed, self.lists / 10),
            ("gone back", self.gone_back, self.calls / 20),
            ("gone back over other marks", self.gone_over_others, self.gone_back / 5),
            ("gone back and undone", self.gone_undone, self.gone_back / 5),
            ("gone back and taken", self.gone_taken, self.gone_back / 5),
            ("most marks", self.most_marks as u64, 8),
            ("most remembered", self.most_remembered as u64, 1024),
            ("built anew", self.built_anew, self.gone_back),
            ("good ids", self.ids_good, self.lists * 50),
            ("ids of what has gone", self.ids_gone, self.lists * 25),
            ("ids of what was given again", self.ids_given_again, self.lists * 5),
            ("mappings taken", self.mappings_taken, self.lists),
            ("mappings refused", self.mappings_refused, self.lists / 2),
            ("inverses", self.inverses, self.lists / 2),
            ("mappings without inverse", self.without_inverse, self.lists / 50),
            ("mappings put together", self.put_together, self.lists),
            ("mappings put together and refused", self.put_together_refused, self.lists / 5),
        ];
        for (what, count, least) in at_least {
            assert!(count >= least, "{what}: {count}, which is below {least}");
        }
    }
}
