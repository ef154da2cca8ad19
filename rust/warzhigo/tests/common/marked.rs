//! The model of marks: at each mark a whole copy of the tables is kept, and going back takes it out again.

use warzhigo::lent::{self, Owner};
use warzhigo::{MarkId, Refused, Store};

use super::call::{Answer, Call, apply};
use super::picture::Picture;

/// A building call, or one of marks.
#[derive(Clone, Debug)]
pub enum Step {
    Build(Call),
    Mark(u32),
    Back(u32),
}

/// A set mark.
#[derive(Clone, Debug)]
pub struct Mark {
    pub number: u32,
    pub copy: Picture,
    /// Replacements since it was set, without those that were undone.
    pub since: u32,
    /// How many of the accepted building calls lead to it.
    pub calls: usize,
}

/// A store with its marks, the oldest first, and the accepted building calls that lead to it, without those that were undone.
#[derive(Clone, Debug, Default)]
pub struct Marked {
    pub picture: Picture,
    pub marks: Vec<Mark>,
    pub calls: Vec<Call>,
}

impl Marked {
    /// Answers a call. A refused one changes nothing.
    pub fn apply(&mut self, step: &Step) -> Answer {
        match step {
            Step::Build(call) => self.build(call),
            Step::Mark(number) if (1..=8).contains(number) => {
                self.marks.retain(|mark| mark.number != *number);
                self.marks.push(Mark { number: *number, copy: self.picture.clone(), since: 0, calls: self.calls.len() });
                Ok(None)
            }
            Step::Mark(_) => Err(16),
            Step::Back(number) => {
                let place = self.marks.iter().position(|mark| mark.number == *number).ok_or(16u32)?;
                self.marks.truncate(place + 1);
                let mark = &self.marks[place];
                let (undone, calls) = (mark.since, mark.calls);
                self.picture = mark.copy.clone();
                self.calls.truncate(calls);
                self.marks.iter_mut().for_each(|mark| mark.since -= undone);
                Ok(None)
            }
        }
    }

    fn build(&mut self, call: &Call) -> Answer {
        self.picture.allows(call)?;
        let replaces = replaces(&self.picture, call);
        if replaces && self.remembered() == 1024 {
            return Err(17);
        }
        self.marks.iter_mut().for_each(|mark| mark.since += replaces as u32);
        self.calls.push(call.clone());
        self.picture.apply(call)
    }

    pub fn remembered(&self) -> u32 {
        self.marks.first().map_or(0, |mark| mark.since)
    }

    pub fn set_marks(&self) -> Vec<MarkId> {
        self.marks.iter().map(|mark| MarkId(mark.number)).collect()
    }

    /// The lines of `D`, with that of marks.
    pub fn dump(&self) -> String {
        let marks: Vec<String> = self.marks.iter().map(|mark| mark.number.to_string()).collect();
        format!("{}|marks [{}] remembered {}", self.picture.dump(), marks.join(","), self.remembered())
    }

    /// Asserts that a store is this one.
    pub fn is(&self, store: &Store, context: &str) {
        assert_eq!(Picture::of(store, context), self.picture, "{context}");
        assert_eq!(store.marks().collect::<Vec<_>>(), self.set_marks(), "{context}");
        assert_eq!(store.remembered(), self.remembered(), "{context}");
        assert!(lent::is_sound(store.words()), "{context}: not sound");
    }
}

/// Does a call that is allowed replace an operand or an attribute?
fn replaces(picture: &Picture, call: &Call) -> bool {
    match call {
        Call::Operation(_) | Call::Block { .. } | Call::Copy { .. } => false,
        Call::Attribute(Owner::Op(n), attribute) => picture.ops[*n as usize].attributes.iter().any(|other| other.key == attribute.key),
        Call::Attribute(Owner::Block(n), attribute) => {
            picture.blocks[*n as usize].attributes.iter().any(|other| other.key == attribute.key)
        }
        Call::Operand { .. } => true,
    }
}

impl Step {
    /// Makes the call on lent words.
    pub fn lent(&self, words: &mut [u32]) -> Answer {
        match self {
            Step::Build(call) => call.lent(words),
            Step::Mark(mark) => accepted(lent::set_mark(words, *mark)),
            Step::Back(mark) => accepted(lent::go_back(words, *mark)),
        }
    }

    /// Makes the call on a store, and on a copy of its words. A refused one leaves every word as it was.
    pub fn apply(&self, store: &mut Store, context: &str) -> Answer {
        if let Step::Build(call) = self {
            return apply(store, call, context);
        }
        let before = store.words().to_vec();
        let mut words = before.clone();
        let lent = self.lent(&mut words);
        let answer = match self {
            Step::Mark(mark) => accepted(store.mark(MarkId(*mark))),
            Step::Back(mark) => accepted(store.go_back(MarkId(*mark))),
            Step::Build(_) => unreachable!("it was made above"),
        };
        assert_eq!(answer, lent, "{context}: {self:?} in a store and on lent words");
        assert!(store.words() == words, "{context}: {self:?} in a store and on lent words give other words");
        assert!(answer.is_ok() || words == before, "{context}: the refused {self:?} has changed words");
        answer
    }
}

fn accepted(answer: Result<(), Refused>) -> Answer {
    answer.map(|()| None).map_err(Refused::number)
}
