//! Why a call was refused.

use core::{error, fmt};

/// A call was refused, and has changed nothing: why, as the number of a cause.
///
/// ```
/// let store = warzhigo::Store::new();
/// let words = &store.words()[1..];
/// let refused = warzhigo::lent::operation_hash(words, &[], 0, &warzhigo::Ignore::NOTHING).unwrap_err();
/// assert_eq!(refused.number(), 1);
/// assert_eq!(refused.to_string(), "refused, cause 1: the store is of wrong length or not sound");
/// ```
#[derive(Clone, Copy, PartialEq, Eq, PartialOrd, Ord, Hash, Debug)]
pub struct Refused(u32);

impl Refused {
    pub(crate) const NOT_SOUND: Refused = Refused(1);
    pub(crate) const NOTHING_THERE: Refused = Refused(2);
    pub(crate) const MAPPING: Refused = Refused(8);
    pub(crate) const TYPES: Refused = Refused(14);

    pub(crate) fn by(cause: u32) -> Refused {
        Refused(cause)
    }

    /// The number of the cause.
    pub fn number(self) -> u32 {
        self.0
    }

    /// The cause in words.
    pub fn meaning(self) -> &'static str {
        match self.0 {
            1 => "the store is of wrong length or not sound",
            2 => "a named thing doesn't exist in this store",
            3 => "a total would be passed: the store is full",
            4 => "a list, the regions or the keys of one owner are over their limit",
            5 => "an operation would be nested deeper than 32",
            6 => "the attribute's kind is over 63",
            7 => "the operand's index isn't below the number of operands",
            8 => "the mapping is of wrong length, or has an entry that isn't allowed beside this store",
            9 => "the listing's first line isn't the header, or is missing",
            10 => "a line with an unknown letter, a bad number, or a field missing or extra",
            11 => "the listing or a line is too long, or the last line feed is missing",
            13 => "the lent key or list of twins is too short",
            14 => "the list of renamed types has a half row, over 64 rows, an old type twice, or a present type that has a row itself",
            15 => "the run's length is 0 or over 256",
            16 => "the mark is not one of 1 to 8, or is not set",
            17 => "the replacement can't be remembered: 1,024 are since the oldest set mark",
            18 => "the block to copy to lies inside the operation",
            19 => "an operand or successor names something inside the operation too early",
            20 => "an `i` line can't be converted to edition 1",
            _ => "a cause that this version doesn't know",
        }
    }
}

impl fmt::Display for Refused {
    fn fmt(&self, f: &mut fmt::Formatter<'_>) -> fmt::Result {
        write!(f, "refused, cause {}: {}", self.number(), self.meaning())
    }
}

impl error::Error for Refused {}

#[cfg(test)]
mod tests {
    use super::*;
    use alloc::format;

    /// All but 12, which is retired.
    #[test]
    fn every_cause_has_words_of_its_own() {
        for cause in (1..=11).chain(13..=20) {
            let (refused, unknown) = (Refused::by(cause), Refused::by(0));
            assert_eq!(refused.number(), cause);
            assert_ne!(refused.meaning(), unknown.meaning());
            assert!((1..cause).all(|other| Refused::by(other).meaning() != refused.meaning()));
            assert_eq!(format!("{refused}"), format!("refused, cause {cause}: {}", refused.meaning()));
        }
        assert_eq!(Refused::by(12).meaning(), Refused::by(0).meaning());
    }
}
