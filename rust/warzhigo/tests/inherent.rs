//! Attributes that can't be ignored: in the library, in the models, and in pliron's own text with its stand-in, which agree.

mod common;

use common::bytes_model;
use common::call::{Call, New, apply};
use common::picture::Picture;
use common::question::{Question, Sort, hash_inner, hash_lent, key_inner, key_is, no_entries};
use common::walk::{Entries, Longer, compared};
use oracle::{Oracle, Verdict};
use warzhigo::Inherent::{No, Yes};
use warzhigo::lent::Owner;
use warzhigo::{Attribute, Ignore, Inherent, Mapping, Store};

const BY_HAND: &str = "a store made by hand";

/// Attributes of kind 5 count, and are ignored, by themselves or with all else that can be.
const COUNTED: [Ignore; 2] = [Ignore::NOTHING, Ignore { locations: true, bits: !(1 << 5) }];
const IGNORED: [Ignore; 2] = [Ignore { locations: false, bits: 1 << 5 }, Ignore { locations: true, bits: u64::MAX }];

/// Two that are alike, and what is found where they differ.
const PAIRS: [([Owner; 2], Sort, Verdict); 2] = [
    ([Owner::Op(0), Owner::Op(1)], Sort::Op, Verdict::FirstNEQOps(0, 1)),
    ([Owner::Block(0), Owner::Block(1)], Sort::Block, Verdict::FirstNEQBlocks(0, 1)),
];

fn attribute(content: u32, inherent: Inherent) -> Attribute {
    Attribute { key: 1, kind: 5, content, inherent }
}

/// One store, built three times over.
#[derive(Default)]
struct Tried {
    store: Store,
    oracle: Oracle,
    picture: Picture,
}

impl Tried {
    /// Operations 0 and 1, alike, with a block each.
    fn two() -> Tried {
        let mut tried = Tried::default();
        for n in 0..2 {
            tried.make(Call::Operation(New { regions: 1, ..New::default() }));
            tried.make(Call::Block { region: n, location: 0, argument_types: vec![] });
        }
        tried
    }

    fn make(&mut self, call: Call) {
        let answer = apply(&mut self.store, &call, BY_HAND);
        assert_eq!(answer, self.picture.apply(&call), "{call:?}");
        assert_eq!(answer, Ok(call.on_oracle(&mut self.oracle)), "{call:?}");
        assert_eq!(Picture::of(&self.store, BY_HAND), self.picture, "{call:?}");
    }

    fn set(&mut self, owner: Owner, content: u32, inherent: Inherent) {
        self.make(Call::Attribute(owner, attribute(content, inherent)));
    }

    /// What all say of numbers 0 and 1, both ways. They have the same hash and the same key exactly where they are equal.
    fn verdict(&self, sort: Sort, ignore: Ignore) -> Verdict {
        let question = Question { sort, lhs: 0, rhs: 1, ignore };
        let (expected, _) = compared(&self.picture, &mut Entries::default(), &question, Longer::Rules);
        assert_eq!(question.inner(&self.store, &mut Mapping::new()), Ok(expected), "{question:?}");
        assert_eq!(question.lent(self.store.words(), &mut no_entries()), Ok(expected), "{question:?}");
        assert_eq!(question.on_oracle(&self.oracle, &mut oracle::Mapping::new()), expected.verdict, "{question:?}");
        let back = Question { lhs: 1, rhs: 0, ..question }.inner(&self.store, &mut Mapping::new()).expect(BY_HAND);
        let equal = expected.verdict == Verdict::Eq;
        assert_eq!(back.verdict == Verdict::Eq, equal, "{question:?}");
        let [hash, other] = [0, 1].map(|n| self.hash(sort, n, ignore));
        assert_eq!(hash == other, equal, "{question:?}");
        let [key, other] = [0, 1].map(|n| key_inner(&self.store, sort, n, &ignore));
        assert_eq!(key == other, equal, "{question:?}");
        expected.verdict
    }

    fn hash(&self, sort: Sort, n: u32, ignore: Ignore) -> u64 {
        let hash = bytes_model::hash(&self.picture, sort, n, ignore);
        assert_eq!(hash_inner(&self.store, sort, n, &ignore), Ok(hash), "{sort:?} {n}, {ignore:?}");
        assert_eq!(hash_lent(self.store.words(), sort, n, &ignore), Ok(hash), "{sort:?} {n}, {ignore:?}");
        assert_eq!(self.oracle.hash(sort, n, ignore.locations, ignore.bits), hash, "{sort:?} {n}, {ignore:?}");
        key_is(&self.store, sort, n, &ignore, &bytes_model::key(&self.picture, sort, n, ignore), BY_HAND);
        hash
    }

    /// What is said where attributes of kind 5 count, and where they are ignored.
    fn verdicts(&self, sort: Sort) -> [Verdict; 2] {
        [COUNTED, IGNORED].map(|rules| {
            let [verdict, other] = rules.map(|ignore| self.verdict(sort, ignore));
            assert_eq!(verdict, other);
            verdict
        })
    }
}

#[test]
fn a_flag_on_one_side_is_a_difference() {
    for (owners, sort, unequal) in PAIRS {
        for flags in [[Yes, No], [No, Yes]] {
            let mut tried = Tried::two();
            owners.iter().zip(flags).for_each(|(owner, inherent)| tried.set(*owner, 10, inherent));
            assert_eq!(tried.verdicts(sort), [unequal; 2], "{flags:?}");
        }
    }
}

#[test]
fn inherent_on_both_sides() {
    for (owners, sort, unequal) in PAIRS {
        for (contents, verdict) in [([10, 10], Verdict::Eq), ([10, 11], unequal)] {
            let mut tried = Tried::two();
            owners.iter().zip(contents).for_each(|(owner, content)| tried.set(*owner, content, Yes));
            assert_eq!(tried.verdicts(sort), [verdict; 2], "{contents:?}");
        }
        let mut tried = Tried::two();
        let other_kind = Attribute { kind: 6, ..attribute(10, Yes) };
        tried.set(owners[0], 10, Yes);
        tried.make(Call::Attribute(owners[1], other_kind));
        assert_eq!(tried.verdicts(sort), [unequal; 2]);
    }
}

/// One that is not inherent, beside it, is not seen where its kind is ignored.
#[test]
fn on_one_side_alone() {
    for (owners, sort, unequal) in PAIRS {
        for owner in owners {
            let mut tried = Tried::two();
            tried.set(owner, 10, No);
            assert_eq!(tried.verdicts(sort), [unequal, Verdict::Eq], "{owner:?}");
            tried.set(owner, 10, Yes);
            assert_eq!(tried.verdicts(sort), [unequal; 2], "{owner:?}");
        }
    }
}

/// Setting a key replaces its flag too, either way.
#[test]
fn a_replaced_flag() {
    for (owners, sort, unequal) in PAIRS {
        let mut tried = Tried::two();
        tried.set(owners[0], 10, Yes);
        tried.set(owners[1], 11, No);
        tried.set(owners[0], 10, No);
        assert_eq!(tried.verdicts(sort), [unequal, Verdict::Eq]);
        tried.set(owners[1], 10, No);
        assert_eq!(tried.verdicts(sort), [Verdict::Eq; 2]);
        tried.set(owners[1], 10, Yes);
        assert_eq!(tried.verdicts(sort), [unequal; 2]);
        tried.set(owners[0], 10, Yes);
        assert_eq!(tried.verdicts(sort), [Verdict::Eq; 2]);
    }
}

/// Of what an operation holds, too: a block's attribute tells operations and regions apart.
#[test]
fn inside_a_fragment() {
    let mut tried = Tried::two();
    tried.set(Owner::Block(1), 10, Yes);
    for sort in [Sort::Op, Sort::Region] {
        assert_eq!(tried.verdicts(sort), [Verdict::FirstNEQBlocks(0, 1); 2], "{sort:?}");
    }
}

fn fnv(bytes: &[u8]) -> u64 {
    bytes.iter().fold(14695981039346656037, |word, byte| (word ^ *byte as u64).wrapping_mul(1099511628211))
}

/// Key, kind and content feed 4 bytes each, lowest first, and the flag 1. What is ignored feeds nothing, and isn't counted.
#[test]
fn hashes_byte_by_byte() {
    let mut tried = Tried::default();
    tried.make(Call::Operation(New { kind: 7, location: 3, ..New::default() }));
    tried.make(Call::Attribute(Owner::Op(0), Attribute { key: 0x0102, kind: 63, content: 9, inherent: Yes }));
    tried.make(Call::Attribute(Owner::Op(0), Attribute { key: 4, kind: 63, content: 8, inherent: No }));
    let (plain, inherent) = ([4, 0, 0, 0, 63, 0, 0, 0, 8, 0, 0, 0, 0], [2, 1, 0, 0, 63, 0, 0, 0, 9, 0, 0, 0, 1]);
    let kind_and_regions = [7, 0, 0, 0, 0, 0, 0, 0, 0, 0, 0, 0];
    let [one, two] = [1, 2].map(|count| [count, 0, 0, 0, 0, 0, 0, 0]);
    let all = [&kind_and_regions[..], &[3, 0, 0, 0], &two, &plain, &inherent].concat();
    assert_eq!(tried.hash(Sort::Op, 0, Ignore::NOTHING), fnv(&all));
    let ignored = [&kind_and_regions[..], &one, &inherent].concat();
    assert_eq!(tried.hash(Sort::Op, 0, Ignore::LOCATIONS.and_kind(63)), fnv(&ignored));
}
