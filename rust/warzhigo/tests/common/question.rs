//! A comparison to be made, and the ways to make it.

use std::collections::BTreeMap;

pub use oracle::Sort;
use oracle::{Oracle, Verdict};
use warzhigo::lent::{self, EqResult};
use warzhigo::{Extent, Ignore, Mapping, Options, Refused, Renamed, Store};

use super::numbers::Random;
use super::walk::{Entries, Found};

pub const NONE: u32 = u32::MAX;

/// Where the entries of values, blocks and operations begin in the words of a mapping, and the end of the last.
pub const ENTRIES: [usize; 4] = [0, 2048, 2304, 2816];

#[derive(Clone, Copy, Debug)]
pub struct Question {
    pub sort: Sort,
    pub lhs: u32,
    pub rhs: u32,
    pub ignore: Ignore,
}

/// An ignore rule: often nothing, or no attributes, else any bits or those of one kind only.
pub fn ignore_rule(random: &mut Random) -> Ignore {
    let bits = match random.below(8) {
        0..4 => 0,
        4 | 5 => random.bits(),
        6 => 1 << random.below(64),
        _ => u64::MAX,
    };
    Ignore { locations: random.chance(50), bits }
}

/// An answer, by ids or by numbers, as verdict, pair and `paired`.
trait Named {
    fn found(self) -> Found;
}

impl Named for EqResult {
    fn found(self) -> Found {
        let verdict = match self {
            EqResult::Eq { .. } => Verdict::Eq,
            EqResult::FirstNEQOps { lhs, rhs, .. } => Verdict::FirstNEQOps(lhs, rhs),
            EqResult::FirstNEQRegions { lhs, rhs, .. } => Verdict::FirstNEQRegions(lhs, rhs),
            EqResult::FirstNEQBlocks { lhs, rhs, .. } => Verdict::FirstNEQBlocks(lhs, rhs),
        };
        Found { verdict, paired: self.paired() }
    }
}

impl Named for warzhigo::EqResult {
    fn found(self) -> Found {
        use warzhigo::EqResult::*;
        let verdict = match self {
            Eq { .. } => Verdict::Eq,
            FirstNEQOps { lhs, rhs, .. } => Verdict::FirstNEQOps(lhs.number(), rhs.number()),
            FirstNEQRegions { lhs, rhs, .. } => Verdict::FirstNEQRegions(lhs.number(), rhs.number()),
            FirstNEQBlocks { lhs, rhs, .. } => Verdict::FirstNEQBlocks(lhs.number(), rhs.number()),
        };
        Found { verdict, paired: self.paired() }
    }
}

impl Question {
    /// By ids. Both numbers have to exist.
    pub fn inner(&self, store: &Store, mapping: &mut Mapping) -> Result<Found, Refused> {
        self.inner_under(&Renamed::none(), store, mapping)
    }

    /// By ids, under a list of renamed types.
    pub fn inner_under(&self, types: &Renamed, store: &Store, mapping: &mut Mapping) -> Result<Found, Refused> {
        let Question { sort, lhs, rhs, ref ignore } = *self;
        let ignore = (ignore, types);
        match sort {
            Sort::Op => {
                let [l, r] = [lhs, rhs].map(|n| store.op_id(n).expect("an operation that exists"));
                warzhigo::operation_eq(store, mapping, l, r, ignore).map(Named::found)
            }
            Sort::Block => {
                let [l, r] = [lhs, rhs].map(|n| store.block_id(n).expect("a block that exists"));
                warzhigo::basic_block_eq(store, mapping, l, r, ignore).map(Named::found)
            }
            Sort::Region => {
                let [l, r] = [lhs, rhs].map(|n| store.region_id(n).expect("a region that exists"));
                warzhigo::region_eq(store, mapping, l, r, ignore).map(Named::found)
            }
        }
    }

    /// On lent words.
    pub fn lent(&self, store: &[u32], mapping: &mut [u32]) -> Result<Found, Refused> {
        self.lent_under(&[], store, mapping)
    }

    /// On lent words, one of them a list of renamed types.
    pub fn lent_under(&self, types: &[u32], store: &[u32], mapping: &mut [u32]) -> Result<Found, Refused> {
        let call = match self.sort {
            Sort::Op => lent::operation_eq,
            Sort::Block => lent::basic_block_eq,
            Sort::Region => lent::region_eq,
        };
        call(store, types, mapping, self.lhs, self.rhs, &self.ignore).map(Named::found)
    }

    /// By pliron's own text.
    pub fn on_oracle(&self, oracle: &Oracle, mapping: &mut oracle::Mapping) -> Verdict {
        oracle.compare(mapping, self.sort, self.lhs, self.rhs, self.ignore.locations, self.ignore.bits)
    }
}

/// The hash of one by ids. It has to exist.
pub fn hash_inner<'a>(store: &Store, sort: Sort, n: u32, ignore: impl Into<Options<'a>>) -> Result<u64, Refused> {
    let ignore = ignore.into();
    match sort {
        Sort::Op => warzhigo::operation_hash(store, store.op_id(n).expect("an operation that exists"), ignore),
        Sort::Block => warzhigo::basic_block_hash(store, store.block_id(n).expect("a block that exists"), ignore),
        Sort::Region => warzhigo::region_hash(store, store.region_id(n).expect("a region that exists"), ignore),
    }
}

/// The hash of one on lent words.
pub fn hash_lent(store: &[u32], sort: Sort, n: u32, ignore: &Ignore) -> Result<u64, Refused> {
    hash_lent_under(&[], store, sort, n, ignore)
}

/// The hash of one on lent words, one of them a list of renamed types.
pub fn hash_lent_under(types: &[u32], store: &[u32], sort: Sort, n: u32, ignore: &Ignore) -> Result<u64, Refused> {
    match sort {
        Sort::Op => lent::operation_hash(store, types, n, ignore),
        Sort::Block => lent::basic_block_hash(store, types, n, ignore),
        Sort::Region => lent::region_hash(store, types, n, ignore),
    }
}

/// The key of one by ids. It has to exist.
pub fn key_inner<'a>(store: &Store, sort: Sort, n: u32, ignore: impl Into<Options<'a>>) -> Result<Vec<u8>, Refused> {
    let ignore = ignore.into();
    match sort {
        Sort::Op => warzhigo::operation_key(store, store.op_id(n).expect("an operation that exists"), ignore),
        Sort::Block => warzhigo::basic_block_key(store, store.block_id(n).expect("a block that exists"), ignore),
        Sort::Region => warzhigo::region_key(store, store.region_id(n).expect("a region that exists"), ignore),
    }
}

/// The key of one by ids, in lent bytes. It has to exist.
pub fn key_into(store: &Store, sort: Sort, n: u32, ignore: &Ignore, key: &mut [u8]) -> Result<usize, Refused> {
    match sort {
        Sort::Op => warzhigo::operation_key_into(store, store.op_id(n).expect("an operation that exists"), ignore, key),
        Sort::Block => warzhigo::basic_block_key_into(store, store.block_id(n).expect("a block that exists"), ignore, key),
        Sort::Region => warzhigo::region_key_into(store, store.region_id(n).expect("a region that exists"), ignore, key),
    }
}

/// The key of one on lent words.
pub fn key_lent(store: &[u32], sort: Sort, n: u32, ignore: &Ignore, key: &mut [u8]) -> Result<usize, Refused> {
    key_lent_under(&[], store, sort, n, ignore, key)
}

/// The key of one on lent words, one of them a list of renamed types.
pub fn key_lent_under(types: &[u32], store: &[u32], sort: Sort, n: u32, ignore: &Ignore, key: &mut [u8]) -> Result<usize, Refused> {
    match sort {
        Sort::Op => lent::operation_key(store, types, n, ignore, key),
        Sort::Block => lent::basic_block_key(store, types, n, ignore, key),
        Sort::Region => lent::region_key(store, types, n, ignore, key),
    }
}

/// The extent of one by ids. It has to exist.
pub fn extent_inner(store: &Store, sort: Sort, n: u32, ignore: &Ignore) -> Result<Extent, Refused> {
    match sort {
        Sort::Op => warzhigo::operation_extent(store, store.op_id(n).expect("an operation that exists"), ignore),
        Sort::Block => warzhigo::basic_block_extent(store, store.block_id(n).expect("a block that exists"), ignore),
        Sort::Region => warzhigo::region_extent(store, store.region_id(n).expect("a region that exists"), ignore),
    }
}

/// The extent of one on lent words.
pub fn extent_lent(store: &[u32], sort: Sort, n: u32, ignore: &Ignore) -> Result<Extent, Refused> {
    match sort {
        Sort::Op => lent::operation_extent(store, n, ignore),
        Sort::Block => lent::basic_block_extent(store, n, ignore),
        Sort::Region => lent::region_extent(store, n, ignore),
    }
}

/// Asserts that an extent is this one by ids and on lent words.
pub fn extent_is(store: &Store, sort: Sort, n: u32, ignore: &Ignore, extent: Extent, context: &str) {
    let found = [extent_inner(store, sort, n, ignore), extent_lent(store.words(), sort, n, ignore)];
    assert_eq!(found, [Ok(extent); 2], "{context}: extent of {sort:?} {n}, {ignore:?}");
}

/// Are two independent, by ids? They have to exist.
pub fn independent_inner(store: &Store, sort: Sort, lhs: u32, rhs: u32) -> Result<bool, Refused> {
    match sort {
        Sort::Op => {
            let [l, r] = [lhs, rhs].map(|n| store.op_id(n).expect("an operation that exists"));
            store.independent(l, r)
        }
        Sort::Block => {
            let [l, r] = [lhs, rhs].map(|n| store.block_id(n).expect("a block that exists"));
            store.independent(l, r)
        }
        Sort::Region => {
            let [l, r] = [lhs, rhs].map(|n| store.region_id(n).expect("a region that exists"));
            store.independent(l, r)
        }
    }
}

/// Are two independent, on lent words?
pub fn independent_lent(store: &[u32], sort: Sort, lhs: u32, rhs: u32) -> Result<bool, Refused> {
    match sort {
        Sort::Op => lent::operations_independent(store, lhs, rhs),
        Sort::Block => lent::basic_blocks_independent(store, lhs, rhs),
        Sort::Region => lent::regions_independent(store, lhs, rhs),
    }
}

/// Asserts that a key is this one in every way: by ids, in lent bytes that are more than it needs, of which those behind it stay as they
/// were, and refused by 13 in lent bytes that are fewer, which stay as they were.
pub fn key_is(store: &Store, sort: Sort, n: u32, ignore: &Ignore, key: &[u8], context: &str) {
    assert_eq!(key_inner(store, sort, n, ignore).as_deref(), Ok(key), "{context}");
    assert_eq!(extent_lent(store.words(), sort, n, ignore).map(|extent| extent.bytes), Ok(key.len()), "{context}: its length");
    for room in [key.len(), key.len() + 1, key.len() + 9] {
        let mut bytes = [vec![LENT; room], vec![LENT; room]];
        assert_eq!(key_into(store, sort, n, ignore, &mut bytes[0]), Ok(key.len()), "{context}: {room} lent bytes");
        assert_eq!(key_lent(store.words(), sort, n, ignore, &mut bytes[1]), Ok(key.len()), "{context}: {room} lent bytes");
        let written = [key, &vec![LENT; room - key.len()]].concat();
        assert!(bytes.iter().all(|bytes| *bytes == written), "{context}: {room} lent bytes");
    }
    for room in [0, key.len() / 2, key.len() - 1] {
        let mut bytes = vec![LENT; room];
        let refused = [
            key_into(store, sort, n, ignore, &mut bytes).map_err(Refused::number),
            key_lent(store.words(), sort, n, ignore, &mut bytes).map_err(Refused::number),
        ];
        assert_eq!(refused, [Err(13); 2], "{context}: {room} lent bytes");
        assert!(bytes.iter().all(|byte| *byte == LENT), "{context}: a refused key of {room} lent bytes was written");
    }
}

/// What stands in lent bytes before.
pub const LENT: u8 = 0xee;

/// The words of an empty mapping.
pub fn no_entries() -> Vec<u32> {
    vec![NONE; lent::mapping_words()]
}

impl Entries {
    pub fn of_mapping(mapping: &Mapping) -> Entries {
        Entries {
            values: mapping.values().map(|(l, r)| (l.number(), r.number())).collect(),
            blocks: mapping.blocks().map(|(l, r)| (l.number(), r.number())).collect(),
            ops: mapping.ops().map(|(l, r)| (l.number(), r.number())).collect(),
        }
    }

    pub fn of_oracle(oracle: &Oracle, mapping: &oracle::Mapping) -> Entries {
        Entries {
            values: oracle.value_entries(mapping).into_iter().collect(),
            blocks: oracle.block_entries(mapping).into_iter().collect(),
            ops: oracle.op_entries(mapping).into_iter().collect(),
        }
    }

    /// Those of a mapping's words.
    pub fn of_words(words: &[u32]) -> Entries {
        let part = |sort: usize| {
            let images = words[ENTRIES[sort]..ENTRIES[sort + 1]].iter().copied();
            (0..).zip(images).filter(|(_, image)| *image != NONE).collect::<BTreeMap<u32, u32>>()
        };
        Entries { values: part(0), blocks: part(1), ops: part(2) }
    }

    /// As a mapping's words.
    pub fn words(&self) -> Vec<u32> {
        let mut words = no_entries();
        for (base, entries) in ENTRIES.into_iter().zip([&self.values, &self.blocks, &self.ops]) {
            for (left, image) in entries {
                words[base + *left as usize] = *image;
            }
        }
        words
    }

    /// As a mapping of pliron's.
    pub fn oracles(&self, oracle: &Oracle) -> oracle::Mapping {
        let mut mapping = oracle::Mapping::new();
        self.values.iter().for_each(|(l, r)| oracle.enter_value(&mut mapping, *l, *r));
        self.blocks.iter().for_each(|(l, r)| oracle.enter_block(&mut mapping, *l, *r));
        self.ops.iter().for_each(|(l, r)| oracle.enter_op(&mut mapping, *l, *r));
        mapping
    }

    /// Enters all into a mapping by ids of the store.
    pub fn enter(&self, store: &Store, mapping: &mut Mapping) -> Result<(), Refused> {
        let missing = "an entry names what exists";
        for (l, r) in &self.values {
            mapping.map_value(store.value_id(*l).expect(missing), store.value_id(*r).expect(missing))?;
        }
        for (l, r) in &self.blocks {
            mapping.map_block(store.block_id(*l).expect(missing), store.block_id(*r).expect(missing))?;
        }
        for (l, r) in &self.ops {
            mapping.map_op(store.op_id(*l).expect(missing), store.op_id(*r).expect(missing))?;
        }
        Ok(())
    }
}
