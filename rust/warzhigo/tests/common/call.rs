//! Building calls as data, by numbers, and each of the ways to make one.

use oracle::{Lists, NumberAttr, Oracle};
use warzhigo::lent::{self, Owner};
use warzhigo::{Attribute, BlockId, Inherent, Mapping, NewOperation, Refused, Store, ValueId};

use super::question::no_entries;

#[derive(Clone, Debug)]
pub enum Call {
    Operation(New),
    Block { region: u32, location: u32, argument_types: Vec<u32> },
    Attribute(Owner, Attribute),
    Operand { op: u32, index: u32, value: u32 },
    Copy { op: u32, parent: Option<u32> },
}

#[derive(Clone, Debug, Default)]
pub struct New {
    pub kind: u32,
    pub parent: Option<u32>,
    pub location: u32,
    pub regions: u32,
    pub result_types: Vec<u32>,
    pub operands: Vec<u32>,
    pub successors: Vec<u32>,
}

/// The new number of an accepted call, if it gives one, or the cause of a refusal.
pub type Answer = Result<Option<u32>, u32>;

impl Call {
    /// Makes the call on lent words. A copy is lent an empty mapping.
    pub fn lent(&self, words: &mut [u32]) -> Answer {
        self.lent_into(words, &mut no_entries())
    }

    /// Makes the call on lent words, with a mapping for a copy.
    pub fn lent_into(&self, words: &mut [u32], mapping: &mut [u32]) -> Answer {
        let answer = match self {
            Call::Operation(new) => lent::new_operation(words, &new.lent()).map(Some),
            Call::Block { region, location, argument_types } => lent::new_block(words, *region, *location, argument_types).map(Some),
            Call::Attribute(owner, attribute) => lent::set_attribute(words, *owner, *attribute).map(|()| None),
            Call::Operand { op, index, value } => lent::set_operand(words, *op, *index, *value).map(|()| None),
            Call::Copy { op, parent } => lent::clone_operation(words, *op, *parent, mapping).map(Some),
        };
        answer.map_err(Refused::number)
    }

    /// Makes the call on a store by ids, if all that it names is there: else there are no such ids. A copy is lent an empty mapping.
    pub fn by_ids(&self, store: &mut Store) -> Option<Answer> {
        self.by_ids_into(store, &mut Mapping::new())
    }

    /// The same, with a mapping for a copy.
    pub fn by_ids_into(&self, store: &mut Store, mapping: &mut Mapping) -> Option<Answer> {
        let answer = match self {
            Call::Operation(new) => new.by_ids(store)?,
            Call::Block { region, location, argument_types } => {
                let region = store.region_id(*region)?;
                store.new_block(region, *location, argument_types).map(|block| Some(block.number()))
            }
            Call::Attribute(Owner::Op(op), attribute) => store.set_attribute(store.op_id(*op)?, *attribute).map(|()| None),
            Call::Attribute(Owner::Block(block), attribute) => store.set_attribute(store.block_id(*block)?, *attribute).map(|()| None),
            Call::Operand { op, index, value } => {
                let (op, value) = (store.op_id(*op)?, store.value_id(*value)?);
                store.set_operand(op, *index, value).map(|()| None)
            }
            Call::Copy { op, parent } => {
                let parent = match parent {
                    Some(block) => Some(store.block_id(*block)?),
                    None => None,
                };
                let op = store.op_id(*op)?;
                store.clone_operation(op, parent, mapping).map(|copy| Some(copy.number()))
            }
        };
        Some(answer.map_err(Refused::number))
    }

    /// Makes the call on pliron's store. It has to be one that the rules accept.
    pub fn on_oracle(&self, oracle: &mut Oracle) -> Option<u32> {
        match self {
            Call::Operation(New { kind, parent, location, regions, result_types, operands, successors }) => {
                Some(oracle.new_operation(*kind, *parent, *location, *regions, Lists { result_types, operands, successors }))
            }
            Call::Block { region, location, argument_types } => Some(oracle.new_block(*region, *location, argument_types)),
            Call::Attribute(owner, Attribute { key, kind, content, inherent }) => {
                let owner = match owner {
                    Owner::Op(n) => oracle::Owner::Op(*n),
                    Owner::Block(n) => oracle::Owner::Block(*n),
                };
                oracle.set_attribute(owner, *key, NumberAttr { kind: *kind, content: *content, inherent: *inherent == Inherent::Yes });
                None
            }
            Call::Operand { op, index, value } => {
                oracle.set_operand(*op, *index, *value);
                None
            }
            Call::Copy { op, parent } => {
                let copy = oracle.clone_operation(&mut oracle::Mapping::new(), *op, *parent);
                oracle.number_values();
                Some(copy)
            }
        }
    }
}

impl New {
    fn lent(&self) -> lent::NewOperation<'_> {
        let New { kind, parent, location, regions, result_types, operands, successors } = self;
        NewOperation { kind: *kind, parent: *parent, location: *location, regions: *regions, result_types, operands, successors }
    }

    fn by_ids(&self, store: &mut Store) -> Option<Result<Option<u32>, Refused>> {
        let parent = match self.parent {
            Some(block) => Some(store.block_id(block)?),
            None => None,
        };
        let operands: Vec<ValueId> = self.operands.iter().map(|n| store.value_id(*n)).collect::<Option<_>>()?;
        let successors: Vec<BlockId> = self.successors.iter().map(|n| store.block_id(*n)).collect::<Option<_>>()?;
        let New { kind, location, regions, result_types, .. } = self;
        let new = NewOperation {
            kind: *kind,
            parent,
            location: *location,
            regions: *regions,
            result_types,
            operands: &operands,
            successors: &successors,
        };
        Some(store.new_operation(&new).map(|op| Some(op.number())))
    }
}

/// Makes the call on a store: by ids, or on a copy of its words where it names what isn't there. A refused one leaves every word as it was.
/// A copy is lent an empty mapping.
pub fn apply(store: &mut Store, call: &Call, context: &str) -> Answer {
    apply_into(store, call, &mut Mapping::new(), context)
}

/// The same, with a mapping for a copy, whose entries are good. A refused call leaves its words as they were too.
pub fn apply_into(store: &mut Store, call: &Call, mapping: &mut Mapping, context: &str) -> Answer {
    let (before, entries) = (store.words().to_vec(), mapping.words().to_vec());
    let (mut words, mut lent_mapping) = (before.clone(), entries.clone());
    let lent = call.lent_into(&mut words, &mut lent_mapping);
    let by_ids = call.by_ids_into(store, mapping);
    assert!(lent_mapping == mapping.words() || by_ids.is_none(), "{context}: {call:?} by ids and by numbers give other mappings");
    assert!(lent.is_ok() || lent_mapping == entries, "{context}: the refused {call:?} has changed the mapping");
    let answer = by_ids.unwrap_or(lent);
    assert_eq!(answer, lent, "{context}: {call:?} by ids and by numbers");
    if answer.is_err() {
        assert!(words == before, "{context}: the refused {call:?} has changed words");
        assert!(store.words() == before, "{context}: the refused {call:?} has changed the store");
    } else {
        assert!(store.words() == words, "{context}: {call:?} by ids and by numbers give other words");
    }
    answer
}
