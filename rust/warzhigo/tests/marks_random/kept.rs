//! Ids that were kept from any time, and which of them are good.

use warzhigo::{BlockId, Ignore, OpId, Refused, RegionId, Store, ValueId, basic_block_key, operation_key, region_key};

use crate::counts::Counts;
use crate::trial::Trial;

/// An id of any sort.
#[derive(Clone, Copy, PartialEq, Debug)]
pub enum AnyId {
    Op(OpId),
    Block(BlockId),
    Region(RegionId),
    Value(ValueId),
}

impl AnyId {
    /// The id of a number, if there is one, by the sort's place among the counts.
    fn of(store: &Store, sort: usize, number: u32) -> Option<AnyId> {
        match sort {
            0 => store.op_id(number).map(AnyId::Op),
            1 => store.block_id(number).map(AnyId::Block),
            2 => store.region_id(number).map(AnyId::Region),
            _ => store.value_id(number).map(AnyId::Value),
        }
    }

    pub fn sort(self) -> usize {
        match self {
            AnyId::Op(_) => 0,
            AnyId::Block(_) => 1,
            AnyId::Region(_) => 2,
            AnyId::Value(_) => 3,
        }
    }

    pub fn number(self) -> u32 {
        match self {
            AnyId::Op(id) => id.number(),
            AnyId::Block(id) => id.number(),
            AnyId::Region(id) => id.number(),
            AnyId::Value(id) => id.number(),
        }
    }

    /// The cause by which a view of it and its key are refused, if they are: for one that is not good, both.
    fn refused(self, store: &Store) -> Option<u32> {
        let all = &Ignore::NOTHING;
        let (view, key) = match self {
            AnyId::Op(id) => (store.operation(id).err(), operation_key(store, id, all).err()),
            AnyId::Block(id) => (store.block(id).err(), basic_block_key(store, id, all).err()),
            AnyId::Region(id) => (store.region(id).err(), region_key(store, id, all).err()),
            AnyId::Value(id) => (store.value(id).err(), store.value(id).err()),
        };
        assert_eq!(view, key, "{self:?}");
        view.map(Refused::number)
    }
}

/// When each number was given that there is, by a clock that counts them; and ids, each with that time of its number.
#[derive(Default)]
pub struct Kept {
    clock: u64,
    given: [Vec<u64>; 4],
    pub ids: Vec<(AnyId, u64)>,
}

impl Kept {
    /// Notes which numbers have come or gone with a call, and keeps some ids of any time.
    pub fn note(&mut self, trial: &mut Trial, context: &str, counts: &mut Counts) {
        let totals = trial.model.picture.totals();
        for (given, count) in self.given.iter_mut().zip([totals.operations, totals.blocks, totals.regions, totals.values]) {
            let new = (count as usize).saturating_sub(given.len()) as u64;
            given.truncate(count as usize);
            given.extend(self.clock..self.clock + new);
            self.clock += new;
        }
        let sort = trial.random.below(4) as usize;
        if !self.given[sort].is_empty() && self.ids.len() < 60 {
            let number = trial.random.below(self.given[sort].len() as u32);
            let id = AnyId::of(&trial.store, sort, number).expect(context);
            self.ids.push((id, self.given[sort][number as usize]));
        }
        if trial.random.chance(25) {
            self.hold(trial, context, counts);
        }
    }

    pub fn time(&self, id: AnyId) -> Option<u64> {
        self.given[id.sort()].get(id.number() as usize).copied()
    }

    /// Asserts of every id that it is good while what it names is there, and no longer.
    pub fn hold(&self, trial: &Trial, context: &str, counts: &mut Counts) {
        for (id, time) in &self.ids {
            let there = self.time(*id) == Some(*time);
            assert_eq!(id.refused(&trial.store), if there { None } else { Some(2) }, "{context}: {id:?}");
            let read = AnyId::of(&trial.store, id.sort(), id.number());
            assert_eq!(read == Some(*id), there, "{context}: {id:?} beside what readers give");
            counts.ids_good += there as u64;
            counts.ids_gone += !there as u64;
            counts.ids_given_again += (!there && self.time(*id).is_some()) as u64;
        }
    }
}
