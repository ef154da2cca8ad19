//! Which ids of a store are good, though numbers go away when it goes back to a mark, and are given again.
//!
//! A store's time is cut into eras. One begins with the store, and another whenever numbers go away; it starts at the counts that are
//! left. A number belongs to the youngest era that starts at or below it, in its sort, and an id has the era that its number belonged to
//! when it was given. So:
//!
//! - A number that goes away belongs to the era that begins then, or to a younger one, ever after. An id is good exactly where its number
//!   still belongs to its era: then it has not gone away since.
//! - What stays belongs to the era that it belonged to, and its ids stay good.
//! - Starts rise with the eras, in all four sorts at once. For the counts of set marks rise so, in the order of setting, up to those of now
//!   (soundness asks it), and a store goes back to the counts of a set mark, after which those set later are void. So these counts are above
//!   the starts of some eras, and at or below those of all others, of which no number is left.

use alloc::vec::Vec;

use crate::columns::Count;
use crate::ids::{Id, Identity};

/// How many there are of operations, blocks, regions and values.
pub(crate) type Counts = [u32; 4];

#[derive(Clone, Copy)]
struct Era {
    identity: Identity,
    start: Counts,
}

/// The eras of a store that have numbers, and the newest one.
#[derive(Clone)]
pub(crate) struct Eras {
    /// The first one's identity, which is the store's, also where that era has no number left.
    store: Identity,
    newest: Era,
    /// The others, from the oldest on. The oldest of all eras that are left starts at 0.
    older: Vec<Era>,
}

impl Eras {
    /// Those of a new store: one, to which every number belongs.
    pub(crate) fn new() -> Eras {
        let store = Identity::first();
        Eras { store, newest: Era { identity: store, start: [0; 4] }, older: Vec::new() }
    }

    /// Which store they are of.
    pub(crate) fn store(&self) -> Identity {
        self.store
    }

    /// The newest one, by which all are known: they change only when another begins.
    #[inline]
    pub(crate) fn newest(&self) -> Identity {
        self.newest.identity
    }

    /// Is the id good? Every number of the newest era is there.
    #[inline]
    pub(crate) fn has<I: Id>(&self, id: I) -> bool {
        id.identity() == self.newest.identity || self.has_older(I::OF, id.number(), id.identity())
    }

    #[cold]
    fn has_older(&self, of: Count, number: u32, identity: Identity) -> bool {
        number < self.newest.start[of as usize] && self.older_owner(of, number) == identity
    }

    /// The era that a number belongs to.
    #[inline]
    pub(crate) fn owner(&self, of: Count, number: u32) -> Identity {
        if number >= self.newest.start[of as usize] { self.newest.identity } else { self.older_owner(of, number) }
    }

    /// Of a number below the newest era's start: so there is an older one, and the oldest starts at 0.
    #[cold]
    fn older_owner(&self, of: Count, number: u32) -> Identity {
        let started = self.older.partition_point(|era| era.start[of as usize] <= number);
        self.older[started - 1].identity
    }

    /// An era to begin: whatever may fail is done here, ahead of numbers going away.
    pub(crate) fn next(&mut self) -> Identity {
        self.older.reserve(1);
        Identity::later()
    }

    /// Numbers have gone away, and these counts are left. An era goes with its last number.
    pub(crate) fn begin(&mut self, next: Identity, left: Counts) {
        let newest = Era { identity: next, start: left };
        self.older.push(core::mem::replace(&mut self.newest, newest));
        self.older.retain(|era| era.start.iter().zip(&left).any(|(start, left)| start < left));
    }

    /// What has been there ever since this era was the newest, as counts: numbers from there on have gone away in between, though they may
    /// have been given again. None where nothing has gone.
    pub(crate) fn left_since(&self, newest: Identity) -> Option<Counts> {
        let began = self.older.partition_point(|era| era.identity <= newest);
        let next = self.older.get(began).unwrap_or(&self.newest);
        (next.identity > newest).then_some(next.start)
    }
}

#[cfg(test)]
mod tests {
    use super::*;
    use crate::ids::{BlockId, OpId, RegionId, ValueId};

    fn begin(eras: &mut Eras, left: Counts) {
        let next = eras.next();
        eras.begin(next, left);
    }

    /// Numbers that look random.
    struct Numbers(u64);

    impl Numbers {
        fn below(&mut self, limit: u32) -> u32 {
            self.0 = self.0.wrapping_mul(6364136223846793005).wrapping_add(1442695040888963407);
            ((self.0 >> 33) % u64::from(limit)) as u32
        }
    }

    /// A store of which only the numbers count: for each, when it was given, by a clock that never stands still.
    #[derive(Default)]
    struct Model {
        clock: u64,
        given: [Vec<u64>; 4],
        marks: Vec<Counts>,
    }

    impl Model {
        fn counts(&self) -> Counts {
            [0, 1, 2, 3].map(|of| self.given[of].len() as u32)
        }

        /// One to three things of some sorts, as a building call makes them.
        fn grow(&mut self, numbers: &mut Numbers) {
            for of in 0..4 {
                for _ in 0..numbers.below(3) {
                    self.clock += 1;
                    self.given[of].push(self.clock);
                }
            }
        }

        /// Goes back to one of the marks; those set later are void. Gives whether anything has gone away.
        fn go_back(&mut self, mark: usize) -> bool {
            let (before, left) = (self.counts(), self.marks[mark]);
            self.marks.truncate(mark + 1);
            self.given.iter_mut().zip(left).for_each(|(given, left)| given.truncate(left as usize));
            before != left
        }
    }

    /// An id of any sort, with the time at which its number was given.
    #[derive(Clone, Copy)]
    struct Given {
        of: usize,
        number: u32,
        identity: Identity,
        time: u64,
    }

    impl Given {
        fn is_good(self, eras: &Eras) -> bool {
            let Given { of, number, identity, .. } = self;
            match of {
                0 => eras.has(OpId::existing(number, identity)),
                1 => eras.has(BlockId::existing(number, identity)),
                2 => eras.has(RegionId::existing(number, identity)),
                _ => eras.has(ValueId::existing(number, identity)),
            }
        }
    }

    const SORTS: [Count; 4] = [Count::Operations, Count::Blocks, Count::Regions, Count::Values];

    /// The ids of all numbers that there are.
    fn all_given(model: &Model, eras: &Eras) -> Vec<Given> {
        let sorts = SORTS.into_iter().enumerate().zip(&model.given);
        let ids = sorts.flat_map(|((of, sort), given)| {
            (0..).zip(given).map(move |(number, time)| Given { of, number, identity: eras.owner(sort, number), time: *time })
        });
        ids.collect()
    }

    /// Good are the ids of what has been there since they were given, and no others.
    fn hold(model: &Model, eras: &Eras, ids: &[Given]) {
        for id in ids {
            let there = model.given[id.of].get(id.number as usize) == Some(&id.time);
            assert_eq!(id.is_good(eras), there);
        }
    }

    #[test]
    fn ids_are_good_while_what_they_name_is_there() {
        let mut numbers = Numbers(7);
        for _ in 0..200 {
            let (mut model, mut eras, mut ids) = (Model::default(), Eras::new(), Vec::new());
            for _ in 0..40 {
                match numbers.below(5) {
                    0 => model.marks.push(model.counts()),
                    1 if !model.marks.is_empty() => {
                        let mark = numbers.below(model.marks.len() as u32) as usize;
                        if model.go_back(mark) {
                            begin(&mut eras, model.counts());
                        }
                    }
                    _ => model.grow(&mut numbers),
                }
                hold(&model, &eras, &ids);
                ids.extend(all_given(&model, &eras).into_iter().filter(|_| numbers.below(10) == 0));
                hold(&model, &eras, &all_given(&model, &eras));
                assert!(eras.older.len() as u32 <= model.counts().iter().sum(), "an era without a number");
            }
        }
    }

    /// What is left since an era was the newest: of the numbers that there were then, those that have not gone away.
    #[test]
    fn what_is_left_since() {
        let mut numbers = Numbers(11);
        for _ in 0..200 {
            let (mut model, mut eras) = (Model::default(), Eras::new());
            let mut notes: Vec<(Identity, [Vec<u64>; 4])> = Vec::new();
            for _ in 0..30 {
                (0..numbers.below(3)).for_each(|_| model.grow(&mut numbers));
                notes.push((eras.newest(), model.given.clone()));
                model.marks.push(model.counts());
                let mark = numbers.below(model.marks.len() as u32) as usize;
                if numbers.below(2) == 0 && model.go_back(mark) {
                    begin(&mut eras, model.counts());
                }
                for (newest, then) in &notes {
                    let left = eras.left_since(*newest).unwrap_or([u32::MAX; 4]);
                    for of in 0..4 {
                        let is_left = |n: usize| model.given[of].get(n) == Some(&then[of][n]);
                        assert!((0..then[of].len()).all(|n| is_left(n) == ((n as u32) < left[of])));
                    }
                }
            }
        }
    }

    #[test]
    fn a_store_that_is_empty_again_has_one_era() {
        let mut eras = Eras::new();
        let before = eras.clone();
        let gone = OpId::existing(0, eras.newest());
        begin(&mut eras, [0; 4]);
        assert!(eras.older.is_empty() && eras.store() == before.store() && !eras.has(gone));
        assert!(eras.has(OpId::existing(0, eras.newest())) && !before.has(OpId::existing(0, eras.newest())));
    }

    #[test]
    fn first_eras_of_two_stores_are_told_apart() {
        let [mut one, other] = [Eras::new(), Eras::new()];
        let first = one.newest();
        assert!(first.may_be_of_one_store(first) && !first.may_be_of_one_store(other.newest()) && one.store() != other.store());
        begin(&mut one, [1; 4]);
        assert!(one.newest() > other.newest() && first.may_be_of_one_store(one.newest()));
    }
}
