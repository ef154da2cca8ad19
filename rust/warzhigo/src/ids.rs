//! Numbers of operations, blocks, regions and values, each with the store that it is of, and the era of that store.

use core::fmt;
use core::sync::atomic::{AtomicU64, Ordering};

use crate::columns::Count;
use crate::eras::Eras;

/// An era of a store, from when its first numbers are given until numbers go away: see [`Eras`]. No two have the same, of one store or of
/// several, and a younger one has a larger.
#[derive(Clone, Copy, PartialEq, Eq, PartialOrd, Ord, Hash, Debug)]
pub(crate) struct Identity(u64);

/// The bits of an id that are its number, and those that are its identity.
const NUMBER_BITS: u32 = 16;
const IDENTITY_BITS: u32 = 64 - NUMBER_BITS;

/// The bit that an era has which is not its store's first.
const LATER: u64 = 1;

impl Identity {
    /// That of a new store's first era.
    pub(crate) fn first() -> Identity {
        Identity(Identity::count() << 1)
    }

    /// That of an era of a store that has had one before.
    pub(crate) fn later() -> Identity {
        Identity(Identity::count() << 1 | LATER)
    }

    /// More than any process begins: a million in a second, for four years.
    fn count() -> u64 {
        static NEXT: AtomicU64 = AtomicU64::new(0);
        let count = NEXT.fetch_add(1, Ordering::Relaxed);
        assert!(count < 1 << (IDENTITY_BITS - 1), "this process has no more ids to give");
        count
    }

    /// Is it a store's first, by which the store is known?
    pub(crate) fn is_first(self) -> bool {
        self.0 & LATER == 0
    }

    /// May both be of one store? First eras of different stores are told apart without the store.
    pub(crate) fn may_be_of_one_store(self, other: Identity) -> bool {
        self == other || !self.is_first() || !other.is_first()
    }
}

/// A number that nothing has, in any store.
const NOTHING: u32 = u32::MAX;

/// An id: a number, below 65,536, and the era that the number belonged to when the id was given.
pub(crate) trait Id: Copy {
    /// The sort of what it names.
    const OF: Count;

    /// Of a number that exists, or has existed, and belongs to that era: other parts of the crate rely on it.
    fn existing(number: u32, identity: Identity) -> Self;
    fn number(self) -> u32;
    fn identity(self) -> Identity;

    /// Its number in the store of these eras, or, if it names nothing there, a number that doesn't exist.
    #[inline]
    fn number_in(self, store: &Eras) -> u32 {
        if store.has(self) { self.number() } else { NOTHING }
    }
}

/// An id that a mapping has entries of.
pub(crate) trait Mapped: Id {
    /// Where its entries stand in the words of a mapping.
    const ENTRIES: usize;
    /// How many there are.
    const COUNT: usize;
}

macro_rules! ids {
    ($($(#[$doc:meta])* $name:ident $letter:literal $of:ident;)*) => { $(
        $(#[$doc])*
        ///
        /// It is good for the store that gave it, until that store [goes back](crate::Store::go_back) to before it was made. After that,
        /// and in any other store, a clone of that one included, a call that is given it is refused by 2: it names nothing there, even where
        /// there is something of its number.
        #[derive(Clone, Copy, PartialEq, Eq, PartialOrd, Ord, Hash)]
        pub struct $name(u64);

        impl $name {
            /// The number in its store, from 0 in order of creation.
            #[inline]
            pub fn number(self) -> u32 {
                (self.0 & ((1 << NUMBER_BITS) - 1)) as u32
            }
        }

        impl Id for $name {
            const OF: Count = Count::$of;

            #[inline]
            fn existing(number: u32, identity: Identity) -> $name {
                debug_assert!(number < 1 << NUMBER_BITS);
                $name(identity.0 << NUMBER_BITS | number as u64)
            }
            #[inline]
            fn number(self) -> u32 {
                $name::number(self)
            }
            #[inline]
            fn identity(self) -> Identity {
                Identity(self.0 >> NUMBER_BITS)
            }
        }

        impl fmt::Debug for $name {
            fn fmt(&self, f: &mut fmt::Formatter<'_>) -> fmt::Result {
                write!(f, concat!($letter, "{}"), $name::number(*self))
            }
        }

        impl fmt::Display for $name {
            fn fmt(&self, f: &mut fmt::Formatter<'_>) -> fmt::Result {
                write!(f, "{}", $name::number(*self))
            }
        }
    )* };
}

ids! {
    /// An operation of a store.
    OpId "o" Operations;
    /// A block of a store.
    BlockId "b" Blocks;
    /// A region of a store.
    RegionId "r" Regions;
    /// A value of a store: a result of an operation, or an argument of a block.
    ValueId "v" Values;
}

impl Mapped for ValueId {
    const ENTRIES: usize = 0;
    const COUNT: usize = 2048;
}

impl Mapped for BlockId {
    const ENTRIES: usize = 2048;
    const COUNT: usize = 256;
}

impl Mapped for OpId {
    const ENTRIES: usize = 2304;
    const COUNT: usize = 512;
}
