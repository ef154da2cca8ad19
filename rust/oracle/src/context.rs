//! Stands in for pliron's context.rs: arenas of cells, and pointers into them. In pliron a `Ptr` is
//! a slot map's key; here it is the store number, counted from 0 in order of creation.

use core::{
    cell::{Cell, Ref, RefCell, RefMut},
    fmt,
    hash::{Hash, Hasher},
    marker::PhantomData,
};

use crate::{basic_block::BasicBlock, operation::Operation, region::Region};

pub struct Arena<T>(Vec<RefCell<T>>);

impl<T> Arena<T> {
    pub fn len(&self) -> usize {
        self.0.len()
    }

    /// All pointers, by rising number.
    pub fn ptrs(&self) -> impl Iterator<Item = Ptr<T>> + use<T> {
        (0..self.0.len() as u32).map(Ptr::from_number)
    }

    /// Puts what `make` gives at the next number, which it is told.
    pub fn alloc(&mut self, make: impl FnOnce(Ptr<T>) -> T) -> Ptr<T> {
        let ptr = Ptr::from_number(self.0.len() as u32);
        self.0.push(RefCell::new(make(ptr)));
        ptr
    }
}

impl<T> Default for Arena<T> {
    fn default() -> Self {
        Arena(Vec::new())
    }
}

pub mod private {
    use super::{Arena, Context};

    /// Found in an arena of the context.
    pub trait ArenaObj: Sized + 'static {
        fn get_arena(ctx: &Context) -> &Arena<Self>;
    }
}
use private::ArenaObj;

pub struct Ptr<T> {
    number: u32,
    marker: PhantomData<fn() -> T>,
}

impl<T> Ptr<T> {
    pub fn from_number(number: u32) -> Self {
        Ptr { number, marker: PhantomData }
    }

    pub fn number(&self) -> u32 {
        self.number
    }
}

impl<T: ArenaObj> Ptr<T> {
    pub fn deref<'a>(&self, ctx: &'a Context) -> Ref<'a, T> {
        T::get_arena(ctx).0[self.number as usize].borrow()
    }

    pub fn deref_mut<'a>(&self, ctx: &'a Context) -> RefMut<'a, T> {
        T::get_arena(ctx).0[self.number as usize].borrow_mut()
    }
}

// Written out, since a derive would ask the same of `T`.
impl<T> Clone for Ptr<T> {
    fn clone(&self) -> Self {
        *self
    }
}

impl<T> Copy for Ptr<T> {}

impl<T> PartialEq for Ptr<T> {
    fn eq(&self, other: &Self) -> bool {
        self.number == other.number
    }
}

impl<T> Eq for Ptr<T> {}

impl<T> Hash for Ptr<T> {
    fn hash<H: Hasher>(&self, state: &mut H) {
        state.write_u32(self.number);
    }
}

impl<T> fmt::Debug for Ptr<T> {
    fn fmt(&self, f: &mut fmt::Formatter<'_>) -> fmt::Result {
        write!(f, "{}", self.number)
    }
}

#[derive(Default)]
pub struct Context {
    pub operations: Arena<Operation>,
    pub blocks: Arena<BasicBlock>,
    pub regions: Arena<Region>,
    values: Cell<u64>,
    /// What the ignore function reads: pliron's takes a context and an attribute, and no more.
    pub ignore_bits: Cell<u64>,
}

impl Context {
    /// Values are numbered in order of creation, so the uid is the store number.
    pub fn get_new_value_uid(&self) -> u64 {
        let uid = self.values.get();
        self.values.set(uid + 1);
        uid
    }
}
