//! Keys, measured beside the hash of the same fragment: pliron has none.

use std::cmp::Ordering;
use std::hint::black_box;

use warzhigo::{Ignore, OpId, Store, compare_keys, lent, operation_extent, operation_hash, operation_key, operation_key_into};

use crate::cases::{SIZES, Shape, case};
use crate::race::{Effort, Figure, Runner, Series, race, runner};
use crate::sides::{Inner, Side};

/// A store, and the two operations in it that are equal; the left one is filed.
pub struct Filed {
    store: Store,
    left: OpId,
    right: OpId,
}

/// Nanoseconds, and how long the key is.
#[derive(Clone, Copy)]
pub struct Times {
    pub length: usize,
    pub hash: Figure,
    /// The key in lent bytes that are as many as it needs, on a store known to be sound.
    pub inner: Figure,
    /// The same in bytes that suffice for any key.
    pub roomy: Figure,
    /// The key in as many as it needs, on lent words.
    pub offered: Figure,
    /// The key in bytes of its own.
    pub allocated: Figure,
    /// How large the key will be, and what the fragment holds.
    pub extent: Figure,
    /// Two keys that are the same, compared.
    pub compared: Figure,
}

impl Times {
    pub fn ratio(&self) -> Figure {
        self.inner / self.hash
    }

    pub fn roomy_ratio(&self) -> Figure {
        self.roomy / self.hash
    }

    /// To the key in bytes that suffice for any.
    pub fn extent_ratio(&self) -> Figure {
        self.extent / self.roomy
    }
}

/// The sizes of a shape, measured.
pub struct Row {
    pub shape: Shape,
    pub sizes: Vec<Times>,
}

pub type Keys = Series<Filed, 7>;

/// The shapes that are hashed.
fn filed_shapes() -> impl Iterator<Item = Shape> {
    Shape::ALL.into_iter().filter(|shape| *shape != Shape::Unequal)
}

/// All shapes that are hashed, in all sizes.
pub fn shapes(effort: Effort) -> Keys {
    let cases = filed_shapes().flat_map(|shape| SIZES.map(|n| Filed::new(shape, n)));
    Series::new("keys", cases.collect(), effort, |filed, effort| race(filed.runners(), effort))
}

/// The same, by shapes.
pub fn by_shape(keys: Keys) -> Vec<Row> {
    let times: Vec<Times> = keys
        .rows()
        .map(|(filed, [hash, inner, roomy, offered, allocated, extent, compared])| Times {
            length: filed.key(filed.left).len(),
            hash,
            inner,
            roomy,
            offered,
            allocated,
            extent,
            compared,
        })
        .collect();
    filed_shapes().zip(times.chunks(SIZES.len())).map(|(shape, sizes)| Row { shape, sizes: sizes.to_vec() }).collect()
}

impl Filed {
    /// A case of which all ways give the same key, and both fragments have it.
    fn new(shape: Shape, n: u32) -> Filed {
        let case = case(shape, n);
        let mut side = Inner::empty();
        side.build(&case.calls);
        let filed = Filed { left: side.op(case.left), right: side.op(case.right), store: side.store };
        let [key, right] = [filed.left, filed.right].map(|op| filed.key(op));
        assert!(key == right && compare_keys(&key, &right) == Ordering::Equal, "equal fragments with two keys");
        let mut bytes = [vec![0; lent::key_bytes()], vec![0; lent::key_bytes()]];
        let lengths = [filed.inner(&mut bytes[0]), filed.offered(&mut bytes[1])];
        assert!(lengths == [key.len(); 2] && bytes.iter().all(|bytes| bytes.starts_with(&key)), "the ways to write a key differ");
        assert!(filed.length() == key.len(), "the extent of a key that is of another length");
        filed
    }

    fn key(&self, op: OpId) -> Vec<u8> {
        operation_key(&self.store, op, &Ignore::NOTHING).expect("a key")
    }

    fn inner(&self, key: &mut [u8]) -> usize {
        operation_key_into(&self.store, self.left, &Ignore::NOTHING, key).expect("a key")
    }

    fn offered(&self, key: &mut [u8]) -> usize {
        lent::operation_key(self.store.words(), &[], self.left.number(), &Ignore::NOTHING, key).expect("a key")
    }

    /// By the extent.
    fn length(&self) -> usize {
        operation_extent(&self.store, self.left, &Ignore::NOTHING).expect("an extent").bytes
    }

    /// The hash, the key in each way, its extent, and two keys compared.
    fn runners(&self) -> [Runner<'_>; 7] {
        let hash = runner(move || {
            let Filed { store, left, .. } = black_box(self);
            black_box(operation_hash(store, *left, &Ignore::NOTHING).expect("a hash"));
        });
        let mut bytes = self.key(self.left);
        let inner = runner(move || {
            black_box(black_box(self).inner(black_box(&mut bytes)));
        });
        let mut bytes = vec![0; lent::key_bytes()];
        let roomy = runner(move || {
            black_box(black_box(self).inner(black_box(&mut bytes)));
        });
        let mut bytes = self.key(self.left);
        let offered = runner(move || {
            black_box(black_box(self).offered(black_box(&mut bytes)));
        });
        let allocated = runner(move || {
            black_box(black_box(self).key(self.left));
        });
        let extent = runner(move || {
            black_box(black_box(self).length());
        });
        let keys = [self.left, self.right].map(|op| self.key(op));
        let compared = runner(move || {
            let [left, right] = black_box(&keys);
            black_box(compare_keys(left, right));
        });
        [hash, inner, roomy, offered, allocated, extent, compared]
    }
}
