//! Stores to ask of, and how they are asked.

use warzhigo::lent::Owner;
use warzhigo::{Attribute, Inherent, Store};

use crate::common::call::{Answer, Call, New, apply};

/// Operation 0 with region 0 and in it block 0, whose argument is value 0; in that block operation 1 with operand 0, result 1 and
/// successor 0.
pub fn small() -> Store {
    let mut store = Store::new();
    for call in [
        Call::Operation(New { regions: 1, ..New::default() }),
        block(0, 1),
        Call::Operation(New { parent: Some(0), operands: vec![0], result_types: vec![5], successors: vec![0], ..New::default() }),
        attribute(Owner::Op(1), 7, 3),
    ] {
        assert!(ask(&mut store, call).is_ok());
    }
    store
}

pub fn block(region: u32, arguments: usize) -> Call {
    Call::Block { region, location: 0, argument_types: vec![0; arguments] }
}

pub fn attribute(owner: Owner, key: u32, kind: u32) -> Call {
    Call::Attribute(owner, Attribute { key, kind, content: 0, inherent: Inherent::No })
}

pub fn inherent(owner: Owner, key: u32, kind: u32) -> Call {
    Call::Attribute(owner, Attribute { key, kind, content: 0, inherent: Inherent::Yes })
}

pub fn results(count: usize) -> New {
    New { result_types: vec![0; count], ..New::default() }
}

/// Makes a call by ids and on a copy of the words, which agree.
pub fn ask(store: &mut Store, call: Call) -> Answer {
    apply(store, &call, "a store made by hand")
}

pub fn operation(store: &mut Store, new: New) -> Answer {
    ask(store, Call::Operation(new))
}

/// Fills a store by so many equal calls, all accepted.
pub fn filled(store: &mut Store, calls: u32, call: Call) {
    for n in 0..calls {
        assert!(ask(store, call.clone()).is_ok(), "call {n}: {call:?}");
    }
}

/// Operations with nesting 0 to 32, each with a region and a block in it; the last one has so many regions more, which are empty.
fn nested(more: u32) -> Store {
    let mut store = Store::new();
    for nesting in 0..=32u32 {
        let regions = if nesting < 32 { 1 } else { 1 + more };
        assert_eq!(operation(&mut store, New { parent: nesting.checked_sub(1), regions, ..New::default() }), Ok(Some(nesting)));
        assert_eq!(ask(&mut store, block(nesting, 0)), Ok(Some(nesting)));
    }
    store
}

/// Operations with nesting 0 to 32, and a block in the last of them.
pub fn deep() -> (Store, u32) {
    (nested(0), 32)
}

/// As `deep`, and the last operation has another block beside that one, and an empty region.
pub fn deepest() -> Store {
    let mut store = nested(1);
    assert_eq!(ask(&mut store, block(32, 0)), Ok(Some(33)));
    store
}

/// 1,024 attributes: 1 of operation 1, 8 of each operation from 2 to 128, and 7 of operation 129.
pub fn full_of_attributes() -> Store {
    let mut store = small();
    filled(&mut store, 200, Call::Operation(New::default()));
    for n in 0..1023 {
        assert_eq!(ask(&mut store, attribute(Owner::Op(2 + n / 8), n % 8, 0)), Ok(None), "attribute {n}");
    }
    store
}
