//! Cause 3: a total would be passed.

use warzhigo::lent::Owner;

use crate::common::call::{Call, New};
use crate::stores::{ask, attribute, block, filled, full_of_attributes, operation, results, small};

#[test]
fn cause_3_operations() {
    let mut store = small();
    filled(&mut store, 510, Call::Operation(New::default()));
    assert_eq!(store.totals().operations, 512);
    assert_eq!(operation(&mut store, New::default()), Err(3));
    assert_eq!(ask(&mut store, block(0, 1)), Ok(Some(1)));
}

#[test]
fn cause_3_blocks() {
    let mut store = small();
    filled(&mut store, 255, block(0, 0));
    assert_eq!(store.totals().blocks, 256);
    assert_eq!(ask(&mut store, block(0, 0)), Err(3));
    assert_eq!(operation(&mut store, New { regions: 8, ..New::default() }), Ok(Some(2)));
}

#[test]
fn cause_3_regions() {
    let mut store = small();
    filled(&mut store, 31, Call::Operation(New { regions: 8, ..New::default() }));
    assert_eq!(operation(&mut store, New { regions: 8, ..New::default() }), Err(3));
    assert!(operation(&mut store, New { regions: 7, ..New::default() }).is_ok());
    assert_eq!(store.totals().regions, 256);
    assert_eq!(operation(&mut store, New { regions: 1, ..New::default() }), Err(3));
    assert!(operation(&mut store, New::default()).is_ok());
}

#[test]
fn cause_3_values() {
    let mut store = small();
    filled(&mut store, 127, Call::Operation(results(16)));
    assert_eq!(operation(&mut store, results(15)), Err(3));
    assert_eq!(ask(&mut store, block(0, 15)), Err(3));
    assert!(ask(&mut store, block(0, 7)).is_ok());
    assert!(operation(&mut store, results(7)).is_ok());
    assert_eq!(store.totals().values, 2048);
    assert_eq!(operation(&mut store, results(1)), Err(3));
    assert_eq!(ask(&mut store, block(0, 1)), Err(3));
    assert!(operation(&mut store, results(0)).is_ok());
    assert!(ask(&mut store, block(0, 0)).is_ok());
}

#[test]
fn cause_3_operands() {
    let mut store = small();
    let operands = |count| New { operands: vec![1; count], ..New::default() };
    filled(&mut store, 127, Call::Operation(operands(16)));
    assert_eq!(operation(&mut store, operands(16)), Err(3));
    assert!(operation(&mut store, operands(15)).is_ok());
    assert_eq!(store.totals().operands, 2048);
    assert_eq!(operation(&mut store, operands(1)), Err(3));
    assert!(operation(&mut store, operands(0)).is_ok());
}

#[test]
fn cause_3_successors() {
    let mut store = small();
    let successors = |count| New { successors: vec![0; count], ..New::default() };
    filled(&mut store, 63, Call::Operation(successors(8)));
    assert_eq!(operation(&mut store, successors(8)), Err(3));
    assert!(operation(&mut store, successors(7)).is_ok());
    assert_eq!(store.totals().successors, 512);
    assert_eq!(operation(&mut store, successors(1)), Err(3));
    assert!(operation(&mut store, successors(0)).is_ok());
}

#[test]
fn cause_3_attributes() {
    let mut store = full_of_attributes();
    assert_eq!(store.totals().attributes, 1024);
    for owner in [Owner::Op(200), Owner::Block(0)] {
        assert_eq!(ask(&mut store, attribute(owner, 9, 0)), Err(3));
    }
    assert_eq!(ask(&mut store, attribute(Owner::Op(2), 7, 63)), Ok(None), "a key that is there");
}
