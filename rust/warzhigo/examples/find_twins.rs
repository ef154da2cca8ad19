//! The twins among a form's operations: each with the first operation that is equal to it and independent of it. Of twins one inside another
//! the outermost are merged: a merge with a side inside an operation that goes is left out. Both sides of each merge are printed.
//!
//!     cargo run --offline --example find_twins

mod form;

use std::collections::BTreeSet;

use warzhigo::{Ignore, OpId, Refused, Store};

fn main() -> Result<(), Refused> {
    let mut store = Store::new();
    let [first, second, third] = form::ring_form(&mut store)?;
    let merges = merges(&store, &Ignore::LOCATIONS)?;
    for (stays, goes) in &merges {
        println!("merge\n    {}\nwith\n    {}", described(&store, *stays)?, described(&store, *goes)?);
    }
    let field = |page| field_of(&store, page);
    // the first two pages, and the fields of the first and the third; that of the second goes with its page
    assert_eq!(merges, [(first, second), (field(first)?, field(third)?)]);
    assert_eq!(store.twins_of_operations(&Ignore::LOCATIONS)?.into_iter().flatten().count(), merges.len() + 1);
    Ok(())
}

/// The operation that stays and the one that goes, of each merge. An operation comes behind the one around it, and behind its twin.
fn merges(store: &Store, ignore: &Ignore) -> Result<Vec<(OpId, OpId)>, Refused> {
    let twins = store.twins_of_operations(ignore)?;
    let mut gone = BTreeSet::new();
    let mut merges = Vec::new();
    for (op, twin) in store.operations().map(|op| op.id()).zip(twins) {
        if around(store, op)?.is_some_and(|outer| gone.contains(&outer)) {
            gone.insert(op);
        } else if let Some(stays) = twin.filter(|twin| !gone.contains(twin)) {
            merges.push((stays, op));
            gone.insert(op);
        }
    }
    Ok(merges)
}

/// The operation around this one.
fn around(store: &Store, op: OpId) -> Result<Option<OpId>, Refused> {
    let Some(parent) = store.operation(op)?.parent() else { return Ok(None) };
    let region = store.block(parent)?.region();
    Ok(Some(store.region(region)?.operation()))
}

/// The first operation in a page.
fn field_of(store: &Store, page: OpId) -> Result<OpId, Refused> {
    let region = store.operation(page)?.regions().next().expect("its region");
    let inside = store.region(region)?.blocks().next().expect("its block");
    Ok(store.block(inside)?.operations().next().expect("its field"))
}

/// An operation in a line.
fn described(store: &Store, op: OpId) -> Result<String, Refused> {
    let view = store.operation(op)?;
    let operands: Vec<_> = view.operands().collect();
    let results: Vec<_> = view.results().collect();
    Ok(format!("operation {op}, kind {}, location {}, operands {operands:?}, results {results:?}", view.kind(), view.location()))
}
