//! A ring recorder's form: a page for a new ring, one for a ring that is seen again and one for a foreign ring. Each page has a field that
//! gives what is typed and a check of it, whose length rule is an inherent attribute of kind 63: 9, 9 and 8 characters. So no ignore rule
//! merges pages with different length rules.

use warzhigo::{Attribute, BlockId, Inherent, NewOperation, OpId, Refused, Store, ValueId};

/// Kinds of operations.
pub const FORM: u32 = 6;
pub const PAGE: u32 = 7;
pub const FIELD: u32 = 8;
pub const CHECK: u32 = 9;

/// The kind of an attribute that holds a length.
pub const LENGTH: u32 = 63;

/// The three pages, in a form.
pub fn ring_form(store: &mut Store) -> Result<[OpId; 3], Refused> {
    let form = store.new_operation(&NewOperation { kind: FORM, location: 1, regions: 1, ..Default::default() })?;
    let block = block_in(store, form, 2, &[3])?;
    let keyboard = store.block(block)?.arguments().next().expect("its argument");
    Ok([page(store, block, keyboard, 10, 9)?, page(store, block, keyboard, 20, 9)?, page(store, block, keyboard, 30, 8)?])
}

/// A block in an operation's first region.
fn block_in(store: &mut Store, op: OpId, location: u32, argument_types: &[u32]) -> Result<BlockId, Refused> {
    let region = store.operation(op)?.regions().next().expect("its region");
    store.new_block(region, location, argument_types)
}

/// A page: a field, and a check of what is typed there.
pub fn page(store: &mut Store, parent: BlockId, keyboard: ValueId, location: u32, length: u32) -> Result<OpId, Refused> {
    let page = store.new_operation(&NewOperation { kind: PAGE, parent: Some(parent), location, regions: 1, ..Default::default() })?;
    let inside = block_in(store, page, location, &[])?;
    let field = store.new_operation(&NewOperation {
        kind: FIELD,
        parent: Some(inside),
        location: location + 1,
        result_types: &[5],
        operands: &[keyboard],
        ..Default::default()
    })?;
    let typed = store.operation(field)?.results().next().expect("its result");
    let check = NewOperation { kind: CHECK, parent: Some(inside), location: location + 2, operands: &[typed], ..Default::default() };
    let check = store.new_operation(&check)?;
    store.set_attribute(check, Attribute { key: 2, kind: LENGTH, content: length, inherent: Inherent::Yes })?;
    Ok(page)
}
