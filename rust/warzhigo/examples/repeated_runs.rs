//! The longest run of a form's page that is repeated: every length, from the longest on.
//!
//!     cargo run --offline --example repeated_runs

use warzhigo::{BlockId, Ignore, NewOperation, Refused, Run, Store};

/// Kinds of operations.
const PAGE: u32 = 7;
const FIELD: u32 = 8;
const CHECK: u32 = 9;
const NOTE: u32 = 4;

fn main() -> Result<(), Refused> {
    let mut store = Store::new();
    let page = variable_page(&mut store, 3)?;
    let longest = (1..=256).rev().find_map(|length| {
        let found = store.repeated_run(page, length, &Ignore::LOCATIONS).transpose()?;
        Some(found.map(|run| (length, run)))
    });
    let (length, run) = longest.expect("fields are repeated")?;
    println!("operations {} to {} again from {} on", run.left, run.left + length - 1, run.right);
    assert_eq!((length, run), (2, Run { left: 0, right: 3 }));
    Ok(())
}

/// A page with so many fields, each with a check of what is typed there, and a note between them.
fn variable_page(store: &mut Store, fields: u32) -> Result<BlockId, Refused> {
    let form = store.new_operation(&NewOperation { kind: PAGE, regions: 1, ..Default::default() })?;
    let region = store.operation(form)?.regions().next().expect("its region");
    let page = store.new_block(region, 0, &[])?;
    for i in 0..fields {
        let plain = NewOperation { parent: Some(page), location: i, ..Default::default() };
        let field = store.new_operation(&NewOperation { kind: FIELD, result_types: &[5], ..plain })?;
        let typed = store.operation(field)?.results().next().expect("its result");
        store.new_operation(&NewOperation { kind: CHECK, operands: &[typed], ..plain })?;
        store.new_operation(&NewOperation { kind: NOTE + 10 * i, ..plain })?;
    }
    Ok(page)
}
