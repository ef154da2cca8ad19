//! A form designer tries two layouts of a page. Each is built and compared with the pages that the form has; one that is there already is
//! gone back on, and a new one stays.
//!
//!     cargo run --offline --example try_layouts

mod form;

use warzhigo::{Ignore, MarkId, OpId, Refused, Store, operation_key};

/// The form before a layout is tried.
const BEFORE: MarkId = MarkId(1);

fn main() -> Result<(), Refused> {
    let mut store = Store::new();
    let pages = form::ring_form(&mut store)?;
    let around = store.operation(pages[0])?.parent().expect("the form's block");
    let keyboard = store.block(around)?.arguments().next().expect("its argument");
    let before = store.totals();
    store.mark(BEFORE)?;
    let mut tried = Vec::new();
    for length in [9, 7] {
        let layout = form::page(&mut store, around, keyboard, 40, length)?;
        match twin(&store, &pages, layout)? {
            Some(page) => {
                println!("{length} characters: operation {layout} is page {page} again, and goes");
                store.go_back(BEFORE)?;
                assert_eq!(store.totals(), before);
            }
            None => println!("{length} characters: operation {layout} is a page of its own, and stays"),
        }
        tried.push(layout);
    }
    // The second layout has the number of the first, and not its id; ids of the pages are good all along.
    assert_eq!(tried[0].number(), tried[1].number());
    assert_eq!(tried.iter().map(|layout| store.operation(*layout).is_ok()).collect::<Vec<_>>(), [false, true]);
    assert!(pages.iter().all(|page| store.operation(*page).is_ok()));
    Ok(())
}

/// The page that a layout is again, by its key, wherever it stands.
fn twin(store: &Store, pages: &[OpId], layout: OpId) -> Result<Option<OpId>, Refused> {
    let key = operation_key(store, layout, &Ignore::LOCATIONS)?;
    for page in pages {
        if operation_key(store, *page, &Ignore::LOCATIONS)? == key {
            return Ok(Some(*page));
        }
    }
    Ok(None)
}
