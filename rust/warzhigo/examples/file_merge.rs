//! A compiler merges two pages of a form that are twins, and writes a page for an auditor to file: both sides, what corresponds to what, the
//! same read backwards, the key, and what was ignored. What the page claims is asserted.
//!
//!     cargo run --offline --example file_merge

mod form;

use std::collections::BTreeSet;

use warzhigo::{Attribute, Entry, Ignore, Inherent, Mapping, OpId, Owner, Refused, Store, operation_eq, operation_key};

fn main() -> Result<(), Refused> {
    let page = twin_pages()?;
    println!("{page}");
    assert_eq!(page, twin_pages()?, "another store like it has the same page");
    Ok(())
}

/// The form's pages for a new ring and for one that is seen again are merged.
fn twin_pages() -> Result<String, Refused> {
    let mut store = Store::new();
    let [new, seen_again, _] = form::ring_form(&mut store)?;
    merged(&store, new, seen_again, &Ignore::LOCATIONS)
}

/// The page to file.
fn merged(store: &Store, left: OpId, right: OpId, ignore: &Ignore) -> Result<String, Refused> {
    let [mut mapping, mut back] = [Mapping::new(), Mapping::new()];
    assert!(operation_eq(store, &mut mapping, left, right, ignore)?.is_eq());
    assert!(operation_eq(store, &mut back, right, left, ignore)?.is_eq());
    let backwards = mapping.inverse().expect("no image comes twice");
    assert_eq!(backwards, back, "read backwards, it is what the comparison the other way gives");
    let key = operation_key(store, left, ignore)?;
    assert_eq!(key, operation_key(store, right, ignore)?, "equal, so filed in one place");

    let mut page = vec![format!("Operation {left} stands for operation {right}.")];
    page.push(format!("Ignored: {}", ignored(ignore)));
    // What a side defines is what has an entry: the left side here, and the right side backwards.
    for (title, op, mapping) in [("Left", left, &mapping), ("Right", right, &backwards)] {
        assert!(mapping.ops().map(|(defined, _)| defined).eq(inside(store, op)?), "all inside, and nothing else");
        page.push(format!("{title}: operation {op}, with all inside it"));
        for entry in mapping.entries() {
            page.push(format!("    {}", described(store, entry)?));
        }
    }
    for (title, mapping) in [("Left to right", &mapping), ("Right to left", &backwards)] {
        page.push(format!("{title}: {} entries", mapping.entries().count()));
        page.extend(mapping.entries().map(|entry| format!("    {}", in_words(entry))));
    }
    page.push(format!("Key of both: {} bytes", key.len()));
    page.extend(key.chunks(40).map(|row| format!("    {}", row.iter().map(|byte| format!("{byte:02x}")).collect::<String>())));
    Ok(page.join("\n"))
}

/// An operation and those inside it, by rising number.
fn inside(store: &Store, op: OpId) -> Result<BTreeSet<OpId>, Refused> {
    let mut ops = BTreeSet::from([op]);
    for region in store.operation(op)?.regions() {
        for block in store.region(region)?.blocks() {
            for inner in store.block(block)?.operations() {
                ops.extend(inside(store, inner)?);
            }
        }
    }
    Ok(ops)
}

fn ignored(ignore: &Ignore) -> String {
    let kinds: Vec<u32> = (0..64).filter(|kind| ignore.bits >> kind & 1 == 1).collect();
    let locations = if ignore.locations { "locations" } else { "no locations" };
    format!("{locations}; attributes of the kinds {kinds:?}, unless they are inherent")
}

fn in_words(entry: Entry) -> String {
    match entry {
        Entry::Value(left, right) => format!("value {left} corresponds to value {right}"),
        Entry::Block(left, right) => format!("block {left} corresponds to block {right}"),
        Entry::Op(left, right) => format!("operation {left} corresponds to operation {right}"),
    }
}

/// What stands on the left of an entry.
fn described(store: &Store, entry: Entry) -> Result<String, Refused> {
    Ok(match entry {
        Entry::Value(value, _) => {
            let view = store.value(value)?;
            let owner = match view.owner() {
                Owner::Op(op) => format!("result {} of operation {op}", view.place()),
                Owner::Block(block) => format!("argument {} of block {block}", view.place()),
            };
            format!("value {value}: {owner}, type {}", view.get_type())
        }
        Entry::Block(block, _) => {
            let view = store.block(block)?;
            let op = store.region(view.region())?.operation();
            format!("block {block}: in operation {op}, location {}{}", view.location(), attributes(view.attributes()))
        }
        Entry::Op(op, _) => {
            let view = store.operation(op)?;
            let parent = view.parent().map_or("no block".to_string(), |block| format!("block {block}"));
            let (operands, successors): (Vec<_>, Vec<_>) = (view.operands().collect(), view.successors().collect());
            let own = format!("in {parent}, kind {}, location {}, regions {}", view.kind(), view.location(), view.regions().len());
            format!("operation {op}: {own}, operands {operands:?}, successors {successors:?}{}", attributes(view.attributes()))
        }
    })
}

fn attributes(all: impl Iterator<Item = Attribute>) -> String {
    let flag = |inherent| match inherent {
        Inherent::No => "not inherent",
        Inherent::Yes => "inherent",
    };
    all.map(|a| format!(", attribute {} (kind {}, content {}, {})", a.key, a.kind, a.content, flag(a.inherent))).collect()
}
