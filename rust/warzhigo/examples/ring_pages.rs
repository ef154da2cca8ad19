//! The ring pages of `examples/ring_pages`, by calls: the same form and the same questions as in its listing. In the listing the length rules are
//! attributes that are not inherent (`a` lines), so its last question ignores them, and merges two pages that differ in them. Here the rules are
//! inherent, as `i` lines would make them: the other answers are the same, and no ignore rule merges these two.
//!
//! The listing is of edition 2. The older one beside it, of edition 1, has labels, and is converted to it.
//!
//!     cargo run --offline --example ring_pages

mod form;

use warzhigo::{Ignore, Mapping, Refused, Store, convert, operation_eq, operation_hash, twins};

const LISTING: &[u8] = include_bytes!("../../../examples/ring_pages/listing");
const EDITION_1: &[u8] = include_bytes!("../../../examples/ring_pages/edition_1");
const PRINTED: &str = include_str!("../../../examples/ring_pages/twins");

fn main() -> Result<(), Refused> {
    let mut store = Store::new();
    let [new, seen_again, foreign] = form::ring_form(&mut store)?;
    let questions = [
        ("a new ring, a ring seen again; locations ignored", new, seen_again, Ignore::LOCATIONS),
        ("the same, and locations count", new, seen_again, Ignore::NOTHING),
        ("a new ring, a foreign ring; locations ignored", new, foreign, Ignore::LOCATIONS),
        ("the same, and attributes of the length rules' kind too", new, foreign, Ignore::LOCATIONS.and_kind(form::LENGTH)),
        ("the same, and all else that can be ignored", new, foreign, Ignore { locations: true, bits: u64::MAX }),
    ];
    let mut mapping = Mapping::new();
    let mut answers = Vec::new();
    for (words, lhs, rhs, ignore) in questions {
        let answer = operation_eq(&store, &mut mapping, lhs, rhs, &ignore)?;
        let [left, right] = [operation_hash(&store, lhs, &ignore)?, operation_hash(&store, rhs, &ignore)?];
        println!("{words}:\n    {answer}  {left:016x} {right:016x}  {mapping:?}");
        answers.push(answer.to_string());
        mapping.clear();
    }
    assert_eq!(twins(LISTING), PRINTED.as_bytes());
    assert_eq!(convert(EDITION_1), LISTING);
    assert_eq!(twins(EDITION_1), PRINTED.as_bytes());
    let printed: Vec<&str> = PRINTED.lines().collect();
    assert_eq!(answers[..3], printed[..3]);
    assert_eq!(printed[3], "eq,-,-,4");
    assert_eq!(answers[3..], ["op,3,9,3"; 2]);
    let inherent = String::from_utf8_lossy(LISTING).replace("\na,", "\ni,");
    let printed = String::from_utf8(twins(inherent.as_bytes())).expect("text");
    assert_eq!(answers[..4], printed.lines().take(4).collect::<Vec<_>>());
    Ok(())
}
