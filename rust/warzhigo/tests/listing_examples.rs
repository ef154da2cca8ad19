//! The examples of docs/LISTING.md: each listing, with the remarks behind its lines left out, gives the outputs in the table behind it; and the
//! converter prints for the listings in its table what stands beside them.

use warzhigo::{convert, sums, twins};

const DOCUMENT: &str = include_str!("../../../docs/LISTING.md");

/// The lines of a listing: what stands behind the first blank is said to the reader.
fn listing(block: &str) -> String {
    block.lines().map(|line| line.split(' ').next().unwrap()).map(|line| format!("{line}\n")).collect()
}

/// A column of a table's rows, without its empty cells, one to a line.
fn column(rows: &[Vec<&str>], i: usize) -> String {
    rows.iter().filter(|row| !row[i].is_empty()).map(|row| lines(row[i])).collect()
}

/// The lines in a cell.
fn lines(cell: &str) -> String {
    cell.split("<br>").map(|line| format!("{}\n", line.trim_matches('`'))).collect()
}

/// The rows of the table that a text begins with, if it has this head.
fn rows<'a>(text: &'a str, head: &str) -> Option<Vec<Vec<&'a str>>> {
    let rows = text.trim_start().strip_prefix(head)?.strip_prefix("\n|---|---|\n")?;
    let cells = |row: &'a str| row.trim_matches('|').split('|').map(str::trim).collect();
    Some(rows.lines().take_while(|line| line.starts_with('|')).map(cells).collect())
}

/// The table behind a listing, if it has both outputs.
fn outputs(text: &str) -> Option<[String; 2]> {
    let rows = rows(text, "| `twins` | `sums` |")?;
    Some([column(&rows, 0), column(&rows, 1)])
}

#[test]
fn every_example_gives_its_outputs() {
    let mut examples = 0;
    for part in DOCUMENT.split("```text\n").skip(1) {
        let (block, behind) = part.split_once("```").expect("a block ends");
        let Some([twins_print, sums_print]) = outputs(behind) else { continue };
        let listing = listing(block);
        assert_eq!(String::from_utf8(twins(listing.as_bytes())).unwrap(), twins_print, "{listing}");
        assert_eq!(String::from_utf8(sums(listing.as_bytes())).unwrap(), sums_print, "{listing}");
        examples += 1;
    }
    assert!(examples >= 8, "{examples} examples were found");
}

#[test]
fn every_listing_is_converted_as_its_table_says() {
    const HEAD: &str = "| Converted | Prints |";
    let (_, section) = DOCUMENT.split_once("\n## The converter\n").expect("the section");
    let table = section.find(HEAD).expect("the table");
    let rows = rows(&section[table..], HEAD).expect("its rows");
    for row in &rows {
        let [listing, printed] = [lines(row[0]), lines(row[1])];
        assert_eq!(String::from_utf8(convert(listing.as_bytes())).unwrap(), printed, "{listing}");
    }
    assert!(rows.len() >= 3, "{} listings were found", rows.len());
}
