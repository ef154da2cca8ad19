//! The page docs/BENCHMARK.md: page.md with what was measured in its places.

use std::fs;
use std::process::Command;

use crate::building::Built;
use crate::cases::{SIZES, Shape, each, two_fit};
use crate::checks::{Allowed, Soundness};
use crate::converting;
use crate::copying;
use crate::fragments::{Measured, Row, Times};
use crate::grouping;
use crate::keys;
use crate::marks;
use crate::programs;
use crate::race::{Effort, Figure};
use crate::renaming;
use crate::runs;
use crate::table::{Cell, Table, thousands};

/// All that was measured.
pub struct Results {
    pub efforts: Efforts,
    pub shapes: Vec<Row>,
    pub around: Vec<Measured>,
    pub keys: Vec<keys::Row>,
    pub lists: Vec<renaming::Times>,
    pub runs: Vec<runs::Row>,
    pub twins: Vec<grouping::Row>,
    pub calls: Vec<Built>,
    pub stores: Vec<Built>,
    pub copies: Vec<copying::Row>,
    pub soundness: Vec<Soundness>,
    pub allowed: Vec<Allowed>,
    pub emptying: Vec<(String, [Figure; 3])>,
    pub marks: marks::Rows,
    pub programs: Vec<programs::Row>,
    pub conversions: Vec<converting::Row>,
}

/// How much was measured, by how long a run takes.
#[derive(Clone, Copy)]
pub struct Efforts {
    /// How often everything is measured.
    pub passes: u32,
    /// Comparisons, hashes, keys and tests.
    pub short: Effort,
    /// Stores that are built, copied in, or changed and gone back on, mappings that are filled to be emptied, blocks that are searched for runs,
    /// stores that are searched for twins, and listings that are converted.
    pub middle: Effort,
    /// Listings that are answered.
    pub long: Effort,
}

/// The whole page.
pub fn page(results: &Results) -> String {
    let Efforts { passes, short, middle, long } = results.efforts;
    let rounds = |effort: Effort| (passes * effort.rounds).to_string();
    let (shapes, hashed) = (&results.shapes, |shape| shape != Shape::Unequal);
    let places: [(&str, String); 35] = [
        ("processor", processor()),
        ("compiler", compiler()),
        ("short rounds", rounds(short)),
        ("middle rounds", rounds(middle)),
        ("long rounds", rounds(long)),
        ("in short", in_short(results).to_string()),
        ("attributes", with_each("attributes", |n| each(Shape::Attributes, n).attributes)),
        ("operands", with_each("operands", |n| each(Shape::Operands, n).operands)),
        ("comparison inner", ratios(shapes, |_| true, |m| m.comparison.inner_ratio()).to_string()),
        ("comparison fresh", ratios(shapes, |_| true, Measured::fresh_ratio).to_string()),
        ("comparison offered", ratios(shapes, |_| true, |m| m.comparison.offered_ratio()).to_string()),
        ("hash inner", ratios(shapes, hashed, |m| m.hash.inner_ratio()).to_string()),
        ("hash offered", ratios(shapes, hashed, |m| m.hash.offered_ratio()).to_string()),
        ("flat nanoseconds", flat_nanos(&shapes[0]).to_string()),
        ("around", around(&results.around).to_string()),
        ("keys", key_ratios(&results.keys, keys::Times::ratio).to_string()),
        ("roomy keys", key_ratios(&results.keys, keys::Times::roomy_ratio).to_string()),
        ("extents", key_ratios(&results.keys, keys::Times::extent_ratio).to_string()),
        ("flat keys", flat_keys(&results.keys[0]).to_string()),
        ("lists", lists(&results.lists).to_string()),
        ("runs", repeated(&results.runs).to_string()),
        ("twins", twins(&results.twins).to_string()),
        ("calls", building("One sort", &results.calls).to_string()),
        ("stores", building("Whole store", &results.stores).to_string()),
        ("copies inner", copies(&results.copies, Times::inner_ratio).to_string()),
        ("copies offered", copies(&results.copies, Times::offered_ratio).to_string()),
        ("flat copies", flat_copies(&results.copies[0]).to_string()),
        ("soundness", soundness(&results.soundness).to_string()),
        ("allowed", allowed(&results.allowed).to_string()),
        ("emptying", emptying(&results.emptying).to_string()),
        ("marks", trips(&results.marks).to_string()),
        ("marked calls", marked_calls(&results.marks).to_string()),
        ("marked soundness", marked_soundness(&results.marks).to_string()),
        ("programs", programs(&results.programs).to_string()),
        ("conversions", conversions(&results.conversions).to_string()),
    ];
    filled(include_str!("page.md"), &places)
}

/// The text with every place, a name in braces, filled.
fn filled(text: &str, places: &[(&str, String)]) -> String {
    let page = places.iter().fold(text.to_string(), |page, (name, filling)| {
        let place = format!("{{{name}}}");
        assert!(page.contains(&place), "page.md has no place for {name}");
        page.replace(&place, filling)
    });
    assert!(!page.contains(['{', '}']), "page.md has a place that nothing fills");
    page
}

fn processor() -> String {
    let info = fs::read_to_string("/proc/cpuinfo").unwrap_or_default();
    let mut names = info.lines().filter_map(|line| line.strip_prefix("model name")?.split_once(": "));
    names.next().map_or("unknown".to_string(), |(_, name)| name.trim().to_string())
}

fn compiler() -> String {
    let output = Command::new("rustc").arg("--version").output();
    let version = output.map(|output| String::from_utf8_lossy(&output.stdout).trim().to_string());
    version.ok().filter(|version| !version.is_empty()).unwrap_or("unknown".to_string())
}

/// The least and the most of each kind of ratio.
fn in_short(results: &Results) -> Table {
    let equal = |ratio: Ratio| of_shapes(&results.shapes, |shape| shape != Shape::Unequal, ratio);
    let unequal = |ratio: Ratio| of_shapes(&results.shapes, |shape| shape == Shape::Unequal, ratio);
    let built = |ratio: fn(Times) -> Figure| results.calls.iter().map(|built| ratio(built.times)).collect();
    let copied = |ratio: fn(Times) -> Figure| results.copies.iter().flat_map(|row| &row.sizes).map(|times| ratio(*times)).collect();
    let grouped = |ratio: fn(Times) -> Figure| results.twins.iter().map(|row| ratio(row.times)).collect();
    let rows: [(&str, Vec<Figure>); 16] = [
        ("comparison of equal fragments, inner", equal(|m| m.comparison.inner_ratio())),
        ("comparison of equal fragments, inner, a fresh `Mapping` for each", equal(Measured::fresh_ratio)),
        ("comparison of equal fragments, offered", equal(|m| m.comparison.offered_ratio())),
        ("comparison, unequal at first sight, inner", unequal(|m| m.comparison.inner_ratio())),
        ("comparison, unequal at first sight, inner, a fresh `Mapping` for each", unequal(Measured::fresh_ratio)),
        ("comparison, unequal at first sight, offered", unequal(|m| m.comparison.offered_ratio())),
        ("hash, inner", equal(|m| m.hash.inner_ratio())),
        ("hash, offered", equal(|m| m.hash.offered_ratio())),
        ("a building call, inner", built(Times::inner_ratio)),
        ("a building call, offered", built(Times::offered_ratio)),
        ("a copy, inner", copied(Times::inner_ratio)),
        ("a copy, offered", copied(Times::offered_ratio)),
        ("the twins of a store, inner", grouped(Times::inner_ratio)),
        ("the twins of a store, offered", grouped(Times::offered_ratio)),
        ("`twins` on a listing", results.programs.iter().map(|row| row.twins.ratio()).collect()),
        ("`sums` on a listing", results.programs.iter().map(|row| row.sums.ratio()).collect()),
    ];
    let mut table = Table::new(["Ratio ours / pliron's", "least", "middle", "most"]);
    for (name, mut ratios) in rows {
        ratios.sort_by(|a, b| a.value.total_cmp(&b.value));
        let spread = ratios.iter().fold(0.0, |spread: f64, ratio| spread.max(ratio.spread));
        table.row(name, [0, ratios.len() / 2, ratios.len() - 1].map(|i| Figure { spread, ..ratios[i] }));
    }
    table
}

/// A number of what was measured.
type Of<T> = fn(&T) -> Figure;
type Ratio = Of<Measured>;

fn of_shapes(rows: &[Row], wanted: fn(Shape) -> bool, ratio: Ratio) -> Vec<Figure> {
    rows.iter().filter(|row| wanted(row.shape)).flat_map(|row| &row.sizes).map(ratio).collect()
}

/// How many each operation has, and where it has fewer.
fn with_each(name: &str, count: impl Fn(u32) -> u32) -> String {
    let most = count(SIZES[0]);
    let fewer = SIZES.into_iter().filter(|n| count(*n) < most).map(|n| format!(", {} at {n}", count(n)));
    format!("{most} {name} each{}", fewer.collect::<String>())
}

/// A table with a column for each size.
fn by_size(name: &str, size: fn(u32) -> String) -> Table {
    Table::new([name.to_string()].into_iter().chain(SIZES.map(size)))
}

fn ratios(rows: &[Row], wanted: fn(Shape) -> bool, ratio: Ratio) -> Table {
    let mut table = by_size("Shape", |n| if two_fit(n) { n.to_string() } else { format!("{n}*") });
    for row in rows.iter().filter(|row| wanted(row.shape)) {
        table.row(row.shape.name(), row.sizes.iter().map(ratio));
    }
    table
}

fn flat_nanos(row: &Row) -> Table {
    let mut table = by_size("ns", |n| n.to_string());
    let rows: [(&str, Ratio); 7] = [
        ("comparison, inner", |m| m.comparison.inner),
        ("comparison, inner, a fresh `Mapping`", |m| m.fresh),
        ("comparison, offered", |m| m.comparison.offered),
        ("comparison, pliron", |m| m.comparison.pliron),
        ("hash, inner", |m| m.hash.inner),
        ("hash, offered", |m| m.hash.offered),
        ("hash, pliron", |m| m.hash.pliron),
    ];
    for (name, nanos) in rows {
        table.row(name, row.sizes.iter().map(nanos));
    }
    table
}

fn key_ratios(rows: &[keys::Row], ratio: Of<keys::Times>) -> Table {
    let mut table = by_size("Shape", |n| n.to_string());
    for row in rows {
        table.row(row.shape.name(), row.sizes.iter().map(ratio));
    }
    table
}

fn flat_keys(row: &keys::Row) -> Table {
    let mut table = by_size("ns", |n| n.to_string());
    table.row("bytes of the key", row.sizes.iter().map(|times| thousands(times.length as u64)));
    let rows: [(&str, Of<keys::Times>); 7] = [
        ("hash, inner", |times| times.hash),
        ("key in lent bytes, inner", |times| times.inner),
        ("key in 78,344 lent bytes, inner", |times| times.roomy),
        ("key in lent bytes, offered", |times| times.offered),
        ("key in bytes of its own", |times| times.allocated),
        ("how large the key will be", |times| times.extent),
        ("two keys compared", |times| times.compared),
    ];
    for (name, nanos) in rows {
        table.row(name, row.sizes.iter().map(nanos));
    }
    table
}

fn lists(sizes: &[renaming::Times]) -> Table {
    let mut table = Table::new(["ns".to_string()].into_iter().chain(renaming::sizes().map(|n| n.to_string())));
    let rows: [(&str, Of<renaming::Times>); 11] = [
        ("comparison, no list", |times| times.comparison),
        ("comparison, no list, a fresh `Mapping`", |times| times.comparison_fresh),
        ("comparison, no type differs", |times| times.comparison_same),
        ("comparison, every type differs", |times| times.comparison_other),
        ("hash, no list", |times| times.hash),
        ("hash, every type renamed", |times| times.hash_listed),
        ("key, no list", |times| times.key),
        ("key, every type renamed", |times| times.key_listed),
        ("offered hash, no list", |times| times.offered),
        ("offered hash, 64 rows lent", |times| times.offered_listed),
        ("`Renamed::from_words`, 64 rows", |times| times.made),
    ];
    for (name, nanos) in rows {
        table.row(name, sizes.iter().map(nanos));
    }
    table
}

fn repeated(rows: &[runs::Row]) -> Table {
    let lengths = runs::LENGTHS.iter().flat_map(|length| [format!("{length}, µs"), "plain".to_string()]);
    let mut table = Table::new(["Block".to_string()].into_iter().chain(lengths));
    for row in rows {
        let micros = row.nanos.iter().flatten().map(|nanos| *nanos / 1000.0);
        table.row(format!("{} operations, {}", row.size, row.filling.name()), micros);
    }
    table
}

fn twins(rows: &[grouping::Row]) -> Table {
    let columns = ["inner µs", "offered µs", "pliron µs", "inner ratio", "offered ratio", "pliron µs, default hasher"];
    let mut table = Table::new([format!("{} operations", grouping::OPERATIONS)].into_iter().chain(columns.map(str::to_string)));
    for row in rows {
        table.row(row.name, sides(row.times, 1000).into_iter().chain([row.by_default / 1000.0]));
    }
    table
}

/// The head of a table with all sides.
const SIDES: [&str; 5] = ["inner ns", "offered ns", "pliron ns", "inner ratio", "offered ratio"];

/// Nanoseconds on all sides for each of so many, and the ratios.
fn sides(times: Times, count: usize) -> [Figure; 5] {
    let each = |nanos: Figure| nanos / count as f64;
    [each(times.inner), each(times.offered), each(times.pliron), times.inner_ratio(), times.offered_ratio()]
}

fn around(around: &[Measured]) -> Table {
    let mut table = Table::new(["Two of flat 20"].into_iter().chain(SIDES));
    for (measured, store) in around.iter().zip(["with nothing else", "in the middle of 512 operations"]) {
        table.row(format!("comparison, {store}"), sides(measured.comparison, 1));
        let (none, pliron) = (|| Cell::Text(String::new()), measured.comparison.pliron);
        let fresh = [measured.fresh.into(), none(), pliron.into(), measured.fresh_ratio().into(), none()];
        table.row(format!("comparison, a fresh `Mapping`, {store}"), fresh);
        table.row(format!("hash, {store}"), sides(measured.hash, 1));
    }
    table
}

fn building(name: &str, rows: &[Built]) -> Table {
    let mut table = Table::new([name, "calls"].into_iter().chain(SIDES));
    for built in rows {
        let calls = [Cell::Text(thousands(built.calls as u64))];
        table.row(built.name, calls.into_iter().chain(sides(built.times, built.calls).map(Cell::Figure)));
    }
    table
}

/// A table with a column for each size that is copied.
fn by_copied_size(name: &str) -> Table {
    Table::new([name.to_string()].into_iter().chain(copying::SIZES.map(|n| n.to_string())))
}

fn copies(rows: &[copying::Row], ratio: fn(Times) -> Figure) -> Table {
    let mut table = by_copied_size("Shape");
    for row in rows {
        table.row(row.shape.name(), row.sizes.iter().map(|times| ratio(*times)));
    }
    table
}

fn flat_copies(row: &copying::Row) -> Table {
    let mut table = by_copied_size("ns");
    let rows: [(&str, Of<Times>); 3] =
        [("copy, inner", |times| times.inner), ("copy, offered", |times| times.offered), ("copy, pliron", |times| times.pliron)];
    for (name, nanos) in rows {
        table.row(name, row.sizes.iter().map(nanos));
    }
    table
}

fn soundness(rows: &[Soundness]) -> Table {
    let mut table = Table::new(["`lent::is_sound`", "words in use", "ns", "ns / word"]);
    for row in rows {
        let each = row.nanos / f64::from(row.live);
        table.row(&row.name, [thousands(row.live.into()).into(), Cell::Figure(row.nanos), each.into()]);
    }
    table
}

fn allowed(rows: &[Allowed]) -> Table {
    let mut table =
        Table::new(["Mapping", "refused call, ns", "of which the store, ns", "so the mapping, ns", "`Mapping::from_words`, ns"]);
    for row in rows {
        table.row(&row.name, [row.call, row.sound, row.call - row.sound, row.from_words]);
    }
    table
}

fn emptying(rows: &[(String, [Figure; 3])]) -> Table {
    let columns = ["Emptying after a comparison of", "all 2,816 words, ns", "`Mapping::clear`, ns", "a `Mapping` made and dropped, ns"];
    let mut table = Table::new(columns);
    for (name, times) in rows {
        table.row(name, *times);
    }
    table
}

fn trips(rows: &marks::Rows) -> Table {
    let mut table = Table::new(["A mark set and gone back to", "inner ns", "offered ns", "all words copied, ns"]);
    for (name, nanos) in &rows.trips {
        table.row(name, *nanos);
    }
    table
}

fn marked_calls(rows: &marks::Rows) -> Table {
    let mut table = Table::new(["One sort, inner", "calls", "without a mark, ns", "with a mark, ns"]);
    for (name, calls, nanos) in &rows.calls {
        table.row(name, [Cell::Text(thousands(*calls as u64))].into_iter().chain(nanos.map(Cell::Figure)));
    }
    table
}

fn marked_soundness(rows: &marks::Rows) -> Table {
    let mut table = Table::new(["`lent::is_sound`", "no mark, ns", "1 mark, ns", "8 marks, ns"]);
    for (name, nanos) in &rows.soundness {
        table.row(name, *nanos);
    }
    table
}

fn programs(rows: &[programs::Row]) -> Table {
    let mut table = Table::new(["Listing", "questions", "twins ms", "pliron ms", "twins ratio", "sums ms", "pliron ms", "sums ratio"]);
    for row in rows {
        let questions = [Cell::Text(thousands(row.questions as u64))];
        let times = [&row.twins, &row.sums].into_iter().flat_map(|program| beside(program, 1e6));
        table.row(row.name, questions.into_iter().chain(times.map(Cell::Figure)));
    }
    table
}

fn conversions(rows: &[converting::Row]) -> Table {
    let columns = ["to edition 1, µs", "plain µs", "ratio", "to edition 2, µs", "plain µs", "ratio"];
    let mut table = Table::new(["Listing"].into_iter().chain(columns));
    for row in rows {
        table.row(row.name, [&row.to_first, &row.to_second].into_iter().flat_map(|program| beside(program, 1e3)));
    }
    table
}

/// Ours, what stands beside it, and the ratio, in so many nanoseconds.
fn beside(program: &programs::Program, unit: f64) -> [Figure; 3] {
    [program.ours / unit, program.other / unit, program.ratio()]
}
