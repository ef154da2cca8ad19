//! Repeated runs inside a block.

use warzhigo::{Attribute, BlockId, Ignore, Inherent, NewOperation, OpId, Refused, Renamed, Run, Store, ValueId, lent};

const EVERYTHING: &Ignore = &Ignore::NOTHING;

/// A store with an operation and a block in it, which is filled.
struct Page {
    store: Store,
    block: BlockId,
}

impl Page {
    fn new() -> Page {
        let mut store = Store::new();
        let form = store.new_operation(&NewOperation { kind: 7, regions: 1, ..Default::default() }).unwrap();
        let region = store.operation(form).unwrap().regions().next().unwrap();
        let block = store.new_block(region, 0, &[3]).unwrap();
        Page { store, block }
    }

    /// So many alike.
    fn alike(count: u32) -> Page {
        let mut page = Page::new();
        for _ in 0..count {
            page.add(8, &[]);
        }
        page
    }

    fn argument(&self) -> ValueId {
        self.store.block(self.block).unwrap().arguments().next().unwrap()
    }

    /// An operation of this kind with these operands, and its result.
    fn add(&mut self, kind: u32, operands: &[ValueId]) -> (OpId, ValueId) {
        let new = NewOperation { kind, parent: Some(self.block), result_types: &[5], operands, ..Default::default() };
        let op = self.store.new_operation(&new).unwrap();
        (op, self.store.operation(op).unwrap().results().next().unwrap())
    }

    fn runs(&self, length: u32) -> Option<Run> {
        self.runs_under(length, EVERYTHING)
    }

    fn runs_under(&self, length: u32, ignore: &Ignore) -> Option<Run> {
        let found = self.store.repeated_run(self.block, length, ignore).unwrap();
        assert_eq!(lent::repeated_run(self.store.words(), &[], self.block.number(), length, ignore), Ok(found));
        found
    }
}

fn run(left: u32, right: u32) -> Option<Run> {
    Some(Run { left, right })
}

#[test]
fn runs_that_use_their_own_results() {
    let mut page = Page::new();
    for _ in 0..2 {
        let (_, typed) = page.add(8, &[page.argument()]);
        page.add(9, &[typed]);
    }
    assert_eq!(page.runs(2), run(0, 2));
    // alone, the second operations name different values
    assert_eq!(page.runs(1), run(0, 2));
    assert_eq!(page.runs(3), None);
}

#[test]
fn runs_do_not_overlap() {
    assert_eq!(Page::alike(3).runs(2), None);
    assert_eq!(Page::alike(4).runs(2), run(0, 2));
    assert_eq!(Page::alike(2).runs(1), run(0, 1));
    assert_eq!(Page::alike(1).runs(1), None);
    assert_eq!(Page::alike(0).runs(1), None);
}

#[test]
fn the_smallest_right_start_wins_then_the_smallest_left() {
    let mut page = Page::new();
    for kind in [1, 2, 3, 2, 1] {
        page.add(kind, &[]);
    }
    assert_eq!(page.runs(1), run(1, 3));
    let mut page = Page::new();
    for kind in [1, 1, 2, 1] {
        page.add(kind, &[]);
    }
    assert_eq!(page.runs(1), run(0, 1));
    assert_eq!(page.runs(2), None);
}

/// The sums of all windows agree, since shells are alike, and the names don't.
#[test]
fn a_sum_that_agrees_is_no_run_yet() {
    let mut page = Page::new();
    let first = page.add(1, &[]).1;
    let second = page.add(2, &[]).1;
    for operand in [first, second, page.argument(), second] {
        page.add(9, &[operand]);
    }
    assert_eq!(page.runs(1), run(3, 5));
    assert_eq!(page.runs(2), None);
}

/// Each names the later one's result: from the earlier one on the left its own entry makes that the later one's, and the other way it is its own.
#[test]
fn runs_that_name_each_other_are_found_one_way() {
    let mut page = Page::new();
    let (first, own) = page.add(9, &[page.argument()]);
    let (second, other) = page.add(9, &[page.argument()]);
    page.store.set_operand(first, 0, other).unwrap();
    page.store.set_operand(second, 0, other).unwrap();
    assert_eq!(page.runs(1), run(0, 1));
    page.store.set_operand(first, 0, own).unwrap();
    page.store.set_operand(second, 0, own).unwrap();
    assert_eq!(page.runs(1), None);
}

#[test]
fn nested_regions_count() {
    let mut page = Page::new();
    for inner in [4, 5, 4] {
        let outer = NewOperation { kind: 8, parent: Some(page.block), regions: 1, ..Default::default() };
        let outer = page.store.new_operation(&outer).unwrap();
        let region = page.store.operation(outer).unwrap().regions().next().unwrap();
        let block = page.store.new_block(region, 0, &[]).unwrap();
        page.store.new_operation(&NewOperation { kind: inner, parent: Some(block), ..Default::default() }).unwrap();
    }
    assert_eq!(page.runs(1), run(0, 2));
}

/// Operations that are alike, each with an attribute of kind 3.
fn described(attributes: &[(u32, Inherent)]) -> Page {
    let mut page = Page::new();
    for (content, inherent) in attributes.iter().copied() {
        let (op, _) = page.add(8, &[]);
        page.store.set_attribute(op, Attribute { key: 1, kind: 3, content, inherent }).unwrap();
    }
    page
}

#[test]
fn inherent_attributes_count() {
    use Inherent::{No, Yes};
    for ignore in [EVERYTHING, &Ignore::NOTHING.and_kind(3), &Ignore { locations: true, bits: u64::MAX }] {
        assert_eq!(described(&[(1, Yes), (2, Yes)]).runs_under(1, ignore), None, "{ignore:?}");
        assert_eq!(described(&[(1, Yes), (1, No)]).runs_under(1, ignore), None, "{ignore:?}");
        assert_eq!(described(&[(1, No), (1, Yes), (1, Yes)]).runs_under(1, ignore), run(1, 2), "{ignore:?}");
        let twice = described(&[(1, Yes), (2, Yes), (1, Yes), (2, Yes)]);
        assert_eq!(twice.runs_under(2, ignore), run(0, 2), "{ignore:?}");
    }
}

#[test]
fn ignored_attributes_and_renamed_types_do_not_count() {
    let page = described(&[(1, Inherent::No), (2, Inherent::No)]);
    assert_eq!(page.runs(1), None);
    assert_eq!(page.runs_under(1, &Ignore::NOTHING.and_kind(3)), run(0, 1));
    let mut page = Page::new();
    for t in [5, 6] {
        let new = NewOperation { kind: 8, parent: Some(page.block), result_types: &[t], ..Default::default() };
        page.store.new_operation(&new).unwrap();
    }
    assert_eq!(page.runs(1), None);
    let types = Renamed::new(&[(5, 6)]).unwrap();
    assert_eq!(page.store.repeated_run(page.block, 1, (EVERYTHING, &types)), Ok(run(0, 1)));
    assert_eq!(lent::repeated_run(page.store.words(), &[5, 6], page.block.number(), 1, EVERYTHING), Ok(run(0, 1)));
}

#[test]
fn lengths() {
    let full = Page::alike(511);
    assert_eq!(full.runs(255), run(0, 255));
    assert_eq!(full.runs(256), None);
    assert_eq!(Page::alike(3).runs(200), None);
    let number = |found: Result<Option<Run>, Refused>| found.map_err(Refused::number);
    for length in [0, 257, u32::MAX] {
        assert_eq!(number(full.store.repeated_run(full.block, length, EVERYTHING)), Err(15), "{length}");
    }
    let words = full.store.words();
    assert_eq!(number(lent::repeated_run(words, &[], 1, 0, EVERYTHING)), Err(2), "2 before 15");
    assert_eq!(number(lent::repeated_run(words, &[1], 1, 0, EVERYTHING)), Err(14), "14 before 2");
    assert_eq!(number(lent::repeated_run(&words[1..], &[1], 1, 0, EVERYTHING)), Err(1), "1 before 14");
    let other = Page::new();
    assert_eq!(number(full.store.repeated_run(other.block, 1, EVERYTHING)), Err(2), "a block of another store");
}

/// The first operands differ, and yet the runs are equal: the left one is defined in the left run, behind the operation that names it.
#[test]
fn a_run_may_begin_with_a_name_of_its_own() {
    let mut page = Page::new();
    let ops: Vec<(OpId, ValueId)> = [9, 8, 9, 8].map(|kind| page.add(kind, &[page.argument()])).into();
    for (naming, named) in [(0, 1), (2, 3)] {
        page.store.set_operand(ops[naming].0, 0, ops[named].1).unwrap();
    }
    assert_eq!(page.runs(2), run(0, 2));
    assert_eq!(page.runs(1), run(1, 3));
    page.store.set_operand(ops[2].0, 0, ops[1].1).unwrap();
    assert_eq!(page.runs(2), None);
    page.store.set_operand(ops[0].0, 0, page.argument()).unwrap();
    assert_eq!(page.runs(2), None);
}

/// Blocks of 400 operations, in every length from 1 to 200.
#[test]
fn long_blocks() {
    const SIZE: u32 = 400;
    let alike = Page::alike(SIZE);
    let (mut period, mut names) = (Page::new(), Page::new());
    let mut named = names.argument();
    for i in 0..SIZE {
        period.add(i % 7, &[period.argument()]);
        // each names the one before it
        named = names.add(9, &[named]).1;
    }
    for length in 1..=SIZE / 2 {
        assert_eq!(alike.runs(length), run(0, length), "{length}");
        assert_eq!(names.runs(length), None, "{length}");
        let right = length.next_multiple_of(7);
        let expected = if right + length <= SIZE { run(0, right) } else { None };
        assert_eq!(period.runs(length), expected, "{length}");
    }
}

/// One operation of 400 is unlike the others: runs that have it are not repeated, wherever it stands.
#[test]
fn one_that_is_unlike() {
    for place in [0, 1, 199, 200, 398, 399] {
        let mut page = Page::new();
        for i in 0..400 {
            page.add(if i == place { 7 } else { 8 }, &[]);
        }
        for length in [1, 8, 64, 199, 200] {
            let starts = || (0..=400 - length).filter(|start| !(*start..start + length).contains(&place));
            let right = starts().find(|right| starts().any(|left| left + length <= *right));
            let left = right.and_then(|right| starts().find(|left| left + length <= right));
            assert_eq!(page.runs(length), left.zip(right).map(|(left, right)| Run { left, right }), "{place}, {length}");
        }
    }
}
