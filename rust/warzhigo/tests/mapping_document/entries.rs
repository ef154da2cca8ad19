//! What mappings of comparisons tell, of small stores.

use warzhigo::*;

use crate::{Page, clears, compared, filed, page, page_of, pages, plain, result, written};

/// The entries of two pages, as an operation, a block or a region: blocks and regions without the outer operation.
fn expected(left: &Page, right: &Page, whole: bool) -> Vec<Entry> {
    let values = [0, 1].map(|i| Entry::Value(left.values[i], right.values[i]));
    let ops = [0, 1].map(|i| Entry::Op(left.ops[i], right.ops[i]));
    let ops = if whole { &ops[..] } else { &ops[1..] };
    [&values[..], &[Entry::Block(left.block, right.block)], ops].concat()
}

/// The mappings of two equal pages as operations, as blocks and as regions.
fn all_sorts(store: &Store, left: &Page, right: &Page, options: Options) -> [Mapping; 3] {
    let mut mappings = [Mapping::new(), Mapping::new(), Mapping::new()];
    let answers = [
        operation_eq(store, &mut mappings[0], left.ops[0], right.ops[0], options),
        basic_block_eq(store, &mut mappings[1], left.block, right.block, options),
        region_eq(store, &mut mappings[2], left.region, right.region, options),
    ];
    assert!(answers.iter().all(|answer| answer.unwrap().is_eq()));
    mappings
}

/// Statements 1 to 3 and the identity, of three pages that are equal under these options.
fn hold(store: &Store, pages: [&Page; 3], options: Options) {
    let [left, middle, right] = pages;
    let mapped = |l, r| all_sorts(store, l, r, options);
    let whole = mapped(left, right);
    for (i, mapping) in whole.iter().enumerate() {
        assert_eq!(mapping.entries().collect::<Vec<_>>(), expected(left, right, i == 0));
        assert_eq!(mapping.inverse().as_ref(), Some(&mapped(right, left)[i]));
        assert_eq!(mapping.inverse().unwrap().inverse().as_ref(), Some(mapping));
        assert_eq!(mapped(left, middle)[i].then(&mapped(middle, right)[i]).as_ref(), Ok(mapping));
        let own = &mapped(left, left)[i];
        assert_eq!(own.entries().collect::<Vec<_>>(), expected(left, left, i == 0));
        assert_eq!(mapping.then(&mapping.inverse().unwrap()).as_ref(), Ok(own));
        clears(mapping.inverse().unwrap());
        clears(own.then(mapping).unwrap());
    }
}

#[test]
fn pages_that_are_alike() {
    let mut store = Store::new();
    let three: [Page; 3] = pages(&mut store);
    for [l, m, r] in [[0, 1, 2], [2, 0, 1], [1, 1, 0], [0, 2, 2], [0, 1, 0], [1, 1, 1]] {
        hold(&store, [&three[l], &three[m], &three[r]], Options::default());
    }
}

#[test]
fn pages_that_are_equal_by_what_is_looked_past() {
    let mut store = Store::new();
    let three = [(1, 3), (2, 4), (3, 5)].map(|(location, ty)| page_of(&mut store, location, ty));
    let types = Renamed::new(&[(3, 5), (4, 5)]).unwrap();
    assert!(!compared(&store, three[0].ops[0], three[2].ops[0]).1);
    hold(&store, [&three[0], &three[1], &three[2]], Options { ignore: Ignore::LOCATIONS, types: &types });
}

/// By sort, each by rising left number, however they correspond.
#[test]
fn entries_in_their_order() {
    let mut store = Store::new();
    let [a, b] = pages(&mut store);
    let mut mapping = filed(&store, b.ops[0], b.ops[0]);
    operation_eq(&store, &mut mapping, a.ops[0], b.ops[0], &Ignore::NOTHING).unwrap();
    assert_eq!(written(&mapping), "v0>2 v1>3 v2>2 v3>3 b0>1 b1>1 o0>2 o1>3 o2>2 o3>3");
    assert_eq!(format!("{:?}", mapping.entries().last()), "Some(Op(o3, o3))");
}

/// Left is 0, middle 1 and right 0 again: entries compose, and images don't, since what has no entry is its own image.
#[test]
fn entries_and_not_images() {
    let (store, [a, b]) = plain([0, 0]);
    let (forth, back, whole) = (filed(&store, a, b), filed(&store, b, a), filed(&store, a, a));
    assert_eq!([&forth, &back, &whole].map(written), ["v0>1 o0>1", "v1>0 o1>0", "v0>0 o0>0"]);
    assert_eq!(forth.then(&back), Ok(whole.clone()));
    let of_b = result(&store, b);
    assert_eq!(back.lookup_value_or_default(forth.lookup_value_or_default(of_b)), result(&store, a));
    assert_eq!(whole.lookup_value_or_default(of_b), of_b);
    assert_eq!([&forth, &whole].map(|mapping| mapping.lookup_op(b)), [None; 2]);
    assert!(forth.then(&forth).unwrap().is_empty(), "what the middle defines is nothing that the left does");
}

/// Operations alike with a result and a block each, of which each names the result of one, by its place; and their blocks.
fn tangled<const N: usize>(named: [usize; N]) -> (Store, [OpId; N], [BlockId; N]) {
    let mut store = Store::new();
    let first = store.new_operation(&NewOperation { kind: 1, result_types: &[3], ..Default::default() }).unwrap();
    let operands = [result(&store, first)];
    let new = NewOperation { kind: 2, regions: 1, result_types: &[3], operands: &operands, ..Default::default() };
    let ops = [(); N].map(|()| store.new_operation(&new).unwrap());
    for (op, place) in ops.into_iter().zip(named) {
        store.set_operand(op, 0, result(&store, ops[place])).unwrap();
    }
    let regions = ops.map(|op| store.operation(op).unwrap().regions().next().unwrap());
    let blocks = regions.map(|region| store.new_block(region, 0, &[]).unwrap());
    (store, ops, blocks)
}

/// Both operations name the result of the second: equal one way only.
#[test]
fn backwards_without_an_equal_comparison() {
    let (mut store, [l, r], [_, in_r]) = tangled([1, 1]);
    let [(forth, equal), (back, equal_back)] = [compared(&store, l, r), compared(&store, r, l)];
    assert_eq!((equal, equal_back), (true, false));
    assert_eq!([&forth, &back].map(written), ["v1>2 b0>1 o1>2", "v2>1 o2>1"]);
    assert_ne!(forth.inverse(), Some(back));
    // and where neither way is equal, since one has an operation more
    store.new_operation(&NewOperation { kind: 3, parent: Some(in_r), ..Default::default() }).unwrap();
    let [(forth, equal), (back, equal_back)] = [compared(&store, l, r), compared(&store, r, l)];
    assert_eq!((equal, equal_back), (false, false));
    assert_eq!([&forth, &back].map(written), ["v1>2 b0>1 o1>2", "v2>1 o2>1"]);
    assert_ne!(forth.inverse(), Some(back));
}

/// The first two name the result of the second, and the third its own: left and middle are equal, and middle and right, and left and right
/// are not.
#[test]
fn followed_without_an_equal_comparison() {
    let (store, [l, m, r], _) = tangled([1, 1, 2]);
    let both = filed(&store, l, m).then(&filed(&store, m, r)).unwrap();
    let (whole, equal) = compared(&store, l, r);
    assert_eq!((equal, written(&both).as_str(), written(&whole).as_str()), (false, "v1>3 b0>2 o1>3", "v1>3 o1>3"));
    assert_ne!(both, whole);
}

/// It keeps the entries that were made before the difference, and leaves some of what either side defines without.
#[test]
fn an_unequal_comparison() {
    let mut store = Store::new();
    let [left, right] = pages(&mut store);
    store.set_operand(right.ops[1], 0, left.values[0]).unwrap();
    let (mapping, equal) = compared(&store, left.ops[0], right.ops[0]);
    assert_eq!((equal, written(&mapping).as_str()), (false, "v0>2 v1>3 b0>1 o0>2 o1>3"));
    let other = NewOperation { kind: 9, parent: Some(left.block), ..Default::default() };
    let other = store.new_operation(&other).unwrap();
    let (mapping, equal) = compared(&store, left.ops[0], right.ops[0]);
    assert_eq!((equal, mapping.lookup_op(other)), (false, None), "{other:?} is defined, and has no entry");
    assert_eq!(written(&mapping), "v0>2 v1>3 b0>1 o0>2 o1>3");
    assert_eq!(written(&mapping.inverse().unwrap()), "v2>0 v3>1 b1>0 o2>0 o3>1");
    assert!(compared(&store, left.ops[0], left.ops[1]).0.is_empty());
    clears(mapping);
}

/// A comparison from a mapping that isn't empty may leave more than the fragments define.
#[test]
fn from_a_mapping_with_entries() {
    let mut store = Store::new();
    let [first, second] = pages(&mut store);
    let third = page(&mut store);
    let mut mapping = filed(&store, first.ops[0], second.ops[0]);
    let answer = operation_eq(&store, &mut mapping, third.ops[0], second.ops[0], &Ignore::NOTHING).unwrap();
    assert!(answer.is_eq());
    assert_eq!(written(&mapping), "v0>2 v1>3 v4>2 v5>3 b0>1 b2>1 o0>2 o1>3 o4>2 o5>3");
    assert_eq!(mapping.inverse(), None);
    clears(mapping);
}

/// Regions without blocks are equal, and define nothing.
#[test]
fn nothing_defined() {
    let mut store = Store::new();
    let op = store.new_operation(&NewOperation { regions: 2, ..Default::default() }).unwrap();
    let regions: Vec<RegionId> = store.operation(op).unwrap().regions().collect();
    let mut mapping = Mapping::new();
    assert!(region_eq(&store, &mut mapping, regions[0], regions[1], &Ignore::NOTHING).unwrap().is_eq());
    assert_eq!((mapping.entries().count(), mapping.inverse(), mapping.then(&mapping)), (0, Some(Mapping::new()), Ok(Mapping::new())));
}
