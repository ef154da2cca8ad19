//! Mappings of two stores, and of what has gone.

use warzhigo::*;

use crate::{Page, cause, clears, filed, page, pages, plain, written};

const ONE: MarkId = MarkId(1);

fn lend(store: &Store, mapping: &mut Mapping, page: &Page) -> Option<u32> {
    cause(operation_eq(store, mapping, page.ops[0], page.ops[0], &Ignore::NOTHING))
}

#[test]
fn mappings_of_two_stores_are_refused() {
    let ((store, [a, b]), (other, [l, r])) = (plain([1, 1]), plain([1, 1]));
    let clone = store.clone();
    let [of_a, of_b] = [a, b].map(|op| clone.op_id(op.number()).unwrap());
    let by_hand = |l, r| {
        let mut mapping = Mapping::new();
        mapping.map_op(l, r).unwrap();
        mapping
    };
    let ours = [filed(&store, a, b), by_hand(a, b)];
    let others = [filed(&other, l, r), by_hand(l, r), filed(&clone, of_a, of_b), by_hand(of_a, of_b)];
    for mapping in &ours {
        for other in &others {
            assert_eq!((cause(mapping.then(other)), cause(other.then(mapping))), (Some(8), Some(8)));
        }
        for own in &ours {
            assert!(mapping.then(own).unwrap().is_empty());
        }
    }
    assert_eq!(cause(others[0].then(&others[2])), Some(8));
}

/// Without entries a mapping is of no store, whatever it was lent to before.
#[test]
fn an_empty_mapping_is_anyones() {
    let ((store, [a, b]), (other, [l, r])) = (plain([1, 1]), plain([1, 1]));
    let (ours, mut cleared) = (filed(&store, a, b), filed(&other, l, r));
    assert_eq!(cause(ours.then(&cleared)), Some(8));
    cleared.clear();
    for both in [ours.then(&cleared), cleared.then(&ours)] {
        assert_eq!(both.as_ref(), Ok(&Mapping::new()));
        clears(both.unwrap());
    }
    cleared.map_op(b, a).unwrap();
    assert_eq!(written(&ours.then(&cleared).unwrap()), "o0>0");
}

/// What stays is put together over a going back, also through what has gone.
#[test]
fn what_stays() {
    let mut store = Store::new();
    let [a, b] = pages(&mut store);
    let before = filed(&store, a.ops[0], b.ops[0]);
    store.mark(ONE).unwrap();
    let gone = page(&mut store);
    let through = filed(&store, b.ops[0], gone.ops[0]).then(&filed(&store, gone.ops[0], a.ops[0])).unwrap();
    store.go_back(ONE).unwrap();
    let [after, own] = [b, a].map(|page| filed(&store, page.ops[0], a.ops[0]));
    assert_eq!(through, after);
    let backwards = [&after, &before].map(|mapping| mapping.inverse().unwrap());
    for mut both in [before.then(&after).unwrap(), before.then(&through).unwrap(), backwards[0].then(&backwards[1]).unwrap()] {
        assert_eq!(both, own);
        assert_eq!((lend(&store, &mut both, &b), written(&both).matches('>').count()), (None, 10));
    }
}

/// Entries of what has gone are by the ids of then. No comparison is lent them, also where the numbers are given again.
#[test]
fn what_has_gone() {
    let mut store = Store::new();
    let [a, b] = pages(&mut store);
    let before = filed(&store, a.ops[0], b.ops[0]);
    store.mark(ONE).unwrap();
    let gone = page(&mut store);
    let [from_gone, to_gone] = [[gone, a], [b, gone]].map(|[l, r]| filed(&store, l.ops[0], r.ops[0]));
    store.go_back(ONE).unwrap();
    let after = filed(&store, a.ops[0], b.ops[0]);
    page(&mut store);
    let made = [
        to_gone.inverse().unwrap(),
        before.then(&to_gone).unwrap(),
        after.then(&to_gone).unwrap(),
        from_gone.then(&before).unwrap(),
        from_gone.then(&after).unwrap(),
    ];
    for mut made in made.into_iter().flat_map(|made| [made.inverse().unwrap(), made]) {
        let (words, entries) = (made.words().to_vec(), made.entries().collect::<Vec<_>>());
        let named = |op| gone.ops.contains(&op);
        assert_eq!((entries.len(), made.ops().filter(|(l, r)| named(*l) || named(*r)).count()), (5, 2));
        assert_eq!(lend(&store, &mut made, &a), Some(8));
        assert!(made.words() == words && made.entries().eq(entries));
        clears(made);
    }
}

/// A number that is given again is another thing: no entry follows from it.
#[test]
fn a_number_that_is_given_again() {
    let mut store = Store::new();
    let [a, b] = pages(&mut store);
    store.mark(ONE).unwrap();
    let gone = page(&mut store);
    let to_gone = filed(&store, a.ops[0], gone.ops[0]);
    store.go_back(ONE).unwrap();
    let again = page(&mut store);
    assert_eq!(again.ops.map(OpId::number), gone.ops.map(OpId::number));
    let from_again = filed(&store, again.ops[0], b.ops[0]);
    assert!(to_gone.then(&from_again).unwrap().is_empty());
    assert!(from_again.inverse().unwrap().then(&to_gone.inverse().unwrap()).unwrap().is_empty());
    // nor are the two images apart: both have one place on the left of an inverse
    let mut both = Mapping::new();
    both.map_op(a.ops[0], gone.ops[0]).unwrap();
    both.map_op(b.ops[0], again.ops[0]).unwrap();
    assert_eq!((both.entries().count(), both.inverse()), (2, None));
    both.map_op(a.ops[0], a.ops[0]).unwrap();
    assert_eq!(lend(&store, &mut both.inverse().unwrap(), &a), None);
    clears(both);
}

/// That ids given after a going back are of two stores can't be told from entries by hand; then nothing follows from them.
#[test]
fn what_cant_be_told() {
    let [(store, page_here), (other, page_there)] = [(); 2].map(|()| {
        let mut store = Store::new();
        store.mark(ONE).unwrap();
        page(&mut store);
        store.go_back(ONE).unwrap();
        let page = page(&mut store);
        (store, page)
    });
    let [here, there] = [page_here, page_there].map(|page| {
        let mut mapping = Mapping::new();
        mapping.map_op(page.ops[0], page.ops[0]).unwrap();
        mapping
    });
    assert_eq!(here.then(&there), Ok(Mapping::new()));
    assert_eq!(written(&here.then(&here).unwrap()), "o0>0");
    // mappings that comparisons were lent are told apart all the same
    let [ours, others] = [(&store, page_here), (&other, page_there)].map(|(store, page)| filed(store, page.ops[0], page.ops[0]));
    for ours in [&ours, &ours.inverse().unwrap(), &ours.then(&ours).unwrap(), &here.then(&ours).unwrap()] {
        assert_eq!((cause(ours.then(&others)), cause(others.then(ours))), (Some(8), Some(8)));
    }
    assert_eq!((ours.then(&there), written(&ours.then(&here).unwrap())), (Ok(Mapping::new()), "o0>0".to_string()));
}
