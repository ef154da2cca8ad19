//! Words of good stores with marks, of which one of marks or of the journal is damaged. Whether they are still sound is found by undoing the
//! journal on plain data: where that can't be done, or gives an unsound store, every call refuses the words by 1; else the store is the same
//! now, and going back gives what the words say.

mod common;

use common::call::{Call, New};
use common::journal::{JOURNAL, JOURNAL_COUNTS, MARK_COUNTS, MARK_NUMBER, MARK_PLACE, MARKS, read};
use common::marked::{Marked, Step};
use common::numbers::Random;
use common::offered::{all_refuse, building_calls};
use common::picture::Picture;
use common::plan::Plan;
use common::question::no_entries;
use warzhigo::lent::Owner;
use warzhigo::{Attribute, Inherent, Refused, Store, lent};

const STORES: u64 = 120;
const DAMAGES: u32 = 60;

/// A store at random with marks in it, and the model of it.
fn good(seed: u64, random: &mut Random) -> (Store, Marked) {
    let context = format!("seed {seed}");
    let (mut store, mut model) = (Store::new(), Marked::default());
    for (call, _) in Plan::new(seed).calls {
        let mark = random.chance(8).then(|| Step::Mark(random.below(8) + 1));
        let again = matches!(call, Call::Attribute(..) | Call::Operand { .. }) && random.chance(30);
        let calls = [Some(call.clone()), again.then_some(call)];
        for step in mark.into_iter().chain(calls.into_iter().flatten().map(Step::Build)) {
            assert_eq!(step.apply(&mut store, &context), model.apply(&step), "{context}: {step:?}");
        }
    }
    if model.marks.is_empty() {
        assert_eq!(Step::Mark(1).apply(&mut store, &context), model.apply(&Step::Mark(1)));
    }
    (store, model)
}

/// A word of marks or of the journal, mostly one that is read, and another of its column.
fn place(random: &mut Random, words: &[u32]) -> [usize; 2] {
    let (marks, entries) = (words[MARKS], words[JOURNAL_COUNTS]);
    let mut below = |count: u32| random.below(count) as usize;
    match below(12) {
        0 => [MARKS, JOURNAL_COUNTS],
        1 | 2 => [0; 2].map(|_| MARK_NUMBER + below(marks)),
        3 | 4 => [0; 2].map(|_| MARK_PLACE + below(marks)),
        5 | 6 => {
            let count = below(8);
            [0; 2].map(|_| MARK_COUNTS + 8 * below(marks) + count)
        }
        7 => [0; 2].map(|_| JOURNAL_COUNTS + below(3)),
        _ => {
            let column = JOURNAL[below(5)];
            [0; 2].map(|_| column + below((entries + 1).min(2048)))
        }
    }
}

/// Another word than the one that stands there.
fn damaged(random: &mut Random, words: &[u32], [at, other]: [usize; 2]) -> u32 {
    let word = match random.below(9) {
        0 | 1 => words[at].wrapping_add(1),
        2 | 3 => words[at].wrapping_sub(1),
        4 => random.below(10),
        5 => random.word(),
        6 => words[at] ^ 1 << random.below(9),
        _ => words[other],
    };
    if word == words[at] { word ^ 1 } else { word }
}

#[test]
fn one_damaged_word() {
    let (mut sound, mut changed, mut unsound) = (0, 0, 0);
    for seed in 0..STORES {
        let mut random = Random::new(!seed);
        let (store, model) = good(seed, &mut random);
        let before = read(store.words(), &model.picture).expect("a good store");
        assert_eq!(copies(&before), copies(&model), "seed {seed}: what the words say of marks, and what calls have made");
        for n in 0..DAMAGES {
            let place = place(&mut random, store.words());
            let mut words = store.words().to_vec();
            words[place[0]] = damaged(&mut random, &words, place);
            let context = format!("seed {seed}, damage {n}: word {} is {}, not {}", place[0], words[place[0]], store.words()[place[0]]);
            match read(&words, &model.picture) {
                None => {
                    all_refuse(&words, &no_entries(), &context);
                    unsound += 1;
                }
                Some(now) => {
                    changed += (copies(&now) != copies(&before)) as u32;
                    answers_as(&words, &now, &context);
                    sound += 1;
                }
            }
        }
    }
    println!("{sound} sound, {changed} of them with other marks than before, {unsound} unsound");
    let all = STORES as u32 * DAMAGES;
    assert!(sound > all / 10 && changed > all / 20 && unsound > all / 3);
}

/// The marks, with the tables of each.
fn copies(model: &Marked) -> Vec<(u32, u32, &Picture)> {
    model.marks.iter().map(|mark| (mark.number, mark.since, &mark.copy)).collect()
}

/// The store is what the words say, goes back to each mark, and takes every call.
fn answers_as(words: &[u32], model: &Marked, context: &str) {
    assert!(lent::is_sound(words), "{context}");
    let whole = Store::from_words(words).expect(context);
    model.is(&whole, context);
    for number in 0..=9 {
        let (mut store, mut after) = (whole.clone(), model.clone());
        let back = Step::Back(number);
        let expected = after.apply(&back);
        assert_eq!(back.apply(&mut store, context), expected, "{context}: {back:?}");
        if expected.is_ok() {
            after.is(&store, &format!("{context}: {back:?}"));
        }
    }
    let (mut store, mut after) = (whole, model.clone());
    for step in building_calls().map(Step::Build).into_iter().chain([Step::Mark(3)]) {
        assert_eq!(step.apply(&mut store, context), after.apply(&step), "{context}: {step:?}");
    }
    after.is(&store, context);
}

/// Words of a good store that are damaged in each way, by hand.
#[test]
fn each_word_once() {
    let mut stores = (0..).map(|seed| good(seed, &mut Random::new(!seed)));
    let (store, model) = stores.find(|(store, _)| store.marks().len() > 2 && store.remembered() > 5).expect("one of them");
    let set = store.marks().len();
    let refused = [
        (MARKS, 9),
        (MARKS, u32::MAX),
        (JOURNAL_COUNTS, 2049),
        (JOURNAL_COUNTS, u32::MAX),
        (JOURNAL_COUNTS + 1, store.remembered() + 1),
        (JOURNAL_COUNTS + 1, store.remembered() - 1),
        (MARK_NUMBER, 0),
        (MARK_NUMBER, 9),
        (MARK_NUMBER, store.words()[MARK_NUMBER + 1]),
        (MARK_PLACE, 1),
        (MARK_PLACE + set - 1, 2048),
        (MARK_COUNTS + 8 * (set - 1), 513),
        (MARK_COUNTS + 8 * (set - 1) + 3, u32::MAX),
        (MARK_COUNTS + 8 * (set - 1) + 4, u32::MAX),
        (MARK_COUNTS + 8 * (set - 1) + 6, store.words()[MARK_COUNTS + 8 * (set - 1) + 6] + 1),
        (JOURNAL[1], u32::MAX),
    ];
    for (at, word) in refused {
        let mut words = store.words().to_vec();
        words[at] = word;
        assert!(read(&words, &model.picture).is_none(), "word {at} is {word}");
        all_refuse(&words, &no_entries(), &format!("word {at} is {word}"));
        assert_eq!(lent::go_back(&mut words, 1).map_err(Refused::number), Err(1), "word {at} is {word}");
    }
    let spare = (2..8).map(|n| JOURNAL_COUNTS + n).chain((0..8).map(|row| MARK_COUNTS + 8 * row + 7));
    let behind = [MARK_NUMBER + set, MARK_PLACE + set].into_iter().filter(|_| set < 8);
    for at in spare.chain(behind).chain(JOURNAL.map(|column| column + 2047)) {
        let mut words = store.words().to_vec();
        words[at] = u32::MAX;
        answers_as(&words, &model, &format!("word {at}, which is not read"));
    }
}

/// The journal's word of a replaced attribute's kind is 64 more where that was inherent. Below 128 it is sound, and gone back to so.
#[test]
fn kinds_and_flags_in_the_journal() {
    let (mut store, mut model) = (Store::new(), Marked::default());
    let set = |inherent| Call::Attribute(Owner::Op(0), Attribute { key: 1, kind: 5, content: 9, inherent });
    let before = [Call::Operation(New::default()), set(Inherent::Yes)].map(Step::Build);
    for step in before.into_iter().chain([Step::Mark(1), Step::Build(set(Inherent::No))]) {
        assert_eq!(step.apply(&mut store, "a store made by hand"), model.apply(&step), "{step:?}");
    }
    assert_eq!(store.words()[JOURNAL[3]], 64 + 5);
    let damaged = |word| {
        let mut words = store.words().to_vec();
        words[JOURNAL[3]] = word;
        words
    };
    for word in 0..128 {
        let context = format!("the kind is {word}");
        let now = read(&damaged(word), &model.picture).expect(&context);
        let inherent = if word < 64 { Inherent::No } else { Inherent::Yes };
        assert_eq!(now.marks[0].copy.ops[0].attributes, [Attribute { key: 1, kind: word % 64, content: 9, inherent }], "{context}");
        answers_as(&damaged(word), &now, &context);
    }
    for word in [128, 129, 191, 192, 255, 256, 1 << 31, u32::MAX - 64, u32::MAX] {
        assert!(read(&damaged(word), &model.picture).is_none(), "the kind is {word}");
        all_refuse(&damaged(word), &no_entries(), &format!("the kind is {word}"));
    }
}
