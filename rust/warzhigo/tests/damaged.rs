//! Words of good stores and mappings with damage at random. What isn't sound any more is refused by every call and stays as it is; what is
//! still sound is a store like others, and is answered as the models say of it.

mod common;

use common::bytes_model;
use common::call::{Call, New, apply};
use common::layout::{OPERAND_END, OPERAND_FIRST, SLOT_KIND, SUCCESSOR_END, SUCCESSOR_FIRST, dead_word, live_pair};
use common::numbers::Random;
use common::offered::{SORTS, all_refuse, building_calls, comparison_refused};
use common::picture::Picture;
use common::plan::Plan;
use common::question::{ENTRIES, NONE, Question, Sort, hash_inner, hash_lent, ignore_rule, key_is, no_entries};
use common::walk::{Entries, Longer, compared};
use warzhigo::{Inherent, Mapping, Refused, Store, lent};

const STORES: u64 = 120;
const DAMAGES: u32 = 40;

/// The words of a store at random, and numbers that belong to it.
fn good_words(seed: u64) -> (Vec<u32>, Random) {
    let plan = Plan::new(seed);
    let mut store = Store::new();
    for (call, expected) in &plan.calls {
        let answer = call.by_ids(&mut store).unwrap_or(Err(2));
        assert_eq!(answer.is_ok(), expected.is_ok(), "seed {seed}: {call:?}");
    }
    (store.into_words().into_vec(), Random::new(!seed))
}

/// What words of a sound store hold.
fn picture(words: &[u32], context: &str) -> Picture {
    Picture::of(&Store::from_words(words).expect(context), context)
}

/// Damages one to three places.
fn damage(random: &mut Random, words: &mut Vec<u32>) {
    for _ in 0..random.pick(&[1, 1, 1, 2, 3]) {
        let [at, other] = live_pair(random, words);
        match random.below(15) {
            0 => words[at] = words[at].wrapping_add(1),
            1 => words[at] = words[at].wrapping_sub(1),
            2 => words[at] ^= 1 << random.below(32),
            3 => words[at] = random.below(64),
            4 => words[at] ^= 1 << random.below(9),
            5 => words[at] = random.word(),
            6 | 7 => words[at] = words[other],
            8..12 => words.swap(at, other),
            12 => words[random.below(8) as usize] ^= 1,
            _ => moved_boundary(random, words),
        }
    }
    match random.below(40) {
        0 => words.truncate(words.len() - 1 - random.below(3) as usize),
        1 => words.push(0),
        _ => {}
    }
}

/// Moves the place where the part of one operation ends and that of the next begins, in the list of operands or of successors.
fn moved_boundary(random: &mut Random, words: &mut [u32]) {
    let (first, end) = random.pick(&[(OPERAND_FIRST, OPERAND_END), (SUCCESSOR_FIRST, SUCCESSOR_END)]);
    let op = random.below(words[0].clamp(1, 512) - 1) as usize;
    let place = words[end + op].saturating_add(2).saturating_sub(random.below(5));
    words[end + op] = place;
    words[first + op + 1] = place;
}

#[test]
fn damaged_stores() {
    let (mut sound, mut changed, mut unsound) = (0, 0, 0);
    for seed in 0..STORES {
        let (good, mut random) = good_words(seed);
        let before = picture(&good, &format!("seed {seed}"));
        for n in 0..DAMAGES {
            let context = format!("seed {seed}, damage {n}");
            let mut words = good.clone();
            damage(&mut random, &mut words);
            match Store::from_words(words.as_slice()) {
                Err(refused) => {
                    assert_eq!(refused.number(), 1, "{context}");
                    all_refuse(&words, &no_entries(), &context);
                    unsound += 1;
                }
                Ok(store) => {
                    assert!(lent::is_sound(&words), "{context}");
                    changed += (Picture::of(&store, &context) != before) as u32;
                    runs(&mut random, store, &context);
                    sound += 1;
                }
            }
        }
    }
    println!("{sound} sound, {changed} of them another store than before, {unsound} unsound");
    let all = STORES as u32 * DAMAGES;
    assert!(sound > all / 10 && changed > all / 20 && unsound > all / 10);
}

/// The word of an attribute's kind is 64 more where the attribute is inherent. Below 128 it is sound, and read so.
#[test]
fn kinds_and_flags() {
    let mut store = Store::new();
    let form = Call::Operation(New { regions: 1, ..New::default() });
    let block = Call::Block { region: 0, location: 0, argument_types: vec![] };
    for call in [form, block].iter().chain(&building_calls()[2..4]) {
        assert!(apply(&mut store, call, "a store made by hand").is_ok(), "{call:?}");
    }
    for at in SLOT_KIND {
        let damaged = |word| {
            let mut words = store.words().to_vec();
            words[at] = word;
            words
        };
        for word in 0..128 {
            let context = format!("word {at} is {word}");
            let now = picture(&damaged(word), &context);
            let attribute = if at == SLOT_KIND[0] { now.ops[0].attributes[0] } else { now.blocks[0].attributes[0] };
            let inherent = if word < 64 { Inherent::No } else { Inherent::Yes };
            assert_eq!((attribute.kind, attribute.inherent), (word % 64, inherent), "{context}");
            runs(&mut Random::new(word as u64), Store::from_words(damaged(word)).expect(&context), &context);
        }
        for word in [128, 129, 191, 192, 255, 256, 1 << 31, u32::MAX - 64, u32::MAX] {
            all_refuse(&damaged(word), &no_entries(), &format!("word {at} is {word}"));
        }
    }
}

/// Words behind the counts are without effect.
#[test]
fn words_that_are_not_read() {
    for seed in 0..STORES {
        let context = format!("seed {seed}");
        let (good, mut random) = good_words(seed);
        let before = picture(&good, &context);
        let mut words = good;
        for _ in 0..50 {
            if let Some(at) = dead_word(&mut random, &words) {
                words[at] = random.word();
            }
        }
        let store = Store::from_words(words).expect(&context);
        assert_eq!(Picture::of(&store, &context), before, "{context}");
        runs(&mut random, store, &context);
    }
}

/// A number of that sort, if there is one.
fn any(random: &mut Random, picture: &Picture, sort: Sort) -> Option<u32> {
    let count = match sort {
        Sort::Op => picture.ops.len(),
        Sort::Block => picture.blocks.len(),
        Sort::Region => picture.regions.len(),
    };
    (count > 0).then(|| random.below(count as u32))
}

/// Every call runs on a sound store, whatever its origin, and is answered by the models; building calls leave it sound.
fn runs(random: &mut Random, mut store: Store, context: &str) {
    let mut picture = Picture::of(&store, context);
    answers(random, &store, &picture, context);
    for call in building_calls() {
        assert_eq!(apply(&mut store, &call, context), picture.apply(&call), "{context}: {call:?}");
        assert!(lent::is_sound(store.words()), "{context}: not sound after {call:?}");
        assert_eq!(Picture::of(&store, context), picture, "{context}: {call:?}");
    }
    answers(random, &store, &picture, context);
}

/// Comparisons, from an empty mapping, hashes and keys, of each sort.
fn answers(random: &mut Random, store: &Store, picture: &Picture, context: &str) {
    let mut mapping = Mapping::new();
    for sort in SORTS {
        let (Some(lhs), Some(rhs)) = (any(random, picture, sort), any(random, picture, sort)) else { continue };
        let rhs = if random.chance(30) { lhs } else { rhs };
        let question = Question { sort, lhs, rhs, ignore: ignore_rule(random) };
        let mut entries = Entries::default();
        let (expected, _) = compared(picture, &mut entries, &question, Longer::Rules);
        let mut lent = no_entries();
        assert_eq!(question.lent(store.words(), &mut lent), Ok(expected), "{context}: {question:?}");
        assert_eq!(question.inner(store, &mut mapping), Ok(expected), "{context}: {question:?}");
        assert_eq!(Entries::of_words(&lent), entries, "{context}: {question:?}");
        assert!(mapping.words() == lent, "{context}: {question:?} by ids and by numbers");
        mapping.clear();
        assert!(mapping.words() == no_entries(), "{context}: {question:?}, cleared");
        let hash = bytes_model::hash(picture, sort, lhs, question.ignore);
        assert_eq!(hash_lent(store.words(), sort, lhs, &question.ignore), Ok(hash), "{context}: hash in {question:?}");
        assert_eq!(hash_inner(store, sort, lhs, &question.ignore), Ok(hash), "{context}: hash in {question:?}");
        let key = bytes_model::key(picture, sort, lhs, question.ignore);
        key_is(store, sort, lhs, &question.ignore, &key, &format!("{context}: key in {question:?}"));
    }
}

/// Entries at random, of numbers that exist or almost do.
fn damaged_mapping(random: &mut Random, picture: &Picture) -> Vec<u32> {
    let mut mapping = no_entries();
    for (sort, count) in [picture.values.len(), picture.blocks.len(), picture.ops.len()].into_iter().enumerate() {
        let most = ENTRIES[sort + 1] - ENTRIES[sort];
        for _ in 0..random.below(5) {
            let beyond = random.chance(8) as usize;
            let [left, image] = [0; 2].map(|_| random.below((count + beyond) as u32));
            if (left as usize) < most && count > 0 {
                mapping[ENTRIES[sort] + left as usize] = if random.chance(2) { random.word() } else { image };
            }
        }
    }
    match random.below(20) {
        0 => mapping.truncate(mapping.len() - 1),
        1 => mapping.push(NONE),
        _ => {}
    }
    mapping
}

/// Is it of the right length, and do all numbers and images in it exist?
fn is_allowed(mapping: &[u32], picture: &Picture) -> bool {
    if mapping.len() != ENTRIES[3] {
        return false;
    }
    let Entries { values, blocks, ops } = Entries::of_words(mapping);
    let within = |entries: std::collections::BTreeMap<u32, u32>, count: usize| {
        entries.iter().all(|(left, image)| (*left as usize) < count && (*image as usize) < count)
    };
    within(values, picture.values.len()) && within(blocks, picture.blocks.len()) && within(ops, picture.ops.len())
}

#[test]
fn damaged_mappings() {
    let (mut allowed, mut refused) = (0, 0);
    for seed in 0..STORES {
        let (words, mut random) = good_words(seed);
        let store = Store::from_words(words).unwrap_or_else(|refused| panic!("seed {seed}: {refused}"));
        let picture = Picture::of(&store, &format!("seed {seed}"));
        for n in 0..DAMAGES {
            let context = format!("seed {seed}, mapping {n}");
            let mapping = damaged_mapping(&mut random, &picture);
            if is_allowed(&mapping, &picture) {
                lent_mapping_runs(&mut random, &store, &picture, &mapping, &context);
                allowed += 1;
            } else {
                for sort in SORTS {
                    comparison_refused(store.words(), &mapping, sort, 8, &context);
                }
                assert_eq!(Mapping::from_words(&store, mapping).err().map(Refused::number), Some(8), "{context}");
                refused += 1;
            }
        }
    }
    println!("{allowed} allowed, {refused} refused");
    let all = STORES as u32 * DAMAGES;
    assert!(allowed > all / 10 && refused > all / 10);
}

/// A comparison begins with what an allowed mapping holds.
fn lent_mapping_runs(random: &mut Random, store: &Store, picture: &Picture, words: &[u32], context: &str) {
    for sort in SORTS {
        let (Some(lhs), Some(rhs)) = (any(random, picture, sort), any(random, picture, sort)) else { continue };
        let question = Question { sort, lhs, rhs, ignore: ignore_rule(random) };
        let mut entries = Entries::of_words(words);
        let (expected, _) = compared(picture, &mut entries, &question, Longer::Rules);
        let mut lent = words.to_vec();
        let mut mapping = Mapping::from_words(store, words).expect(context);
        assert_eq!(question.lent(store.words(), &mut lent), Ok(expected), "{context}: {question:?}");
        assert_eq!(question.inner(store, &mut mapping), Ok(expected), "{context}: {question:?}");
        assert_eq!(Entries::of_words(&lent), entries, "{context}: {question:?}");
        assert!(mapping.words() == lent, "{context}: {question:?} by ids and by numbers");
        mapping.clear();
        assert!(mapping.words() == no_entries(), "{context}: {question:?}, cleared");
    }
}
