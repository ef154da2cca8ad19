//! The lent buffers, and each line's call on them.

use warzhigo::lent::{self, EqResult, NewOperation};
use warzhigo::{Extent, Ignore, Refused, Store, compare_keys};

use crate::line::{Entry, Line, Sort};
use crate::text;

/// No image, and no twin.
const NONE: u32 = u32::MAX;

/// What stands in every byte that a key is lent.
const LENT: u8 = 0xee;

/// Where the entries of values, blocks and operations begin in the words of a mapping, and the end of the last.
pub const ENTRIES: [usize; 4] = [0, 2048, 2304, 2816];

/// As many words as a store can have operations.
const OPERATIONS: usize = ENTRIES[3] - ENTRIES[2];

pub struct Replay {
    store: Vec<u32>,
    /// The list of renamed types that every call is lent.
    types: Vec<u32>,
    /// What the next comparison or copy is lent.
    mapping: Vec<u32>,
    /// What the last accepted one left.
    left: Vec<u32>,
}

impl Default for Replay {
    fn default() -> Replay {
        Replay { store: vec![0; lent::store_words()], types: Vec::new(), mapping: empty(), left: empty() }
    }
}

fn empty() -> Vec<u32> {
    vec![NONE; lent::mapping_words()]
}

/// What is answered for an accepted call, or the refusal.
fn answered<T: ToString>(answer: Result<T, Refused>) -> Option<String> {
    Some(match answer {
        Ok(value) => value.to_string(),
        Err(refused) => format!("refused,{}", refused.number()),
    })
}

impl Replay {
    /// The answer of a line, if it has one.
    pub fn answer(&mut self, line: &Line) -> Option<String> {
        let store = &mut self.store;
        match line {
            Line::Operation { kind, parent, location, regions, result_types, operands, successors } => {
                let (kind, parent, location, regions) = (*kind, *parent, *location, *regions);
                let new = NewOperation { kind, parent, location, regions, result_types, operands, successors };
                answered(lent::new_operation(store, &new))
            }
            Line::Block { region, location, argument_types } => answered(lent::new_block(store, *region, *location, argument_types)),
            Line::Attribute(owner, attribute) => answered(lent::set_attribute(store, *owner, *attribute).map(|()| "ok")),
            Line::Operand { op, index, value } => answered(lent::set_operand(store, *op, *index, *value).map(|()| "ok")),
            Line::Copy { op, parent } => answered(self.copy(*op, *parent).map(|copy| format!("copy,{copy}"))),
            Line::Mark(mark) => answered(lent::set_mark(store, *mark).map(|()| "ok")),
            Line::GoBack(mark) => answered(lent::go_back(store, *mark).map(|()| "ok")),
            Line::Compare { sort, lhs, rhs, ignore } => answered(self.compare(*sort, (*lhs, *rhs), ignore)),
            Line::Enter { entry, left, image } => self.enter(*entry, *left, *image),
            Line::Entries => Some(text::entries(&self.left)),
            Line::Hash { sort, number, ignore } => answered(self.hash(*sort, *number, ignore).map(|word| format!("{word:016x}"))),
            Line::Dump => answered(Store::from_words(store.clone()).map(|store| text::dump(&store))),
            Line::Key { sort, number, ignore, room } => {
                let mut bytes = vec![LENT; *room as usize];
                let length = self.key(*sort, *number, ignore, &mut bytes);
                answered(length.map(|length| format!("key,{length},{}", text::hexadecimal(&bytes))))
            }
            Line::Extent { sort, number, ignore } => answered(self.extent(*sort, *number, ignore).map(text::extent)),
            Line::CompareKeys { sort, lhs, rhs, ignore } => answered(self.compare_keys(*sort, (*lhs, *rhs), ignore)),
            Line::CompareBytes(lhs, rhs) => Some((compare_keys(lhs, rhs) as i8).to_string()),
            Line::Repeated { block, length, ignore } => {
                answered(lent::repeated_run(store, &self.types, *block, *length, ignore).map(text::run))
            }
            Line::Independent { sort, lhs, rhs } => {
                let independent = self.independent(*sort, (*lhs, *rhs));
                answered(independent.map(|yes| if yes { "yes" } else { "no" }))
            }
            Line::Twins(ignore) => {
                let mut twins = [NONE; OPERATIONS];
                let operations = lent::twins_of_operations(store, &self.types, ignore, &mut twins);
                answered(operations.map(|operations| text::twins(&twins[..operations])))
            }
            Line::Types(words) => {
                self.types.clone_from(words);
                None
            }
            Line::Sound => Some(if lent::is_sound(store) { "sound" } else { "unsound" }.to_string()),
        }
    }

    /// Lends what was entered since the last comparison or copy; the next one starts from an empty mapping again.
    fn compare(&mut self, sort: Sort, (lhs, rhs): (u32, u32), ignore: &Ignore) -> Result<EqResult, Refused> {
        let call = match sort {
            Sort::Op => lent::operation_eq,
            Sort::Block => lent::basic_block_eq,
            Sort::Region => lent::region_eq,
        };
        let mut mapping = std::mem::replace(&mut self.mapping, empty());
        let answer = call(&self.store, &self.types, &mut mapping, lhs, rhs, ignore)?;
        self.left = mapping;
        Ok(answer)
    }

    /// Lends what was entered, as to a comparison.
    fn copy(&mut self, op: u32, parent: Option<u32>) -> Result<u32, Refused> {
        let mut mapping = std::mem::replace(&mut self.mapping, empty());
        let copy = lent::clone_operation(&mut self.store, op, parent, &mut mapping)?;
        self.left = mapping;
        Ok(copy)
    }

    fn hash(&self, sort: Sort, number: u32, ignore: &Ignore) -> Result<u64, Refused> {
        let call = match sort {
            Sort::Op => lent::operation_hash,
            Sort::Block => lent::basic_block_hash,
            Sort::Region => lent::region_hash,
        };
        call(&self.store, &self.types, number, ignore)
    }

    fn key(&self, sort: Sort, number: u32, ignore: &Ignore, key: &mut [u8]) -> Result<usize, Refused> {
        let call = match sort {
            Sort::Op => lent::operation_key,
            Sort::Block => lent::basic_block_key,
            Sort::Region => lent::region_key,
        };
        call(&self.store, &self.types, number, ignore, key)
    }

    fn extent(&self, sort: Sort, number: u32, ignore: &Ignore) -> Result<Extent, Refused> {
        let call = match sort {
            Sort::Op => lent::operation_extent,
            Sort::Block => lent::basic_block_extent,
            Sort::Region => lent::region_extent,
        };
        call(&self.store, number, ignore)
    }

    fn independent(&self, sort: Sort, (lhs, rhs): (u32, u32)) -> Result<bool, Refused> {
        let call = match sort {
            Sort::Op => lent::operations_independent,
            Sort::Block => lent::basic_blocks_independent,
            Sort::Region => lent::regions_independent,
        };
        call(&self.store, lhs, rhs)
    }

    fn compare_keys(&self, sort: Sort, (lhs, rhs): (u32, u32), ignore: &Ignore) -> Result<i8, Refused> {
        let key = |number| {
            let mut bytes = vec![LENT; lent::key_bytes()];
            let length = self.key(sort, number, ignore, &mut bytes)?;
            bytes.truncate(length);
            Ok(bytes)
        };
        Ok(compare_keys(&key(lhs)?, &key(rhs)?) as i8)
    }

    /// Enters an image. A number that has no entry makes the mapping a word too long, so that it is refused as it must be.
    fn enter(&mut self, entry: Entry, left: u32, image: u32) -> Option<String> {
        let [first, end] = [ENTRIES[entry as usize], ENTRIES[entry as usize + 1]];
        if (left as usize) < end - first {
            self.mapping[first + left as usize] = image;
        } else {
            self.mapping.push(image);
        }
        None
    }
}
