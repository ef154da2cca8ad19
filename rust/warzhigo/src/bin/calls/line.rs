//! What a line asks for.

use warzhigo::lent::Owner;
use warzhigo::{Attribute, Ignore, Inherent};

use crate::fields::Fields;

/// A sort of fragment, by its letter.
#[derive(Clone, Copy)]
pub enum Sort {
    Op,
    Block,
    Region,
}

/// What has entries in a mapping, by its letter.
#[derive(Clone, Copy)]
pub enum Entry {
    Value,
    Block,
    Op,
}

pub enum Line {
    Operation {
        kind: u32,
        parent: Option<u32>,
        location: u32,
        regions: u32,
        result_types: Vec<u32>,
        operands: Vec<u32>,
        successors: Vec<u32>,
    },
    Block {
        region: u32,
        location: u32,
        argument_types: Vec<u32>,
    },
    Attribute(Owner, Attribute),
    Operand {
        op: u32,
        index: u32,
        value: u32,
    },
    Copy {
        op: u32,
        parent: Option<u32>,
    },
    Mark(u32),
    GoBack(u32),
    Compare {
        sort: Sort,
        lhs: u32,
        rhs: u32,
        ignore: Ignore,
    },
    Enter {
        entry: Entry,
        left: u32,
        image: u32,
    },
    Entries,
    Hash {
        sort: Sort,
        number: u32,
        ignore: Ignore,
    },
    Dump,
    Sound,
    Key {
        sort: Sort,
        number: u32,
        ignore: Ignore,
        room: u32,
    },
    Extent {
        sort: Sort,
        number: u32,
        ignore: Ignore,
    },
    CompareKeys {
        sort: Sort,
        lhs: u32,
        rhs: u32,
        ignore: Ignore,
    },
    CompareBytes(Vec<u8>, Vec<u8>),
    Types(Vec<u32>),
    Repeated {
        block: u32,
        length: u32,
        ignore: Ignore,
    },
    Independent {
        sort: Sort,
        lhs: u32,
        rhs: u32,
    },
    Twins(Ignore),
}

impl Line {
    /// Nothing where the line isn't of the form.
    pub fn parse(text: &str) -> Option<Line> {
        let mut fields = Fields::of(text);
        let f = &mut fields;
        let line = match f.word()? {
            "o" => operation(f)?,
            "b" => Line::Block { region: f.number()?, location: f.number()?, argument_types: f.list()? },
            "a" => attribute(f, Inherent::No)?,
            "i" => attribute(f, Inherent::Yes)?,
            "s" => Line::Operand { op: f.number()?, index: f.number()?, value: f.number()? },
            "X" => Line::Copy { op: f.number()?, parent: f.optional()? },
            "M" => Line::Mark(f.number()?),
            "G" => Line::GoBack(f.number()?),
            "q" => Line::Compare { sort: sort(f)?, lhs: f.number()?, rhs: f.number()?, ignore: f.ignore()? },
            "E" => Line::Enter { entry: entry(f)?, left: f.number()?, image: f.number()? },
            "P" => Line::Entries,
            "H" => Line::Hash { sort: sort(f)?, number: f.number()?, ignore: f.ignore()? },
            "D" => Line::Dump,
            "S" => Line::Sound,
            "K" => Line::Key { sort: sort(f)?, number: f.number()?, ignore: f.ignore()?, room: f.number()? },
            "Z" => Line::Extent { sort: sort(f)?, number: f.number()?, ignore: f.ignore()? },
            "C" => Line::CompareKeys { sort: sort(f)?, lhs: f.number()?, rhs: f.number()?, ignore: f.ignore()? },
            "B" => Line::CompareBytes(f.bytes()?, f.bytes()?),
            "T" => Line::Types(f.rest()?),
            "R" => Line::Repeated { block: f.number()?, length: f.number()?, ignore: f.ignore()? },
            "I" => Line::Independent { sort: sort(f)?, lhs: f.number()?, rhs: f.number()? },
            "U" => Line::Twins(f.ignore()?),
            _ => return None,
        };
        fields.end().map(|()| line)
    }
}

fn operation(f: &mut Fields) -> Option<Line> {
    Some(Line::Operation {
        kind: f.number()?,
        parent: f.optional()?,
        location: f.number()?,
        regions: f.number()?,
        result_types: f.list()?,
        operands: f.list()?,
        successors: f.list()?,
    })
}

fn attribute(f: &mut Fields, inherent: Inherent) -> Option<Line> {
    Some(Line::Attribute(owner(f)?, Attribute { key: f.number()?, kind: f.number()?, content: f.number()?, inherent }))
}

fn owner(f: &mut Fields) -> Option<Owner> {
    match f.word()? {
        "o" => f.number().map(Owner::Op),
        "b" => f.number().map(Owner::Block),
        _ => None,
    }
}

fn sort(f: &mut Fields) -> Option<Sort> {
    match f.word()? {
        "o" => Some(Sort::Op),
        "b" => Some(Sort::Block),
        "r" => Some(Sort::Region),
        _ => None,
    }
}

fn entry(f: &mut Fields) -> Option<Entry> {
    match f.word()? {
        "v" => Some(Entry::Value),
        "b" => Some(Entry::Block),
        "o" => Some(Entry::Op),
        _ => None,
    }
}
