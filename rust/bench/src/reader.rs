//! `twins` and `sums` over pliron's own text: from a listing's bytes to printed bytes, in plain Rust. It trusts the listing, and prints
//! neither `paired` nor the share, which pliron hasn't.

use oracle::{Lists, Mapping, NumberAttr, Oracle, Owner, Sort, Verdict};

/// What a line's `q` asks.
struct Question {
    sort: Sort,
    left: u32,
    right: u32,
    ignore_locations: bool,
    ignore_bits: u64,
}

/// The rest of a line.
struct Fields<'a>(&'a [u8]);

impl<'a> Fields<'a> {
    fn next(&mut self) -> &'a [u8] {
        let end = self.0.iter().position(|byte| *byte == b',').unwrap_or(self.0.len());
        let (field, rest) = self.0.split_at(end);
        self.0 = rest.get(1..).unwrap_or(&[]);
        field
    }

    fn number(&mut self) -> u64 {
        number(self.next())
    }

    fn word(&mut self) -> u32 {
        self.number() as u32
    }

    /// A list, in a vector that is used again.
    fn list(&mut self, items: &mut Vec<u32>) {
        items.clear();
        for _ in 0..self.word() {
            items.push(self.word());
        }
    }
}

fn number(digits: &[u8]) -> u64 {
    digits.iter().fold(0, |number, digit| number * 10 + u64::from(digit - b'0'))
}

/// The store so far, and the lists of one line.
#[derive(Default)]
struct Reader {
    oracle: Oracle,
    /// Have blocks labels, as in edition 1?
    labelled: bool,
    types: Vec<u32>,
    operands: Vec<u32>,
    successors: Vec<u32>,
}

impl Reader {
    fn operation(&mut self, mut fields: Fields<'_>) {
        let kind = fields.word();
        let parent = fields.next();
        let parent = (parent != b"-").then(|| number(parent) as u32);
        let (location, regions) = (fields.word(), fields.word());
        fields.list(&mut self.types);
        fields.list(&mut self.operands);
        fields.list(&mut self.successors);
        let lists = Lists { result_types: &self.types, operands: &self.operands, successors: &self.successors };
        self.oracle.new_operation(kind, parent, location, regions, lists);
    }

    fn block(&mut self, mut fields: Fields<'_>) {
        let region = fields.word();
        if self.labelled {
            fields.next();
        }
        let location = fields.word();
        fields.list(&mut self.types);
        self.oracle.new_block(region, location, &self.types);
    }

    fn attribute(&mut self, mut fields: Fields<'_>, inherent: bool) {
        let on_block = fields.next() == b"b";
        let number = fields.word();
        let owner = if on_block { Owner::Block(number) } else { Owner::Op(number) };
        let key = fields.word();
        self.oracle.set_attribute(owner, key, NumberAttr { kind: fields.word(), content: fields.word(), inherent });
    }

    /// A line that builds; or else what it asks.
    fn line(&mut self, line: &[u8]) -> Option<Question> {
        let mut fields = Fields(line);
        match fields.next() {
            b"o" => self.operation(fields),
            b"b" => self.block(fields),
            b"a" => self.attribute(fields, false),
            b"i" => self.attribute(fields, true),
            b"s" => self.oracle.set_operand(fields.word(), fields.word(), fields.word()),
            _ => return Some(question(fields)),
        }
        None
    }
}

fn question(mut fields: Fields<'_>) -> Question {
    let sort = match fields.next() {
        b"o" => Sort::Op,
        b"b" => Sort::Block,
        _ => Sort::Region,
    };
    let (left, right, ignore_locations) = (fields.word(), fields.word(), fields.word() == 1);
    Question { sort, left, right, ignore_locations, ignore_bits: fields.number() }
}

/// Builds what the lines say, and answers their questions.
fn read(listing: &[u8], mut answer: impl FnMut(&Oracle, &Question)) {
    let mut lines = listing.split(|byte| *byte == b'\n');
    let mut reader = Reader { labelled: lines.next() == Some(b"opstore,1"), ..Reader::default() };
    for line in lines.filter(|line| !line.is_empty()) {
        if let Some(question) = reader.line(line) {
            answer(&reader.oracle, &question);
        }
    }
}

/// For each question the verdict, and the pair that it names.
pub fn twins(listing: &[u8], out: &mut Vec<u8>) {
    out.clear();
    read(listing, |oracle, q| {
        match oracle.compare(&mut Mapping::new(), q.sort, q.left, q.right, q.ignore_locations, q.ignore_bits) {
            Verdict::Eq => out.extend_from_slice(b"eq,-,-"),
            Verdict::FirstNEQOps(left, right) => pair(out, b"op,", left, right),
            Verdict::FirstNEQBlocks(left, right) => pair(out, b"block,", left, right),
            Verdict::FirstNEQRegions(left, right) => pair(out, b"region,", left, right),
        }
        out.push(b'\n');
    });
}

fn pair(out: &mut Vec<u8>, name: &[u8], left: u32, right: u32) {
    out.extend_from_slice(name);
    decimal(out, left);
    out.push(b',');
    decimal(out, right);
}

fn decimal(out: &mut Vec<u8>, number: u32) {
    if number > 9 {
        decimal(out, number / 10);
    }
    out.push(b'0' + (number % 10) as u8);
}

/// For each question both hashes.
pub fn sums(listing: &[u8], out: &mut Vec<u8>) {
    out.clear();
    read(listing, |oracle, q| {
        let hash = |number| oracle.hash(q.sort, number, q.ignore_locations, q.ignore_bits);
        hexadecimal(out, hash(q.left));
        out.push(b',');
        hexadecimal(out, hash(q.right));
        out.push(b'\n');
    });
}

fn hexadecimal(out: &mut Vec<u8>, word: u64) {
    out.extend((0..16).rev().map(|place| b"0123456789abcdef"[(word >> (4 * place)) as usize & 15]));
}
