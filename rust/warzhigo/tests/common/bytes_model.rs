//! The model of hash and key: document 01's walk as bytes. Fed to FNV-1a they are the hash; with the count of every list (results, operands,
//! successors, blocks, arguments, operations) in 8 bytes ahead of it they are the key.

use std::collections::HashMap;

use warzhigo::{Attribute, Ignore, Inherent};

use super::picture::Picture;
use super::question::Sort;
use super::walk::counted;

struct Walked<'a> {
    picture: &'a Picture,
    ignore: Ignore,
    /// Is the count of each list taken in?
    counts: bool,
    bytes: Vec<u8>,
    values: HashMap<u32, u64>,
    blocks: HashMap<u32, u64>,
}

pub fn hash(picture: &Picture, sort: Sort, n: u32, ignore: Ignore) -> u64 {
    let bytes = walked(picture, sort, n, ignore, false);
    bytes.iter().fold(14695981039346656037, |word, byte| (word ^ *byte as u64).wrapping_mul(1099511628211))
}

pub fn key(picture: &Picture, sort: Sort, n: u32, ignore: Ignore) -> Vec<u8> {
    walked(picture, sort, n, ignore, true)
}

fn walked(picture: &Picture, sort: Sort, n: u32, ignore: Ignore, counts: bool) -> Vec<u8> {
    let (bytes, values, blocks) = (Vec::new(), HashMap::new(), HashMap::new());
    let mut walked = Walked { picture, ignore, counts, bytes, values, blocks };
    match sort {
        Sort::Op => {
            walked.operation_shell(n);
            walked.full_operation(n);
        }
        Sort::Block => walked.blocks(&[n]),
        Sort::Region => walked.blocks(&picture.regions[n as usize].blocks),
    }
    walked.bytes
}

impl Walked<'_> {
    fn feed(&mut self, bytes: &[u8]) {
        self.bytes.extend(bytes);
    }

    /// What stands ahead of a list.
    fn ahead(&mut self, length: usize) {
        if self.counts {
            self.count(length as u64);
        }
    }

    fn leaf(&mut self, leaf: u32) {
        self.feed(&leaf.to_le_bytes());
    }

    fn count(&mut self, count: u64) {
        self.feed(&count.to_le_bytes());
    }

    fn location(&mut self, location: u32) {
        if !self.ignore.locations {
            self.leaf(location);
        }
    }

    fn attributes(&mut self, attributes: &[Attribute]) {
        let counted = counted(attributes, &self.ignore);
        self.count(counted.len() as u64);
        for Attribute { key, kind, content, inherent } in counted {
            self.leaf(key);
            self.leaf(kind);
            self.leaf(content);
            self.feed(&[(inherent == Inherent::Yes) as u8]);
        }
    }

    /// The types of values, which then get the next walk numbers.
    fn number(&mut self, values: &[u32]) {
        self.ahead(values.len());
        for n in values {
            self.leaf(self.picture.values[*n as usize].ty);
        }
        for n in values {
            let next = self.values.len() as u64;
            self.values.insert(*n, next);
        }
    }

    fn operation_shell(&mut self, n: u32) {
        let op = &self.picture.ops[n as usize];
        self.leaf(op.kind);
        self.count(op.regions.len() as u64);
        self.location(op.location);
        self.attributes(&op.attributes);
        self.number(&op.results);
    }

    fn block_shell(&mut self, n: u32) {
        let block = &self.picture.blocks[n as usize];
        self.location(block.location);
        self.attributes(&block.attributes);
        self.number(&block.arguments);
        let next = self.blocks.len() as u64;
        self.blocks.insert(n, next);
    }

    /// A name: its walk number, or its store number where it has none yet.
    fn name(&mut self, n: u32, walk: Option<u64>) {
        match walk {
            Some(number) => {
                self.feed(&[0]);
                self.count(number);
            }
            None => {
                self.feed(&[1]);
                self.leaf(n);
            }
        }
    }

    fn full_operation(&mut self, n: u32) {
        let op = &self.picture.ops[n as usize];
        self.ahead(op.operands.len());
        for value in &op.operands {
            self.name(*value, self.values.get(value).copied());
        }
        self.ahead(op.successors.len());
        for block in &op.successors {
            self.name(*block, self.blocks.get(block).copied());
        }
        for region in &op.regions {
            self.blocks(&self.picture.regions[*region as usize].blocks);
        }
    }

    fn blocks(&mut self, list: &[u32]) {
        let inside: Vec<&[u32]> = list.iter().map(|block| self.picture.blocks[*block as usize].operations.as_slice()).collect();
        self.ahead(list.len());
        list.iter().for_each(|block| self.block_shell(*block));
        for ops in &inside {
            self.ahead(ops.len());
            ops.iter().for_each(|op| self.operation_shell(*op));
        }
        inside.concat().into_iter().for_each(|op| self.full_operation(op));
    }
}
