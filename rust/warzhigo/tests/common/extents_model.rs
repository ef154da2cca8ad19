//! The model of extents: how long the key is, what is defined, and how deep it is nested, each found for itself.

use warzhigo::{Extent, Ignore};

use super::bytes_model;
use super::defined::Defined;
use super::picture::Picture;
use super::question::Sort;

pub fn extent(picture: &Picture, sort: Sort, n: u32, ignore: &Ignore) -> Extent {
    let bytes = bytes_model::key(picture, sort, n, *ignore).len();
    let Defined { values, blocks, ops } = Defined::by(picture, sort, n);
    let nesting = match sort {
        Sort::Op => below(picture, n),
        Sort::Block => deepest(picture, &[n]).unwrap_or(0),
        Sort::Region => deepest(picture, &picture.regions[n as usize].blocks).unwrap_or(0),
    };
    Extent { bytes, values: values.len() as u32, blocks: blocks.len() as u32, operations: ops.len() as u32, nesting }
}

/// Under an operation.
fn below(picture: &Picture, n: u32) -> u32 {
    let regions = picture.ops[n as usize].regions.iter();
    let nested = regions.filter_map(|region| deepest(picture, &picture.regions[*region as usize].blocks));
    nested.map(|nesting| nesting + 1).max().unwrap_or(0)
}

/// In blocks, from their region on; nothing where there is no operation.
fn deepest(picture: &Picture, blocks: &[u32]) -> Option<u32> {
    let ops = blocks.iter().flat_map(|n| &picture.blocks[*n as usize].operations);
    ops.map(|n| below(picture, *n)).max()
}
