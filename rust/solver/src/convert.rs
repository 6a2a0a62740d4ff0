//! Wish 12 of document 02: a block of version 1 in version 2, without its reads without cells.

use crate::{Block, Numbers, Read};

/// Converts a block of version 1. Any other version is refused by 2, and too small an output by 39, with the size needed.
pub fn convert(bytes: &[u8], out: &mut [u8]) -> Numbers {
    match Block::read(bytes) {
        _ if bytes.len() >= 9 && bytes[0] != 1 => (2, 0),
        Err(refusal) => refusal,
        Ok(block) => written(&widened(&block), out),
    }
}

/// The block in version 2, read by read.
fn widened(block: &Block) -> Vec<u8> {
    let kept: Vec<&Read> = block.reads.iter().filter(|read| read.c() > 0).collect();
    let reads: Vec<u8> = kept.iter().flat_map(|read| widened_read(block, read)).collect();
    let mut wide = vec![2];
    wide.extend((4 + reads.len() as u32).to_be_bytes());
    wide.extend((block.columns as u16).to_be_bytes());
    wide.extend((kept.len() as u16).to_be_bytes());
    wide.extend(reads);
    wide
}

/// A read with weights of two bytes.
fn widened_read(block: &Block, read: &Read) -> Vec<u8> {
    let mut wide = Vec::new();
    wide.extend((2 + 3 * read.c() as u16).to_be_bytes());
    wide.extend(read.first.to_be_bytes());
    for (letter, weight) in block.cells(read) {
        wide.push(letter);
        wide.extend((weight as u16).to_be_bytes());
    }
    wide
}

/// Writes all of it, or nothing.
fn written(wide: &[u8], out: &mut [u8]) -> Numbers {
    match out.get_mut(..wide.len()) {
        Some(room) => {
            room.copy_from_slice(wide);
            (0, 0)
        }
        None => (39, wide.len() as u32),
    }
}
