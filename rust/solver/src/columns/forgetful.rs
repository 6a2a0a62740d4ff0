//! The column method with the fault that a suite has to find: a read counts as active only where it has a letter.
//!
//! In a hole such a method has forgotten the read's side, and behind the hole it chooses one anew. So it divides the runs of
//! entries without a hole as if each were a read of its own, and this is how it is written here.

use super::{back, letters, pile, table};
use crate::block::{NARROW, Read, WIDE};
use crate::checks::Placed;
use crate::{Block, Mode, Numbers, answer};
use std::ops::Range;

/// The runs of cells that are no holes.
fn runs(cells: impl Iterator<Item = (u8, u32)>) -> Vec<Range<usize>> {
    let mut runs: Vec<Range<usize>> = Vec::new();
    for (i, _) in cells.enumerate().filter(|(_, (letter, _))| *letter < 2) {
        match runs.last_mut() {
            Some(run) if run.end == i => run.end = i + 1,
            _ => runs.push(i..i + 1),
        }
    }
    runs
}

/// The runs of each read.
fn split(block: &Block) -> Vec<Vec<Read>> {
    let split = |read: &Read| runs(block.cells(read)).into_iter().map(|run| read.part(run, block.cell)).collect();
    block.reads.iter().map(split).collect()
}

/// Phases a block in the general mode, forgetting each read in its holes. Cost, flips and letters are those of the divided runs; a
/// read's side is that of its first run, which the way back meets last. Refusals are as they should be.
pub fn forgetful(bytes: &[u8], work: &mut [u32], out: &mut [u8]) -> Numbers {
    match Placed::accepted(bytes, work.len(), out.len()) {
        Ok(placed) if placed.block.cell == NARROW => forgotten::<NARROW>(&placed, work, out),
        Ok(placed) => forgotten::<WIDE>(&placed, work, out),
        Err(numbers) => numbers,
    }
}

fn forgotten<const CELL: usize>(placed: &Placed, work: &mut [u32], out: &mut [u8]) -> Numbers {
    let Placed { block, width } = placed;
    let split = split(block);
    let runs = block.with_reads(split.concat());
    let piles = pile::piles(&runs);
    table::<true, CELL, false>(&runs, &piles, *width, work);
    let mut sides = vec![0; runs.reads.len()];
    let cost = back::way_back(&runs, &piles, *width, work, &mut sides);
    let (stated, haplotypes) = answer::parts(block, out);
    let flips = letters::write::<CELL>(Mode::General, &runs, &sides, haplotypes);
    let mut next = 0;
    for (side, runs) in stated.iter_mut().zip(&split) {
        *side = if runs.is_empty() { 0 } else { sides[next] };
        next += runs.len();
    }
    answer::write_head(block, cost, flips, out);
    (0, cost)
}
