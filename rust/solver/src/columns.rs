//! The column method of document 000, written for speed: one column follows from the one before, and the sides are
//! read back from the last column to the first.

mod back;
mod carry;
mod forgetful;
mod letters;
mod pile;
mod walk;

use crate::block::{NARROW, WIDE};
use crate::checks::{Placed, entries};
use crate::{Block, Mode, Numbers, answer};
use pile::Pile;

pub use forgetful::forgetful;

/// Phases a block in a mode by columns, in time that grows with the bytes of the block and the entries of the table.
pub fn columns(mode: Mode, bytes: &[u8], work: &mut [u32], out: &mut [u8]) -> Numbers {
    phased::<true>(mode, bytes, work, out)
}

/// The same by document 000's walk as it stands: each step leads to one entry.
pub fn walk(mode: Mode, bytes: &[u8], work: &mut [u32], out: &mut [u8]) -> Numbers {
    phased::<false>(mode, bytes, work, out)
}

/// By eight entries at a step or by one.
fn phased<const EIGHT: bool>(mode: Mode, bytes: &[u8], work: &mut [u32], out: &mut [u8]) -> Numbers {
    match Placed::accepted(bytes, work.len(), out.len()) {
        Ok(placed) => match (mode, placed.block.cell) {
            (Mode::General, NARROW) => solved::<EIGHT, NARROW, false>(&placed, work, out),
            (Mode::General, _) => solved::<EIGHT, WIDE, false>(&placed, work, out),
            (Mode::Heterozygous, NARROW) => solved::<EIGHT, NARROW, true>(&placed, work, out),
            (Mode::Heterozygous, _) => solved::<EIGHT, WIDE, true>(&placed, work, out),
        },
        Err(numbers) => numbers,
    }
}

/// A block with cells of so many bytes in one mode, for which this is compiled: weights of one byte do not pay for those of two,
/// nor one mode for the other.
fn solved<const EIGHT: bool, const CELL: usize, const HETEROZYGOUS: bool>(
    placed: &Placed,
    work: &mut [u32],
    out: &mut [u8],
) -> Numbers {
    let Placed { block, width } = placed;
    let mode = if HETEROZYGOUS { Mode::Heterozygous } else { Mode::General };
    let piles = pile::piles(block);
    table::<EIGHT, CELL, HETEROZYGOUS>(block, &piles, *width, work);
    let (sides, haplotypes) = answer::parts(block, out);
    let cost = back::way_back(block, &piles, *width, work, sides);
    let flips = letters::write::<CELL>(mode, block, sides, haplotypes);
    answer::write_head(block, cost, flips, out);
    (0, cost)
}

/// Every column's entries, from the first column on.
fn table<const EIGHT: bool, const CELL: usize, const HETEROZYGOUS: bool>(
    block: &Block,
    piles: &[Pile],
    width: usize,
    work: &mut [u32],
) {
    let mut room = vec![0; width];
    let mut before: &[u32] = &[0];
    for (column, (part, pile)) in work.chunks_exact_mut(width).zip(piles).enumerate() {
        let carried = carry::least(before, entries(pile.joined()), &mut room);
        let (used, rest) = part.split_at_mut(entries(pile.reads().len()));
        walk::fill::<EIGHT, CELL, HETEROZYGOUS>(block, pile, column, carried, used);
        rest.fill(0);
        before = used;
    }
}
