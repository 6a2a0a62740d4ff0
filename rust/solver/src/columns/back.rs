//! The way back: from the last column to the first, the sides of the reads that end there.

use super::Pile;
use crate::Block;
use crate::checks::entries;

/// The sides fixed so far among a column's reads, as they stand in its indices.
struct Fixed {
    /// how many of the column's reads, from a0 on, have their side
    reads: usize,
    /// the side of a0: where it is 1, the digits are the other sides
    turned: u8,
    /// the digits of the others
    low: usize,
}

fn fixed(block: &Block, pile: &Pile, column: usize, sides: &[u8]) -> Fixed {
    let mut fixed = Fixed { reads: 0, turned: 0, low: 0 };
    for (i, &number) in pile.reads().iter().enumerate() {
        if usize::from(block.reads[usize::from(number)].end) == column + 1 {
            break;
        }
        let side = sides[usize::from(number)];
        if i == 0 {
            fixed.turned = side;
        } else {
            fixed.low |= usize::from(side ^ fixed.turned) << (i - 1);
        }
        fixed.reads = i + 1;
    }
    fixed
}

/// The first in closing order of the least entries that have the fixed digits. Candidates are met in closing order:
/// the highest digit, the last read to be compared, changes most often.
fn first_least(part: &[u32], fixed: &Fixed) -> usize {
    let digits = fixed.reads.saturating_sub(1);
    let free = part.len() - (1 << digits);
    let mut k = fixed.low | if fixed.turned == 1 { free } else { 0 };
    let mut best = k;
    let turned = k & free;
    loop {
        let mut digit = part.len() / 2;
        while digit & free != 0 && (k ^ turned) & digit != 0 {
            k ^= digit;
            digit /= 2;
        }
        if digit & free == 0 {
            return best;
        }
        k ^= digit;
        if part[k] < part[best] {
            best = k;
        }
    }
}

/// Writes the sides; gives the least cost.
pub fn way_back(block: &Block, piles: &[Pile], width: usize, work: &[u32], sides: &mut [u8]) -> u32 {
    sides.fill(0);
    let mut cost = None;
    for (column, pile) in piles.iter().enumerate().rev() {
        let part = &work[column * width..][..entries(pile.reads().len())];
        let fixed = fixed(block, pile, column, sides);
        let k = first_least(part, &fixed);
        cost.get_or_insert(part[k]);
        for (i, &number) in pile.reads().iter().enumerate().skip(fixed.reads) {
            let digit = if i == 0 { 0 } else { k >> (i - 1) & 1 };
            sides[usize::from(number)] = digit as u8 ^ fixed.turned;
        }
    }
    cost.unwrap_or(0)
}
