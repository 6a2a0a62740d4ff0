//! Every division is tried. Nothing here follows from a neighbouring column.

use crate::answer::Entries;
use crate::checks::{Placed, entries};
use crate::{Block, Mode, Numbers, answer};

/// Phases a block in a mode by trying every division. The time doubles with each read that has cells.
pub fn exhaustive(mode: Mode, bytes: &[u8], work: &mut [u32], out: &mut [u8]) -> Numbers {
    match Placed::accepted(bytes, work.len(), out.len()) {
        Ok(Placed { block, width }) => {
            let (cost, division) = search(mode, &block, width, work);
            let flips = write_parts(mode, &block, &division, out);
            answer::write_head(&block, cost, flips, out);
            (0, cost)
        }
        Err(numbers) => numbers,
    }
}

/// The reads with c > 0, latest last column first, equal last columns by read number.
fn closing_order(block: &Block) -> Vec<usize> {
    let mut order: Vec<usize> = (0..block.reads.len()).filter(|&r| block.reads[r].c() > 0).collect();
    order.sort_by_key(|&r| (std::cmp::Reverse(block.reads[r].end), r));
    order
}

/// By side and letter: the weight of the entries of a column that have this letter, and how many they are.
fn sums(block: &Block, sides: &[u8], column: usize) -> (Entries, Entries) {
    let (mut weights, mut counts) = (Entries::default(), Entries::default());
    for (read, &side) in block.reads.iter().zip(sides) {
        if read.active(column) {
            let (letter, weight) = block.cell(read, column - usize::from(read.first));
            if letter < 2 {
                weights[usize::from(side)][usize::from(letter)] += weight;
                counts[usize::from(side)][usize::from(letter)] += 1;
            }
        }
    }
    (weights, counts)
}

fn charge(mode: Mode, block: &Block, sides: &[u8], column: usize) -> u32 {
    let (w, _) = sums(block, sides, column);
    match mode {
        Mode::General => w[0][0].min(w[0][1]) + w[1][0].min(w[1][1]),
        Mode::Heterozygous => (w[0][0] + w[1][1]).min(w[0][1] + w[1][0]),
    }
}

/// The entry that stands for a division of a column's active reads, if a0 is on side 0.
fn index(active: &[usize], sides: &[u8]) -> Option<usize> {
    let Some((&a0, rest)) = active.split_first() else {
        return Some(0);
    };
    let digit = |(i, &r): (usize, &usize)| usize::from(sides[r]) << i;
    (sides[a0] == 0).then(|| rest.iter().enumerate().map(digit).sum())
}

/// Makes the table; gives the least cost and the first division in closing order that has it. The first read in
/// closing order is the highest digit of a division's number, so the numbers rise in closing order.
fn search(mode: Mode, block: &Block, width: usize, work: &mut [u32]) -> (u32, Vec<u8>) {
    let order = closing_order(block);
    let active: Vec<Vec<usize>> =
        (0..block.columns).map(|j| order.iter().copied().filter(|&r| block.reads[r].active(j)).collect()).collect();
    for (part, active) in work.chunks_exact_mut(width).zip(&active) {
        part.fill(0);
        part[..entries(active.len())].fill(u32::MAX);
    }
    let mut best = (u32::MAX, Vec::new());
    for number in 0..1u64 << order.len() {
        let mut sides = vec![0; block.reads.len()];
        for (i, &r) in order.iter().enumerate() {
            sides[r] = (number >> (order.len() - 1 - i) & 1) as u8;
        }
        let charge = |column| charge(mode, block, &sides, column);
        let cost = enter(width, &active, &sides, charge, work);
        if cost < best.0 {
            best = (cost, sides);
        }
    }
    best
}

/// Enters one division's sums of charges into the table, column by column; gives its cost.
fn enter(width: usize, active: &[Vec<usize>], sides: &[u8], charge: impl Fn(usize) -> u32, work: &mut [u32]) -> u32 {
    let mut sum = 0;
    for (column, active) in active.iter().enumerate() {
        sum += charge(column);
        if let Some(k) = index(active, sides) {
            let entry = &mut work[column * width + k];
            *entry = sum.min(*entry);
        }
    }
    sum
}

/// Writes sides and letters; gives the number of flips.
fn write_parts(mode: Mode, block: &Block, division: &[u8], out: &mut [u8]) -> u32 {
    let (sides, [first, second]) = answer::parts(block, out);
    sides.copy_from_slice(division);
    let mut flips = 0;
    for column in 0..block.columns {
        let (weights, counts) = sums(block, division, column);
        let (letters, differ) = answer::letters(mode, weights, counts);
        [first[column], second[column]] = letters;
        flips += differ;
    }
    flips
}
