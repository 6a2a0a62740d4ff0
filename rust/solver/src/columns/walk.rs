//! Document 000's Gray-code walk over the divisions of a column: one read changes side at each step, and only its
//! weight moves among the four sums.

use super::Pile;
use crate::Block;
use crate::block::NARROW;
use crate::checks::entries;

/// The four sums in one word. Of weights of one byte (12 reads weigh at most 3,060) all of them, 16 bits each: side 0's letters 0 and 1,
/// then side 1's. Of weights of two bytes (12 reads weigh at most 786,420) side 0's, 32 bits each; side 1's are what is left of the
/// sums with all reads on side 0.
type Sums = u64;

/// The charge of the mode, by the sums and by what they are with all reads on side 0.
fn charge<const CELL: usize, const HETEROZYGOUS: bool>(sums: Sums, all: Sums) -> u32 {
    if CELL == NARROW {
        let lane = |i: u32| (sums >> (16 * i)) as u16;
        if HETEROZYGOUS {
            u32::from((lane(0) + lane(3)).min(lane(1) + lane(2)))
        } else {
            u32::from(lane(0).min(lane(1))) + u32::from(lane(2).min(lane(3)))
        }
    } else {
        let pair = |sums: Sums| (sums as u32, (sums >> 32) as u32);
        let ((a, b), (c, d)) = (pair(sums), pair(all - sums));
        if HETEROZYGOUS { (a + d).min(b + c) } else { a.min(b) + c.min(d) }
    }
}

/// What an entry adds to the sums on side 0, and when it goes from there to side 1.
fn adds<const CELL: usize>(letter: u8, weight: u32) -> (Sums, Sums) {
    if CELL == NARROW {
        let weight = Sums::from(weight) << (16 * (letter & 1));
        (weight, (weight << 32).wrapping_sub(weight))
    } else {
        let weight = Sums::from(weight) << (32 * (letter & 1));
        (weight, weight.wrapping_neg())
    }
}

/// What each active read but the first adds to the sums, and turns in the index of the reads shared with the column
/// before, when it goes to side 1.
struct Steps {
    moves: [Sums; 12],
    turns: [usize; 12],
}

/// What the shared read with this place among them turns: the first stays on side 0 in an index, so its change of side
/// turns all digits.
fn turn(shared: usize, classes: usize) -> usize {
    if shared == 0 { classes - 1 } else { 1 << (shared - 1) }
}

/// The steps of a column, and the sums with all reads on side 0.
fn steps<const CELL: usize>(block: &Block, pile: &Pile, column: usize) -> (Steps, Sums) {
    let classes = entries(pile.joined());
    let mut steps = Steps { moves: [0; 12], turns: [0; 12] };
    let mut sums = 0;
    let mut shared = 0;
    for (i, &number) in pile.reads().iter().enumerate() {
        // SAFETY: the reads of a pile are of this block and active at its column, at most 12
        unsafe {
            let read = block.reads.get_unchecked(usize::from(number));
            let (letter, weight) = block.cell_at::<CELL>(read, column);
            let (added, moved) = adds::<CELL>(letter, weight);
            sums += added;
            *steps.moves.get_unchecked_mut(i) = moved;
            if usize::from(read.first) < column {
                *steps.turns.get_unchecked_mut(i) = turn(shared, classes);
                shared += 1;
            }
        }
    }
    (steps, sums)
}

/// One column's entries: the charge of each division and what it takes over from the column before.
pub fn fill<const EIGHT: bool, const CELL: usize, const HETEROZYGOUS: bool>(
    block: &Block,
    pile: &Pile,
    column: usize,
    carried: &[u32],
    part: &mut [u32],
) {
    let (steps, sums) = steps::<CELL>(block, pile, column);
    // SAFETY: `part` has an entry for each division of the pile, `carried` one for each division of its shared reads
    unsafe {
        if !EIGHT || part.len() < 8 {
            walk::<CELL, HETEROZYGOUS>(&steps, sums, carried, part);
        } else {
            walk_by_eights::<CELL, HETEROZYGOUS>(&steps, sums, carried, part);
        }
    }
}

/// The walk itself, from the sums with all reads on side 0.
unsafe fn walk<const CELL: usize, const HETEROZYGOUS: bool>(
    steps: &Steps,
    all: Sums,
    carried: &[u32],
    part: &mut [u32],
) {
    let mut sums = all;
    let (mut k, mut fold, mut step) = (0, 0, 1);
    loop {
        unsafe {
            *part.get_unchecked_mut(k) = charge::<CELL, HETEROZYGOUS>(sums, all) + carried.get_unchecked(fold);
            if step == part.len() {
                return;
            }
            let digit = step.trailing_zeros() as usize;
            let moved = *steps.moves.get_unchecked(digit + 1);
            let back = k >> digit & 1 == 1;
            sums = if back { sums.wrapping_sub(moved) } else { sums.wrapping_add(moved) };
            fold ^= steps.turns.get_unchecked(digit + 1);
            k ^= 1 << digit;
        }
        step += 1;
    }
}

/// What the sides of the three reads a1, a2 and a3 add and turn.
fn low_digits(steps: &Steps) -> ([Sums; 8], [usize; 8]) {
    let (mut adds, mut turns) = ([0; 8], [0; 8]);
    for digit in 0..3 {
        for i in 0..1 << digit {
            adds[i + (1 << digit)] = steps.moves[digit + 1].wrapping_add(adds[i]);
            turns[i + (1 << digit)] = steps.turns[digit + 1] ^ turns[i];
        }
    }
    (adds, turns)
}

/// The walk over the higher digits, eight entries at each step.
unsafe fn walk_by_eights<const CELL: usize, const HETEROZYGOUS: bool>(
    steps: &Steps,
    all: Sums,
    carried: &[u32],
    part: &mut [u32],
) {
    let (adds, turns) = low_digits(steps);
    let mut sums = all;
    let (mut k, mut fold, mut step) = (0, 0, 1);
    loop {
        unsafe {
            for i in 0..8 {
                *part.get_unchecked_mut(8 * k + i) = charge::<CELL, HETEROZYGOUS>(sums.wrapping_add(adds[i]), all)
                    + carried.get_unchecked(fold ^ turns[i]);
            }
            if 8 * step == part.len() {
                return;
            }
            let digit = step.trailing_zeros() as usize;
            let moved = *steps.moves.get_unchecked(digit + 4);
            let back = k >> digit & 1 == 1;
            sums = if back { sums.wrapping_sub(moved) } else { sums.wrapping_add(moved) };
            fold ^= steps.turns.get_unchecked(digit + 4);
            k ^= 1 << digit;
        }
        step += 1;
    }
}
