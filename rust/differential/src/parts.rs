//! An answer block in its parts, to be changed and laid out again.

use matrix::Matrix;
use solver::{Mode, Stated};

/// By side, column and letter: something of the side's entries there that have this letter.
pub type Sums = [Vec<[u32; 2]>; 2];

#[derive(Clone)]
pub struct Parts {
    pub cost: u32,
    pub flips: u32,
    pub sides: Vec<u8>,
    pub letters: [Vec<u8>; 2],
}

/// What the entries of a division of the reads weigh.
pub fn sums(matrix: &Matrix, sides: &[u8]) -> Sums {
    added(matrix, sides, u32::from)
}

/// How many entries there are in a division of the reads.
pub fn counts(matrix: &Matrix, sides: &[u8]) -> Sums {
    added(matrix, sides, |_| 1)
}

/// What a function makes of each entry's weight, added up.
fn added(matrix: &Matrix, sides: &[u8], of: fn(u16) -> u32) -> Sums {
    let mut sums = [vec![[0; 2]; matrix.columns], vec![[0; 2]; matrix.columns]];
    for (row, &side) in matrix.rows.iter().zip(sides) {
        for (i, cell) in row.cells.iter().enumerate() {
            if let &Some((letter, weight)) = cell {
                sums[usize::from(side)][row.first + i][usize::from(letter)] += of(weight);
            }
        }
    }
    sums
}

/// The two sums that the letters of each side are chosen from in a mode: its own, or with those of the other side, whose letter is
/// the other one.
pub fn choices(mode: Mode, sums: Sums) -> Sums {
    match mode {
        Mode::General => sums,
        Mode::Heterozygous => {
            let crossed = |side: usize| {
                let both = sums[side].iter().zip(&sums[1 - side]);
                both.map(|([zeros, ones], [other_zeros, other_ones])| [zeros + other_ones, ones + other_zeros])
                    .collect()
            };
            [crossed(0), crossed(1)]
        }
    }
}

/// What a letter costs, by the weight of the entries with letter 0 and that of those with letter 1; a `-` either.
pub fn price(letter: u8, [zeros, ones]: [u32; 2]) -> u32 {
    if letter == 0 { ones } else { zeros }
}

impl Parts {
    /// The solver's answer in the general mode; None where it refuses the block.
    pub fn ours(block: &[u8]) -> Option<Self> {
        let (entries, length) = solver::rooms(block).ok()?;
        let (mut work, mut out) = (vec![0; entries], vec![0; length]);
        solver::columns(Mode::General, block, &mut work, &mut out);
        let Stated { cost, flips, sides, letters } = Stated::read(&out)?;
        Some(Parts { cost, flips, sides: sides.to_vec(), letters: letters.map(<[u8]>::to_vec) })
    }

    /// These sides with letters chosen by the sums of their side, at the cost that they have.
    pub fn honest(matrix: &Matrix, sides: Vec<u8>, mut letter: impl FnMut([u32; 2]) -> u8) -> Self {
        let sums = sums(matrix, &sides);
        let letters = sums.each_ref().map(|side| side.iter().map(|&sums| letter(sums)).collect::<Vec<u8>>());
        let paid = letters.iter().flatten().zip(sums.iter().flatten());
        Parts { cost: paid.map(|(&letter, &sums)| price(letter, sums)).sum(), flips: 0, sides, letters }
    }

    /// The answer block of version 2.
    pub fn laid(&self) -> Vec<u8> {
        let marks = [&self.sides[..], &self.letters[0], &self.letters[1]].concat();
        let mut answer = vec![2];
        answer.extend((12 + marks.len() as u32).to_be_bytes());
        answer.extend(self.cost.to_be_bytes());
        answer.extend(self.flips.to_be_bytes());
        answer.extend((self.sides.len() as u16).to_be_bytes());
        answer.extend((self.letters[0].len() as u16).to_be_bytes());
        answer.extend(marks);
        answer
    }
}
