//! A division with its haplotypes, and what is read off it.

use matrix::Matrix;
use solver::Stated;

/// Ours, or the builder's as the answer states it.
pub struct Division {
    pub cost: u32,
    pub flips: u32,
    /// by read number
    pub sides: Vec<u8>,
    /// of either haplotype, by column; 2 is `-`
    pub letters: [Vec<u8>; 2],
    /// of our letters; a builder's answer states none
    pub margins: Option<[Vec<u32>; 2]>,
}

/// What is read off a division.
#[derive(Default)]
pub struct Marks {
    /// how many entries differ from their haplotype's letter, and their weight; at a `-` none does
    pub entries: usize,
    pub weight: u32,
    /// what the entries at a `-` cost, whichever letter stood there
    pub at_dashes: u32,
    /// the `-` where the side's sums differ, by side and column
    pub false_dashes: Vec<(usize, usize)>,
    /// the weak margins, by side and column: above 0 and below the average weight of an entry
    pub weak: Vec<(usize, usize)>,
}

/// Side and column of every letter.
fn places(matrix: &Matrix) -> impl Iterator<Item = (usize, usize)> {
    (0..2).flat_map(|side| (0..matrix.columns).map(move |column| (side, column)))
}

/// The places of the weak margins: one entry of average weight with the other letter would turn the letter.
fn weak(matrix: &Matrix, margins: &[Vec<u32>; 2]) -> Vec<(usize, usize)> {
    let weight: u64 = entries(matrix).map(|(_, _, (_, weight))| u64::from(weight)).sum();
    let count = entries(matrix).count() as u64;
    let weak = |margin: u32| margin > 0 && u64::from(margin) * count < weight;
    places(matrix).filter(|&(side, column)| weak(margins[side][column])).collect()
}

impl Division {
    /// Our answer to a block that the library accepts.
    pub fn ours(block: &[u8]) -> Self {
        let velejume::AnswerWithMargins { answer: ours, margins } =
            velejume::phase_margins(block).expect("the block was judged");
        let letters = ours.haplotypes.map(|letters| letters.iter().map(|&letter| letter as u8).collect());
        Division { cost: ours.cost, flips: ours.flips, sides: ours.sides, letters, margins: Some(margins) }
    }

    /// The builder's, of an answer that got none of 50 to 52.
    pub fn stated(answer: &[u8]) -> Self {
        let Stated { cost, flips, sides, letters } = Stated::read(answer).expect("the answer is not malformed");
        Division { cost, flips, sides: sides.to_vec(), letters: letters.map(<[u8]>::to_vec), margins: None }
    }

    /// The letter of a read's haplotype at a column.
    fn letter(&self, read: usize, column: usize) -> u8 {
        self.letters[usize::from(self.sides[read])][column]
    }

    /// Whether an entry differs from its haplotype's letter. At a `-` none does.
    pub fn disagrees(&self, read: usize, column: usize, entry: u8) -> bool {
        let letter = self.letter(read, column);
        letter < 2 && letter != entry
    }

    pub fn marks(&self, matrix: &Matrix) -> Marks {
        let weak = self.margins.as_ref().map(|margins| weak(matrix, margins)).unwrap_or_default();
        let mut marks = Marks { weak, ..Marks::default() };
        let mut sums = [vec![[0; 2]; matrix.columns], vec![[0; 2]; matrix.columns]];
        for (read, column, (letter, weight)) in entries(matrix) {
            if self.disagrees(read, column, letter) {
                marks.entries += 1;
                marks.weight += u32::from(weight);
            }
            sums[usize::from(self.sides[read])][column][usize::from(letter)] += u32::from(weight);
        }
        for (side, column) in places(matrix) {
            match (self.letters[side][column], sums[side][column]) {
                (2, [zeros, ones]) if zeros == ones => marks.at_dashes += zeros,
                (2, _) => marks.false_dashes.push((side, column)),
                _ => (),
            }
        }
        marks
    }
}

/// Read, column, letter and weight of every entry.
pub fn entries(matrix: &Matrix) -> impl Iterator<Item = (usize, usize, (u8, u16))> {
    matrix.rows.iter().enumerate().flat_map(|(read, row)| {
        let cells = row.cells.iter().enumerate();
        cells.filter_map(move |(i, cell)| Some((read, row.first + i, (*cell)?)))
    })
}
