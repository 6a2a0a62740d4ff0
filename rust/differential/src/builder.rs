//! Answers that builders could give, each at the cost that it has.

use crate::Parts;
use blocks::Random;
use matrix::Matrix;
use std::cmp::Ordering;

#[derive(Clone, Copy, Debug, PartialEq, Eq)]
pub enum Builder {
    /// ours, byte for byte
    Ours,
    /// all sides and both haplotypes exchanged
    Exchanged,
    /// a read with c = 0 on side 1, in version 1
    EmptyRead,
    /// a 0 or a 1 where ours is `-`
    LetterAtTie,
    /// one read that has cells on its other side, with the best letters
    OneMoved,
    /// our sides with any letters
    AnyLetters,
    /// any sides with the best letters
    AnySides,
}

/// The letter that costs less, `-` where both cost the same.
fn best([zeros, ones]: [u32; 2]) -> u8 {
    match zeros.cmp(&ones) {
        Ordering::Greater => 0,
        Ordering::Less => 1,
        Ordering::Equal => 2,
    }
}

/// 0, 1, or `-` where it may stand.
fn any([zeros, ones]: [u32; 2], random: &mut Random) -> u8 {
    random.within(0, if zeros == ones { 2 } else { 1 }) as u8
}

/// One of the places, if there are any.
fn one(places: impl Iterator<Item = usize>, random: &mut Random) -> Option<usize> {
    let places: Vec<usize> = places.collect();
    (!places.is_empty()).then(|| random.pick(&places))
}

impl Builder {
    pub const ALL: [Builder; 7] = [
        Builder::Ours,
        Builder::Exchanged,
        Builder::EmptyRead,
        Builder::LetterAtTie,
        Builder::OneMoved,
        Builder::AnyLetters,
        Builder::AnySides,
    ];

    /// The builders that have answers to blocks of this version.
    pub fn of(version: u8) -> impl Iterator<Item = Builder> {
        Self::ALL.into_iter().filter(move |builder| version == 1 || *builder != Builder::EmptyRead)
    }

    /// This builder's answer; None where a block has none of the kind. There is always one with any sides.
    pub fn answer(self, matrix: &Matrix, random: &mut Random) -> Option<Parts> {
        if self == Builder::AnySides {
            let sides = matrix.rows.iter().map(|_| random.within(0, 1) as u8).collect();
            return Some(Parts::honest(matrix, sides, best));
        }
        let mut answer = Parts::ours(&matrix.block())?;
        let empty = |read: &usize| matrix.rows[*read].cells.is_empty();
        let reads = 0..matrix.rows.len();
        match self {
            Builder::Ours | Builder::AnySides => (),
            Builder::Exchanged => {
                reads.last()?;
                answer.sides.iter_mut().for_each(|side| *side ^= 1);
                answer.letters.reverse();
            }
            Builder::EmptyRead => answer.sides[one(reads.filter(empty), random)?] = 1,
            Builder::LetterAtTie => {
                let letters = &mut answer.letters[random.within(0, 1)];
                let tie = one((0..letters.len()).filter(|&column| letters[column] == 2), random)?;
                letters[tie] = random.within(0, 1) as u8;
            }
            Builder::OneMoved => {
                answer.sides[one(reads.filter(|read| !empty(read)), random)?] ^= 1;
                answer = Parts::honest(matrix, answer.sides, best);
            }
            Builder::AnyLetters => answer = Parts::honest(matrix, answer.sides, |sums| any(sums, random)),
        }
        Some(answer)
    }

    /// The verdicts that this builder's answers can get.
    pub fn verdicts(self) -> &'static [u32] {
        match self {
            Builder::Ours => &[57],
            Builder::Exchanged | Builder::EmptyRead | Builder::LetterAtTie => &[56],
            Builder::OneMoved => &[55, 56],
            Builder::AnyLetters | Builder::AnySides => &[55, 56, 57],
        }
    }
}
