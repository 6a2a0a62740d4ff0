//! What can be wrong with an answer.

use crate::Parts;
use crate::parts::{self, price};
use blocks::Random;
use matrix::{Matrix, set_length};

#[derive(Clone, Copy, Debug, PartialEq, Eq)]
pub enum Fault {
    /// any flip count: no fault, since it is not judged
    Flips,
    /// another cost than the answer has
    Cost,
    /// a `-` where that side's sums differ
    Dash,
    /// a side above 1
    Side,
    /// a letter above 2
    Letter,
    /// a read too many or too few
    Reads,
    /// a column too many or too few
    Columns,
    /// two reads more and a column less, in as many bytes
    Traded,
    Version,
    Length,
    /// bytes are cut off at the end
    Cut,
    /// bytes follow the last letter
    More,
}

/// Another number than this, often the next.
fn other(number: u32, random: &mut Random) -> u32 {
    let any = random.number() as u32;
    let others = [number.wrapping_add(1), number.wrapping_sub(1), number ^ 1 << 16, number ^ 1 << 24, any];
    let other = random.pick(&others);
    if other == number { number ^ 1 } else { other }
}

/// Adds one to a run of bytes, or takes the last away.
fn stretch(marks: &mut Vec<u8>, longer: bool) {
    if longer {
        marks.push(0);
    } else {
        marks.pop();
    }
}

/// Adds to a number of two bytes.
fn add(answer: &mut [u8], at: usize, more: i32) {
    let number = i32::from(u16::from_be_bytes([answer[at], answer[at + 1]])) + more;
    answer[at..at + 2].copy_from_slice(&(number as u16).to_be_bytes());
}

impl Fault {
    /// In the order in which they are put in: each leaves those before it hidden.
    pub const ALL: [Fault; 12] = [
        Fault::Flips,
        Fault::Cost,
        Fault::Dash,
        Fault::Side,
        Fault::Letter,
        Fault::Reads,
        Fault::Columns,
        Fault::Traded,
        Fault::Version,
        Fault::Length,
        Fault::Cut,
        Fault::More,
    ];

    /// The verdict on an answer that has this fault and perhaps some of those before it.
    pub fn verdict(self) -> Option<u32> {
        match self {
            Fault::Flips => None,
            Fault::Cost => Some(54),
            Fault::Dash => Some(53),
            Fault::Side | Fault::Letter => Some(52),
            Fault::Reads | Fault::Columns | Fault::Traded => Some(51),
            Fault::Version | Fault::Length | Fault::Cut | Fault::More => Some(50),
        }
    }

    /// Puts the fault into the parts of an answer; None if there is no place for it. The rest are put into its bytes.
    pub fn put_into_parts(self, answer: &mut Parts, matrix: &Matrix, random: &mut Random) -> Option<()> {
        let longer = random.one_in(2);
        match self {
            Fault::Flips => answer.flips = random.number() as u32,
            Fault::Cost => answer.cost = other(answer.cost, random),
            Fault::Dash => put_dash(answer, matrix, random)?,
            Fault::Side => {
                let read = random.within(0, answer.sides.len().checked_sub(1)?);
                answer.sides[read] = random.within(2, 255) as u8;
            }
            Fault::Letter => {
                let column = random.within(0, matrix.columns - 1);
                answer.letters[random.within(0, 1)][column] = random.within(3, 255) as u8;
            }
            Fault::Reads => stretch(&mut answer.sides, longer || matrix.rows.is_empty()),
            Fault::Columns => answer.letters.iter_mut().for_each(|letters| stretch(letters, longer)),
            _ => (),
        }
        Some(())
    }

    /// Puts the fault into the bytes of an answer.
    pub fn put_into_bytes(self, answer: &mut Vec<u8>, random: &mut Random) {
        let whole = answer.len();
        match self {
            Fault::Traded => {
                add(answer, 13, 2);
                add(answer, 15, -1);
            }
            Fault::Version => answer[0] = random.pick(&[0, 1, 3, 255]),
            Fault::Length => {
                let at = random.within(1, 4);
                answer[at] = answer[at].wrapping_add(random.pick(&[1, 255, 128]));
            }
            Fault::Cut => answer.truncate(random.within(0, whole - 1)),
            Fault::More => answer.extend((0..random.within(1, 4)).map(|_| random.within(0, 2) as u8)),
            _ => (),
        }
        if answer.len() != whole && answer.len() >= 5 && random.one_in(2) {
            set_length(answer);
        }
    }
}

/// Puts a `-` where that side's sums differ.
fn put_dash(answer: &mut Parts, matrix: &Matrix, random: &mut Random) -> Option<()> {
    let sums = parts::sums(matrix, &answer.sides);
    let place = |side: usize, column: usize| {
        let differ = price(0, sums[side][column]) != price(1, sums[side][column]);
        differ.then_some((side, column))
    };
    let places: Vec<(usize, usize)> =
        (0..2).flat_map(|side| (0..matrix.columns).filter_map(move |column| place(side, column))).collect();
    let (side, column) = (!places.is_empty()).then(|| random.pick(&places))?;
    answer.letters[side][column] = 2;
    Some(())
}
