//! What an accepted call wrote, with types.

use std::fmt;

/// The version of the answer block that the library writes.
const VERSION: u8 = 2;

/// A letter of a haplotype, with its byte in the answer block.
#[derive(Clone, Copy, Debug, PartialEq, Eq, Hash)]
pub enum Letter {
    Zero = 0,
    One = 1,
    /// no letter: the two sums that it is chosen from are equal
    Tie = 2,
}

impl Letter {
    fn read(byte: u8) -> Self {
        match byte {
            0 => Letter::Zero,
            1 => Letter::One,
            2 => Letter::Tie,
            _ => panic!("the library gives {byte}, which is no letter"),
        }
    }
}

impl fmt::Display for Letter {
    fn fmt(&self, f: &mut fmt::Formatter) -> fmt::Result {
        f.write_str(match self {
            Letter::Zero => "0",
            Letter::One => "1",
            Letter::Tie => "-",
        })
    }
}

/// The table: for each column T entries, the least sums of charges up to it.
#[derive(Clone, Debug, PartialEq, Eq)]
pub struct Table {
    entries: Vec<u32>,
    columns: usize,
}

impl Table {
    /// The T entries of a column.
    pub fn column(&self, column: usize) -> &[u32] {
        let width = self.entries.len() / self.columns;
        &self.entries[column * width..][..width]
    }

    /// All entries, column j's from j × T on.
    pub fn entries(&self) -> &[u32] {
        &self.entries
    }
}

/// The answer for an accepted block. It prints as the program `phase` prints it.
#[derive(Clone, Debug, PartialEq, Eq)]
pub struct Answer {
    pub cost: u32,
    pub flips: u32,
    /// 0 or 1, by read number
    pub sides: Vec<u8>,
    /// haplotype 1, of side 0, and haplotype 2, of side 1, each by column
    pub haplotypes: [Vec<Letter>; 2],
    pub table: Table,
}

impl Answer {
    /// Reads an answer block; the table is the work room, no larger than it has to be.
    pub(crate) fn read(block: &[u8], work: Vec<u32>) -> Self {
        assert_eq!(block[0], VERSION, "the library writes answer blocks of another version");
        let long = |at: usize| u32::from_be_bytes([block[at], block[at + 1], block[at + 2], block[at + 3]]);
        let short = |at: usize| usize::from(u16::from_be_bytes([block[at], block[at + 1]]));
        let (reads, columns) = (short(13), short(15));
        let (sides, letters) = block[17..].split_at(reads);
        let (first, second) = letters.split_at(columns);
        let haplotype = |letters: &[u8]| letters.iter().copied().map(Letter::read).collect();
        Answer {
            cost: long(5),
            flips: long(9),
            sides: sides.to_vec(),
            haplotypes: [haplotype(first), haplotype(second)],
            table: Table { entries: work, columns },
        }
    }

    /// The answer block, byte for byte as the library wrote it.
    pub fn block(&self) -> Vec<u8> {
        let letters = self.haplotypes.iter().flatten().map(|&letter| letter as u8);
        let marks: Vec<u8> = self.sides.iter().copied().chain(letters).collect();
        let mut block = vec![VERSION];
        block.extend((12 + marks.len() as u32).to_be_bytes());
        block.extend(self.cost.to_be_bytes());
        block.extend(self.flips.to_be_bytes());
        block.extend((self.sides.len() as u16).to_be_bytes());
        block.extend((self.haplotypes[0].len() as u16).to_be_bytes());
        block.extend(marks);
        block
    }
}

/// An answer, and how sure each of its letters is. It prints as the program `phase --margins` prints it.
#[derive(Clone, Debug, PartialEq, Eq)]
pub struct AnswerWithMargins {
    pub answer: Answer,
    /// of haplotype 1 and of haplotype 2, each by column: what the other letter would cost more, 0 exactly where there is no letter
    pub margins: [Vec<u32>; 2],
}

impl AnswerWithMargins {
    /// An answer with the numbers that the library wrote, haplotype 1's first.
    pub(crate) fn read(answer: Answer, mut margins: Vec<u32>) -> Self {
        let second = margins.split_off(answer.haplotypes[0].len());
        AnswerWithMargins { answer, margins: [margins, second] }
    }
}

fn line<T: fmt::Display>(f: &mut fmt::Formatter, name: &str, items: &[T]) -> fmt::Result {
    write!(f, "{name} ")?;
    items.iter().try_for_each(|item| item.fmt(f))?;
    writeln!(f)
}

impl fmt::Display for Answer {
    fn fmt(&self, f: &mut fmt::Formatter) -> fmt::Result {
        writeln!(f, "cost {}", self.cost)?;
        writeln!(f, "flips {}", self.flips)?;
        if self.sides.is_empty() {
            writeln!(f, "sides none")?;
        } else {
            line(f, "sides", &self.sides)?;
        }
        line(f, "hap1", &self.haplotypes[0])?;
        line(f, "hap2", &self.haplotypes[1])
    }
}

impl fmt::Display for AnswerWithMargins {
    fn fmt(&self, f: &mut fmt::Formatter) -> fmt::Result {
        self.answer.fmt(f)?;
        for (name, margins) in ["margin1", "margin2"].iter().zip(&self.margins) {
            write!(f, "{name}")?;
            margins.iter().try_for_each(|margin| write!(f, " {margin}"))?;
            writeln!(f)?;
        }
        Ok(())
    }
}
