//! Damage to one field of a block.

use crate::Random;
use matrix::{Matrix, cell_bytes, set_length};

/// What is damaged.
#[derive(Clone, Copy, Debug, PartialEq, Eq)]
pub enum Field {
    Version,
    Length,
    Columns,
    Reads,
    /// a read's L
    ReadLength,
    /// a read's first column
    First,
    /// a read loses its cells, and its first column may be any
    Cells,
    Letter,
    Weight,
    /// bytes are cut off at the end
    Cut,
    /// bytes follow the last read
    More,
    /// any one bit
    Bit,
}

/// Sets a number of two bytes.
fn put(block: &mut [u8], at: usize, number: usize) {
    block[at..at + 2].copy_from_slice(&(number as u16).to_be_bytes());
}

impl Field {
    pub const ALL: [Field; 12] = [
        Field::Version,
        Field::Length,
        Field::Columns,
        Field::Reads,
        Field::ReadLength,
        Field::First,
        Field::Cells,
        Field::Letter,
        Field::Weight,
        Field::Cut,
        Field::More,
        Field::Bit,
    ];

    /// The block of a matrix with this field damaged; None if it has no such field. Some damage is lawful.
    pub fn damaged(self, matrix: &Matrix, random: &mut Random) -> Option<Vec<u8>> {
        let mut block = matrix.block();
        let any = random.within(0, 65535);
        match self {
            Field::Version => block[0] = random.pick(&[0, 3 - matrix.version, 3, 255]),
            Field::Length => self.stretch(&mut block, random),
            Field::Columns => {
                let m = matrix.columns;
                put(&mut block, 5, random.pick(&[0, 1, m - 1, m + 1, 1024, 1025, any]));
            }
            Field::Reads => {
                let n = matrix.rows.len();
                put(&mut block, 7, random.pick(&[0, n + 1, n + 2, n.saturating_sub(1), 1024, 1025, any]));
            }
            Field::ReadLength | Field::First => self.damage_read(matrix, &mut block, random)?,
            Field::Cells => lose_cells(matrix, &mut block, random)?,
            Field::Letter | Field::Weight => self.damage_cell(matrix, &mut block, random)?,
            Field::Cut | Field::More => self.stretch(&mut block, random),
            Field::Bit => {
                let at = random.within(0, block.len() - 1);
                block[at] ^= 1 << random.within(0, 7);
            }
        }
        Some(block)
    }

    /// Damages L or the first column of any read.
    fn damage_read(self, matrix: &Matrix, block: &mut [u8], random: &mut Random) -> Option<()> {
        let read = random.within(0, matrix.rows.len().checked_sub(1)?);
        let (at, row) = (place(matrix, read), &matrix.rows[read]);
        let (length, first, m) = (2 + cell_bytes(matrix.version) * row.cells.len(), row.first, matrix.columns);
        let any = random.within(0, 65535);
        if self == Field::ReadLength {
            let more = random.within(1, 6);
            put(block, at, random.pick(&[0, 1, 2, length.saturating_sub(more), length + more, 65535, any]));
        } else {
            put(
                block,
                at + 2,
                random.pick(&[0, first + 1, first.saturating_sub(1), m, m - row.cells.len() + 1, 65535, any]),
            );
        }
        Some(())
    }

    /// Damages letter or weight of the first, the last or any cell of a read that has cells.
    fn damage_cell(self, matrix: &Matrix, block: &mut [u8], random: &mut Random) -> Option<()> {
        let reads: Vec<usize> = (0..matrix.rows.len()).filter(|&r| !matrix.rows[r].cells.is_empty()).collect();
        let read = reads[random.within(0, reads.len().checked_sub(1)?)];
        let last = matrix.rows[read].cells.len() - 1;
        let any = random.within(0, last);
        let cell = random.pick(&[0, last, any]);
        let at = place(matrix, read) + 4 + cell_bytes(matrix.version) * cell;
        match (self, matrix.version) {
            (Field::Letter, _) => block[at] = random.pick(&[0, 1, 2, 3, 255]),
            (_, 1) => block[at + 1] = random.pick(&[0, 1, 255]),
            _ => put(block, at + 1, random.pick(&[0, 1, 255, 256, 65280, 65535])),
        }
        Some(())
    }

    /// Damages the length field, cuts bytes off or adds some; the length field follows half of the time.
    fn stretch(self, block: &mut Vec<u8>, random: &mut Random) {
        match self {
            Field::Cut => {
                let (last, any, head) = (random.within(1, 3), random.within(0, block.len() - 1), random.within(0, 9));
                block.truncate(random.pick(&[block.len() - last, any, head.min(block.len() - 1)]));
            }
            Field::More => block.extend((0..random.within(1, 5)).map(|_| random.within(0, 3) as u8)),
            _ => {
                let at = random.within(1, 4);
                block[at] = block[at].wrapping_add(random.pick(&[1, 255, 128]));
            }
        }
        if self != Field::Length && block.len() >= 5 && random.one_in(2) {
            set_length(block);
        }
    }
}

/// Takes the cells of any read away; the length field follows. Its first column is 0, another, or what it was.
fn lose_cells(matrix: &Matrix, block: &mut Vec<u8>, random: &mut Random) -> Option<()> {
    let read = random.within(0, matrix.rows.len().checked_sub(1)?);
    let (at, row) = (place(matrix, read), &matrix.rows[read]);
    block.drain(at + 4..at + 4 + cell_bytes(matrix.version) * row.cells.len());
    put(block, at, 2);
    put(block, at + 2, random.pick(&[0, 7, row.first, matrix.columns]));
    set_length(block);
    Some(())
}

/// Where a read's L stands in the block of a matrix.
fn place(matrix: &Matrix, read: usize) -> usize {
    9 + matrix.rows[..read].iter().map(|row| 4 + cell_bytes(matrix.version) * row.cells.len()).sum::<usize>()
}
