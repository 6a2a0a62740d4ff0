//! The fragment block, and refusals 1 to 8, 38 among them.

use crate::Numbers;
use std::ops::Range;

/// The bytes of a cell of version 1: a letter, and a weight of one byte.
pub(crate) const NARROW: usize = 2;

/// The bytes of a cell of version 2: a letter, and a weight of two bytes.
pub(crate) const WIDE: usize = 3;

/// Where a read lies: the columns from `first` to before `end`, and its cells in the block.
#[derive(Clone, Copy)]
pub struct Read {
    pub first: u16,
    pub end: u16,
    at: u32,
}

/// A fragment block that passes checks 1 to 8. In version 2 each of its reads has cells.
pub struct Block<'a> {
    bytes: &'a [u8],
    /// the bytes of a cell, [`NARROW`] or [`WIDE`]
    pub(crate) cell: usize,
    pub columns: usize,
    pub reads: Vec<Read>,
}

fn word(bytes: &[u8], at: usize) -> usize {
    usize::from(bytes[at]) << 8 | usize::from(bytes[at + 1])
}

/// The bytes of a cell, columns and reads; refusals 1 to 4.
fn header(bytes: &[u8]) -> Result<(usize, usize, usize), Numbers> {
    if bytes.len() < 9 {
        return Err((1, 0));
    }
    let cell = match bytes[0] {
        1 => NARROW,
        2 => WIDE,
        _ => return Err((2, 0)),
    };
    if word(bytes, 1) << 16 | word(bytes, 3) != bytes.len() - 5 {
        return Err((3, 0));
    }
    let (columns, reads) = (word(bytes, 5), word(bytes, 7));
    if columns == 0 || columns > 1024 || reads > 1024 {
        return Err((4, 0));
    }
    Ok((cell, columns, reads))
}

/// The weight of a cell: the big-endian number behind its letter.
pub(crate) fn weight(cell: &[u8]) -> u32 {
    cell[1..].iter().fold(0, |weight, &byte| weight << 8 | u32::from(byte))
}

/// Whether refusal 7 applies: some letter is above 2 or a hole has a weight, or a hole stands first or last.
fn faulty<const CELL: usize>(cells: &[u8]) -> bool {
    let mut bad = false;
    for cell in cells.chunks_exact(CELL) {
        bad |= cell[0] > 1 && (cell[0], weight(cell)) != (2, 0);
    }
    bad || !cells.is_empty() && (cells[0] == 2 || cells[cells.len() - CELL] == 2)
}

/// The read whose length field should stand at `at`, or the number of its refusal. There may be 1,024 without cells, to which a
/// call of its own would be dear.
#[inline(always)]
fn read_at<const CELL: usize>(bytes: &[u8], at: usize, columns: usize) -> Result<Read, u32> {
    if bytes.len() - at < 2 {
        return Err(5);
    }
    let length = word(bytes, at);
    if length < 2 || !(length - 2).is_multiple_of(CELL) || length > bytes.len() - at - 2 {
        return Err(5);
    }
    let (first, cells) = (word(bytes, at + 2), (length - 2) / CELL);
    if CELL == WIDE && cells == 0 {
        return Err(38);
    }
    if cells == 0 && first != 0 || first + cells > columns {
        return Err(6);
    }
    if faulty::<CELL>(&bytes[at + 4..at + 2 + length]) {
        return Err(7);
    }
    Ok(Read { first: first as u16, end: (first + cells) as u16, at: (at + 4) as u32 })
}

/// So many reads; refusals 5, 38, 6 and 7 read by read, then 8.
fn reads<const CELL: usize>(bytes: &[u8], columns: usize, count: usize) -> Result<Vec<Read>, Numbers> {
    let mut reads = Vec::with_capacity(count);
    let mut at = 9;
    for number in 0..count {
        let read = read_at::<CELL>(bytes, at, columns).map_err(|refusal| (refusal, number as u32))?;
        at += 4 + CELL * read.c();
        reads.push(read);
    }
    if at == bytes.len() { Ok(reads) } else { Err((8, 0)) }
}

impl<'a> Block<'a> {
    /// Checks 1 to 8, in this order; 38 between 5 and 6.
    pub fn read(bytes: &'a [u8]) -> Result<Self, Numbers> {
        let (cell, columns, count) = header(bytes)?;
        let reads = match cell {
            NARROW => reads::<NARROW>(bytes, columns, count)?,
            _ => reads::<WIDE>(bytes, columns, count)?,
        };
        Ok(Block { bytes, cell, columns, reads })
    }

    /// The same matrix with other reads, which are parts of its own.
    pub(crate) fn with_reads(&self, reads: Vec<Read>) -> Self {
        Block { bytes: self.bytes, cell: self.cell, columns: self.columns, reads }
    }

    /// The version of the block.
    pub fn version(&self) -> u8 {
        self.bytes[0]
    }

    /// The bytes of a read's cells, which have so many each.
    pub(crate) fn bytes(&self, read: &Read, cell: usize) -> &'a [u8] {
        &self.bytes[read.at as usize..][..cell * read.c()]
    }

    /// Letter and weight of each cell of a read. A hole has letter 2.
    pub fn cells(&self, read: &Read) -> impl Iterator<Item = (u8, u32)> + use<'a> {
        self.bytes(read, self.cell).chunks_exact(self.cell).map(|cell| (cell[0], weight(cell)))
    }

    /// Letter and weight of one cell of a read.
    pub(crate) fn cell(&self, read: &Read, number: usize) -> (u8, u32) {
        let cell = &self.bytes(read, self.cell)[self.cell * number..][..self.cell];
        (cell[0], weight(cell))
    }

    /// Letter and weight of a read at a column where it is active, in a block with cells of so many bytes.
    ///
    /// # Safety
    /// The read is of this block and is active at the column, and the block's cells have so many bytes.
    pub(crate) unsafe fn cell_at<const CELL: usize>(&self, read: &Read, column: usize) -> (u8, u32) {
        let at = read.at as usize + CELL * (column - read.first as usize);
        let cell = unsafe { self.bytes.get_unchecked(at..at + CELL) };
        (cell[0], weight(cell))
    }
}

impl Read {
    /// The part of the read from one of its cells, which have so many bytes, to before another.
    pub(crate) fn part(&self, cells: Range<usize>, bytes: usize) -> Self {
        let column = |cell: usize| self.first + cell as u16;
        Read { first: column(cells.start), end: column(cells.end), at: self.at + (bytes * cells.start) as u32 }
    }

    /// How many cells the read has.
    pub fn c(&self) -> usize {
        usize::from(self.end - self.first)
    }

    pub fn active(&self, column: usize) -> bool {
        usize::from(self.first) <= column && column < usize::from(self.end)
    }
}
