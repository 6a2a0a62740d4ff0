//! A matrix as a fragment block.

use crate::{Cell, Matrix, Row, cell_bytes};
use solver::{Block, Numbers, Read};

fn put(block: &mut Vec<u8>, number: usize) {
    let number = u16::try_from(number).expect("a number of two bytes");
    block.extend(number.to_be_bytes());
}

impl Matrix {
    /// The fragment block in the matrix's version. Nothing is checked but that each number fits its bytes.
    pub fn block(&self) -> Vec<u8> {
        let mut block = vec![self.version, 0, 0, 0, 0];
        put(&mut block, self.columns);
        put(&mut block, self.rows.len());
        for Row { first, cells } in &self.rows {
            put(&mut block, 2 + cell_bytes(self.version) * cells.len());
            put(&mut block, *first);
            for cell in cells {
                let (letter, weight) = cell.unwrap_or((2, 0));
                block.push(letter);
                match self.version {
                    1 => block.push(u8::try_from(weight).expect("a weight of one byte")),
                    _ => block.extend(weight.to_be_bytes()),
                }
            }
        }
        set_length(&mut block);
        block
    }

    /// The matrix of a fragment block, or the refusal, 1 to 8 or 38, and its second number.
    pub fn read(block: &[u8]) -> Result<Self, Numbers> {
        let block = Block::read(block)?;
        let cell = |(letter, weight): (u8, u32)| -> Cell { (letter < 2).then_some((letter, weight as u16)) };
        let row = |read: &Read| Row { first: usize::from(read.first), cells: block.cells(read).map(cell).collect() };
        let rows = block.reads.iter().map(row).collect();
        Ok(Matrix { version: block.version(), columns: block.columns, rows })
    }
}

/// Sets the length field to the bytes that are there.
pub fn set_length(block: &mut [u8]) {
    let rest = u32::try_from(block.len() - 5).expect("a number of four bytes");
    block[1..5].copy_from_slice(&rest.to_be_bytes());
}
