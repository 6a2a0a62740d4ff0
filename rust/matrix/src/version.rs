//! The versions of the fragment block: weights of one byte, and of two; in version 2 each read has cells.

use crate::{Fault, Matrix, Row};

pub const VERSIONS: [u8; 2] = [1, 2];

/// The bytes of a cell: a letter, and a weight of one byte in version 1, of two in version 2.
pub fn cell_bytes(version: u8) -> usize {
    if version == 1 { 2 } else { 3 }
}

/// The first entry with a weight above 255: its row, its column and the weight.
fn heavy(rows: &[Row]) -> Option<(usize, usize, u16)> {
    rows.iter().enumerate().find_map(|(read, row)| {
        let mut weights = row.cells.iter().map(|cell| cell.map_or(0, |(_, weight)| weight));
        let i = weights.position(|weight| weight > 255)?;
        Some((read, row.first + i, row.cells[i]?.1))
    })
}

impl Matrix {
    /// A matrix, in version 2 if some weight is above 255 and in version 1 if none is. Whether it fits is not looked at.
    pub fn new(columns: usize, rows: Vec<Row>) -> Self {
        let version = if heavy(&rows).is_some() { 2 } else { 1 };
        Matrix { version, columns, rows }
    }

    /// The same matrix in this version, unless a weight or a read without cells does not fit.
    pub fn in_version(self, version: u8) -> Result<Self, Fault> {
        let without_cells = self.rows.iter().position(|row| row.cells.is_empty());
        match (version, heavy(&self.rows), without_cells) {
            (1, Some((read, column, weight)), _) => Err(Fault::Weight { row: read + 1, entry: column + 1, weight }),
            (2, _, Some(read)) => Err(Fault::NoCells { row: read + 1 }),
            _ => Ok(Matrix { version, ..self }),
        }
    }
}
