//! Document 01's matrix notation, and the fragment block that a matrix stands for.
//!
//! Rows are separated by `/` or by a newline, entries by blanks. `0:5` is letter 0 of weight 5, `.` a hole or no cell. Dots before
//! the first and after the last entry of a row are no cells; a row of dots alone is a read with c = 0. The longest row says
//! how many columns there are, unless they are given. A matrix with a weight above 255 is a block of version 2, which has no
//! reads with c = 0; any other is one of version 1, unless version 2 is asked for.
//!
//! ```
//! let matrix = matrix::parse("0:5 . / 1:3 0:2 / 1:6 1:1 / . 0:2", None).unwrap();
//! assert_eq!(matrix.block().len(), 37);
//! assert_eq!(matrix.to_string(), "0:5 . /\n1:3 0:2 /\n1:6 1:1 /\n. 0:2\n");
//! assert_eq!(matrix::parse("0:5 .\n1:3 0:2\n1:6 1:1\n. 0:2", None), Ok(matrix.clone()));
//!
//! assert_eq!(matrix.in_version(2).unwrap().block().len(), 43);
//! assert_eq!(matrix::parse("0:256", None).unwrap().version, 2);
//! ```

mod block;
mod counts;
mod text;
mod version;

pub use block::set_length;
pub use text::{Fault, parse};
pub use version::{VERSIONS, cell_bytes};

/// An entry's letter and weight, or a hole.
pub type Cell = Option<(u8, u16)>;

/// A read: its first column and its cells from there on.
#[derive(Clone, Debug, Default, PartialEq, Eq)]
pub struct Row {
    pub first: usize,
    pub cells: Vec<Cell>,
}

#[derive(Clone, Debug, PartialEq, Eq)]
pub struct Matrix {
    /// of the block that it is written as
    pub version: u8,
    pub columns: usize,
    pub rows: Vec<Row>,
}
