//! What is counted of a matrix.

use crate::{Matrix, Row};

impl Row {
    /// Whether there is a hole between the read's entries.
    pub fn has_gap(&self) -> bool {
        self.cells.contains(&None)
    }

    /// The column behind the read's last cell.
    pub fn end(&self) -> usize {
        self.first + self.cells.len()
    }
}

impl Matrix {
    /// A: how many reads are active in one column at most, holes included. It may be above 12 here.
    pub fn most_active(&self) -> usize {
        let mut change = vec![0isize; self.columns + 1];
        for row in &self.rows {
            change[row.first] += 1;
            change[row.end()] -= 1;
        }
        let mut active = 0;
        let mut add = |change: isize| {
            active += change;
            active as usize
        };
        change.into_iter().map(&mut add).max().unwrap_or(0)
    }

    /// How many reads have gaps.
    pub fn with_gaps(&self) -> usize {
        self.rows.iter().filter(|row| row.has_gap()).count()
    }
}
