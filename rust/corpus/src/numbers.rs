//! The numbers of a block and of the answer to it.

use crate::Outcome;
use matrix::Matrix;
use solver::Stated;
use velejume::{OUTPUT_BYTES, Verdict, phase_in};

/// Each where there is one.
#[derive(Clone, Copy, Debug, Default, PartialEq, Eq)]
pub struct Numbers {
    /// m, n and A, of a block that passes checks 1 to 8
    pub columns: Option<usize>,
    pub reads: Option<usize>,
    pub active: Option<usize>,
    /// the cost that an answer of version 2 states
    pub stated: Option<u32>,
    /// the least cost, of a block that is judged
    pub least: Option<u32>,
}

/// The least cost of a block that is judged; the verdict often says it.
fn least(verdict: Verdict, stated: Option<u32>, block: &[u8], work: &mut [u32]) -> Option<u32> {
    match verdict {
        Verdict::NotLeast { least } => Some(least),
        Verdict::OtherAnswer | Verdict::Ours => stated,
        _ => phase_in(block, work, &mut [0; OUTPUT_BYTES]).cost().ok(),
    }
}

impl Numbers {
    /// Those of a block and an answer, where they could be read, and of what came of them.
    pub fn of(block: Option<&[u8]>, answer: Option<&[u8]>, outcome: &Outcome, work: &mut [u32]) -> Self {
        let matrix = block.and_then(|block| Matrix::read(block).ok());
        let stated = answer.and_then(Stated::read).map(|stated| stated.cost);
        let least = match (outcome, block) {
            (Outcome::Judged(verdict), Some(block)) => least(*verdict, stated, block, work),
            _ => None,
        };
        Numbers {
            columns: matrix.as_ref().map(|matrix| matrix.columns),
            reads: matrix.as_ref().map(|matrix| matrix.rows.len()),
            active: matrix.as_ref().map(Matrix::most_active),
            stated,
            least,
        }
    }
}
