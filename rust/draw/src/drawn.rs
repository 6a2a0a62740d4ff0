//! A drawn block, and what the manifest says of it.

use crate::{Kind, Plan};
use velejume::{OUTPUT_BYTES, phase_in};

/// Whose answers are written beside the blocks.
#[derive(Clone, Copy, Debug, PartialEq, Eq)]
pub enum Answers {
    Ours,
    /// those of a solver that forgets a read in its gap
    Forgetful,
}

/// What the manifest says of a block.
#[derive(Clone, Debug, PartialEq, Eq)]
pub struct Drawn {
    pub name: String,
    pub kind: Kind,
    /// m, n and A
    pub columns: usize,
    pub reads: usize,
    pub active: usize,
    /// how many reads have gaps
    pub gaps: usize,
    /// the least cost
    pub least: u32,
    /// the cost by a solver that forgets a read in its gap
    pub forgetful: u32,
}

/// A block, what the manifest says of it, and both answers.
pub struct Block {
    pub drawn: Drawn,
    pub bytes: Vec<u8>,
    pub ours: Vec<u8>,
    pub forgetful: Vec<u8>,
}

impl Block {
    /// The block of this number, with a work room that suffices for every one.
    pub fn new(plan: &Plan, number: usize, work: &mut [u32]) -> Self {
        let matrix = plan.matrix(number);
        let bytes = matrix.block();
        let length = 17 + matrix.rows.len() + 2 * matrix.columns;
        let (mut ours, mut forgetful) = (vec![0; OUTPUT_BYTES], vec![0; OUTPUT_BYTES]);
        let least = phase_in(&bytes, work, &mut ours).cost().expect("a drawn block is lawful");
        let (_, forgotten) = solver::forgetful(&bytes, work, &mut forgetful);
        ours.truncate(length);
        forgetful.truncate(length);
        let drawn = Drawn {
            name: plan.name(number),
            kind: plan.kind(number),
            columns: matrix.columns,
            reads: matrix.rows.len(),
            active: matrix.most_active(),
            gaps: matrix.with_gaps(),
            least,
            forgetful: forgotten,
        };
        Block { drawn, bytes, ours, forgetful }
    }

    pub fn answer(&self, answers: Answers) -> &[u8] {
        match answers {
            Answers::Ours => &self.ours,
            Answers::Forgetful => &self.forgetful,
        }
    }
}

impl Drawn {
    /// The names of what a line of the manifest says.
    pub const HEAD: &str = "name\tkind\tm\tn\tA\tgaps\tleast\tforgetful\tmarked\n";

    /// Whether a solver that forgets a read in its gap gives another cost.
    pub fn marked(&self) -> bool {
        self.least != self.forgetful
    }

    /// The line of the manifest.
    pub fn line(&self) -> String {
        let Drawn { name, kind, columns, reads, active, gaps, least, forgetful } = self;
        let marked = if self.marked() { "yes" } else { "no" };
        format!("{name}\t{}\t{columns}\t{reads}\t{active}\t{gaps}\t{least}\t{forgetful}\t{marked}\n", kind.name())
    }
}
