//! The modes of phasing.

/// Which two letters the haplotypes may have at a column.
#[derive(Clone, Copy, Debug, PartialEq, Eq)]
pub enum Mode {
    /// any two, so each side is charged for itself
    General,
    /// two that differ, so both sides are charged together
    Heterozygous,
}

impl Mode {
    pub const ALL: [Mode; 2] = [Mode::General, Mode::Heterozygous];
}
