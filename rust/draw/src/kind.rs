//! The kinds of blocks that a suite is made of.

/// What a block is drawn to have.
#[derive(Clone, Copy, Debug, PartialEq, Eq)]
pub enum Kind {
    Gapless,
    Pairs,
    Inside,
    Holes,
    Ties,
    Weightless,
    /// in version 1 alone
    Empty,
    Apart,
}

impl Kind {
    pub const ALL: [Kind; 8] =
        [Kind::Gapless, Kind::Pairs, Kind::Inside, Kind::Holes, Kind::Ties, Kind::Weightless, Kind::Empty, Kind::Apart];

    pub fn name(self) -> &'static str {
        match self {
            Kind::Gapless => "gapless",
            Kind::Pairs => "pairs",
            Kind::Inside => "inside",
            Kind::Holes => "holes",
            Kind::Ties => "ties",
            Kind::Weightless => "weightless",
            Kind::Empty => "empty",
            Kind::Apart => "apart",
        }
    }

    /// The kinds of blocks of a version: those with empty reads are of version 1 alone.
    pub fn of(version: u8) -> Vec<Kind> {
        Self::ALL.into_iter().filter(|kind| version == 1 || *kind != Kind::Empty).collect()
    }

    /// The kind of this name.
    pub fn named(name: &str) -> Option<Self> {
        Self::ALL.into_iter().find(|kind| kind.name() == name)
    }

    /// Whether every block of the kind has a read with a gap.
    pub fn has_gaps(self) -> bool {
        matches!(self, Kind::Pairs | Kind::Inside | Kind::Holes)
    }
}
