//! The proved calls against the independent solver, in both modes: both numbers, every entry of the work room, every byte of the
//! output, every margin, what lies beyond and around them, the block and the judged answer; and the converter.

mod builder;
mod case;
mod check;
mod conversion;
mod converted;
mod fault;
mod judged;
mod judging;
mod margins;
mod parts;
mod rooms;
mod tally;

pub use builder::Builder;
pub use case::{Case, Size};
pub use check::{check, check_case, proved, searchable};
pub use conversion::Conversion;
pub use converted::{Convert, check_conversion, check_convert, proved_convert};
pub use fault::Fault;
pub use judged::{Judge, check_judge, check_judging, proved_judge};
pub use judging::Judging;
pub use margins::{Margins, check_case_margins, check_margins, proved_margins};
pub use parts::{Parts, Sums, choices, counts, sums};
pub use tally::Tally;

use matrix::VERSIONS;
use solver::Mode;

/// Each mode with each version of a block.
pub fn modes_and_versions() -> impl Iterator<Item = (Mode, u8)> {
    Mode::ALL.into_iter().flat_map(|mode| VERSIONS.map(|version| (mode, version)))
}
