//! A solver of fragment blocks of both versions that shares nothing with the proved library, written from documents 01 and 02.
//!
//! [`exhaustive`] tries every division of the reads and is for small blocks. [`columns`] is the column
//! method, written for speed, and [`walk`] the same with one entry at each step. All take a [`Mode`] and the rooms that the proved
//! calls take, and leave in them what documents 01 and 02 say, entry by entry and byte by byte. [`margins`] also says by either how sure
//! each letter is, and [`judge`] judges a builder's answer, as document 02 says.
//!
//! [`convert`] turns a block of version 1 into one of version 2 without its empty reads.
//!
//! [`forgetful`] is no solver to rely on: it has a fault on purpose, for suites that have to find it.

mod answer;
mod block;
mod checks;
mod columns;
mod convert;
mod exhaustive;
mod judge;
mod margins;
mod mode;
mod stated;
mod weights;

pub use block::{Block, Read};
pub use checks::rooms;
pub use columns::{columns, forgetful, walk};
pub use convert::convert;
pub use exhaustive::exhaustive;
pub use judge::judge;
pub use margins::margins;
pub use mode::Mode;
pub use stated::Stated;

/// The number of document 01's table or of document 02's verdicts, 0 on acceptance, and the second number.
pub type Numbers = (u32, u32);

/// Phases a block in a mode and in the rooms that it is lent: [`columns`], [`walk`] or [`exhaustive`].
pub type Phase = fn(Mode, &[u8], &mut [u32], &mut [u8]) -> Numbers;
