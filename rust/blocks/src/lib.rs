//! Random fragment blocks of every kind, and damage to them. The same seed gives the same blocks.

mod damage;
mod kinds;
mod random;
mod rows;

pub use damage::Field;
pub use kinds::{Kind, complement};
pub use random::Random;
pub use rows::{EDGES, Gaps, Style, Weights};
