//! Corpora of fragment blocks that are the same for the same seed on every machine, with a manifest that says what each block
//! is like, and in which of them a solver that forgets a read in its gap gives another cost.

mod copies;
mod drawing;
mod drawn;
mod folder;
mod kind;
mod layers;
mod plan;
mod reads;

pub use drawn::{Answers, Drawn};
pub use folder::{MANIFEST, draw};
pub use kind::Kind;
pub use plan::{COLUMNS, COUNT, DEPTH, Plan};
