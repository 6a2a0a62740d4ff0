//! A block to convert, and an output to convert it into.

use crate::case::size;
use crate::{Case, Size};
use blocks::{Field, Kind, Random};

pub struct Conversion {
    pub kind: Kind,
    /// of the block before it is damaged
    pub version: u8,
    pub field: Option<Field>,
    pub block: Vec<u8>,
    pub out: (Size, usize),
}

impl Conversion {
    /// A block of a kind in a version, whole or with one field damaged, and an output of any size.
    pub fn random(kind: Kind, version: u8, field: Option<Field>, random: &mut Random) -> Self {
        let block = Case::random(kind, version, field, random).block;
        // a refused block needs no room: then the output is as for some small one
        let need = match solver::convert(&block, &mut []) {
            (39, need) => need as usize,
            _ => 40,
        };
        Conversion { kind, version, field, block, out: size(need, random) }
    }
}
