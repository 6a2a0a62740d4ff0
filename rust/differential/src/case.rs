//! A block and the rooms to solve it in.

use blocks::{Field, Kind, Random};
use solver::Block;

/// The size of a room, by what the block needs.
#[derive(Clone, Copy, Debug, PartialEq, Eq)]
pub enum Size {
    Nothing,
    OneLess,
    Exact,
    OneMore,
    Ample,
    Any,
}

impl Size {
    pub const ALL: [Size; 6] = [Size::Nothing, Size::OneLess, Size::Exact, Size::OneMore, Size::Ample, Size::Any];

    fn of(self, need: usize, random: &mut Random) -> usize {
        match self {
            Size::Nothing => 0,
            Size::OneLess => need - 1,
            Size::Exact => need,
            Size::OneMore => need + 1,
            Size::Ample => need + 100,
            Size::Any => random.within(0, 2 * need),
        }
    }
}

pub struct Case {
    pub kind: Kind,
    /// of the block before it is damaged
    pub version: u8,
    pub field: Option<Field>,
    pub block: Vec<u8>,
    pub work: (Size, usize),
    pub out: (Size, usize),
    /// the run of margins, of a call that has one
    pub run: (Size, usize),
}

/// Any size, one that suffices in three cases of four.
pub fn size(need: usize, random: &mut Random) -> (Size, usize) {
    let enough = [Size::Exact, Size::OneMore, Size::Ample];
    let size = if random.one_in(4) { random.pick(&Size::ALL) } else { random.pick(&enough) };
    (size, size.of(need, random))
}

/// The block of a matrix of this kind that has such a field, damaged there.
fn damaged(kind: Kind, version: u8, field: Field, random: &mut Random) -> Vec<u8> {
    loop {
        let matrix = kind.matrix(version, random);
        if let Some(block) = field.damaged(&matrix, random) {
            return block;
        }
    }
}

impl Case {
    /// A block of a kind in a version, whole or with one field damaged, in rooms of any size.
    pub fn random(kind: Kind, version: u8, field: Option<Field>, random: &mut Random) -> Self {
        let block = match field {
            Some(field) => damaged(kind, version, field, random),
            None => kind.matrix(version, random).block(),
        };
        // a refused block needs no room: then the rooms are as for some small one
        let (entries, length) = solver::rooms(&block).unwrap_or((60, 40));
        let margins = Block::read(&block).map_or(10, |block| 2 * block.columns);
        let (work, out, run) = (size(entries, random), size(length, random), size(margins, random));
        Case { kind, version, field, block, work, out, run }
    }

    /// The sizes of work room and output.
    pub fn rooms(&self) -> (usize, usize) {
        (self.work.1, self.out.1)
    }

    /// T, for a block that passes checks 1 to 9.
    pub fn width(&self) -> usize {
        let (entries, _) = solver::rooms(&self.block).expect("an accepted block");
        entries / usize::from(u16::from_be_bytes([self.block[5], self.block[6]]))
    }
}
