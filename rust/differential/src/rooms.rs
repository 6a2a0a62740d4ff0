//! Rooms with guards around them, so that a write outside shows.

use blocks::Random;

const GUARD: usize = 16;

/// A room to lend, in the middle of something larger.
#[derive(Clone, PartialEq, Eq)]
pub struct Room<T> {
    all: Vec<T>,
}

impl<T: Copy + PartialEq> Room<T> {
    /// A room of a size, it and its guards filled by a function.
    pub fn filled(size: usize, mut fill: impl FnMut() -> T) -> Self {
        Room { all: (0..size + 2 * GUARD).map(|_| fill()).collect() }
    }

    pub fn lent(&mut self) -> &mut [T] {
        let end = self.all.len() - GUARD;
        &mut self.all[GUARD..end]
    }

    /// The first place, counted from the start of what is lent, where two rooms or their guards differ.
    pub fn difference(&self, other: &Self) -> Option<isize> {
        let place = self.all.iter().zip(&other.all).position(|(a, b)| a != b)?;
        Some(place as isize - GUARD as isize)
    }

    /// Whether all from a place of what is lent on, and the guards, are as in another room.
    pub fn kept_from(&self, place: usize, other: &Self) -> bool {
        let place = (GUARD + place).min(self.all.len() - GUARD);
        self.all[place..] == other.all[place..] && self.all[..GUARD] == other.all[..GUARD]
    }
}

impl Room<u8> {
    /// A room that holds these bytes.
    pub fn holding(bytes: &[u8], random: &mut Random) -> Self {
        let mut room = Room::filled(bytes.len(), || random.number() as u8);
        room.lent().copy_from_slice(bytes);
        room
    }
}

/// The block, the work room and the output that one call is lent.
#[derive(Clone, PartialEq, Eq)]
pub struct Rooms {
    pub block: Room<u8>,
    pub work: Room<u32>,
    pub out: Room<u8>,
}

impl Rooms {
    /// Rooms of these sizes that hold anything.
    pub fn random(block: &[u8], work: usize, out: usize, random: &mut Random) -> Self {
        Rooms {
            block: Room::holding(block, random),
            work: Room::filled(work, || random.number() as u32),
            out: Room::filled(out, || random.number() as u8),
        }
    }
}
