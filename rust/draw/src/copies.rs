//! The letters of reads: two copies of a chromosome, read with errors.

use blocks::Random;
use matrix::Row;

pub struct Copies {
    letters: [Vec<u8>; 2],
    /// a letter in so many is any
    errors: usize,
}

impl Copies {
    /// Two copies that differ in most columns, and how often they are misread; once in five times the letters say nothing.
    pub fn new(columns: usize, random: &mut Random) -> Self {
        let first: Vec<u8> = (0..columns).map(|_| random.within(0, 1) as u8).collect();
        let second = first.iter().map(|letter| if random.one_in(8) { *letter } else { 1 - letter }).collect();
        Copies { letters: [first, second], errors: random.pick(&[1, 3, 5, 10, 20]) }
    }

    /// The read with the letters of either copy.
    pub fn lettered(&self, mut row: Row, random: &mut Random) -> Row {
        let letters = &self.letters[random.within(0, 1)][row.first..];
        for (cell, letter) in row.cells.iter_mut().zip(letters) {
            let any = random.within(0, 1) as u8;
            let letter = if random.one_in(self.errors) { any } else { *letter };
            *cell = cell.map(|(_, weight)| (letter, weight));
        }
        row
    }
}
