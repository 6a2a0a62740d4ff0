//! The reads of a matrix, layer by layer.

use crate::Kind;
use crate::copies::Copies;
use crate::layers::{Ground, over};
use blocks::{EDGES, Gaps, Random, Style, Weights, complement};
use matrix::Row;
use std::ops::Range;

/// What all reads of a matrix have in common.
pub struct Reads {
    kind: Kind,
    weights: Weights,
    copies: Copies,
}

fn weights(kind: Kind, version: u8, random: &mut Random) -> Weights {
    let equal = [Weights::Always(1), Weights::Always(9), Weights::UpTo(1), Weights::UpTo(2)];
    let wide_equal = [Weights::Always(256), Weights::Always(65535), Weights::OneOf(&[1, 256]), Weights::UpTo(2)];
    match (kind, version) {
        (Kind::Ties, 1) => random.pick(&equal),
        (Kind::Ties, _) => random.pick(&wide_equal),
        (Kind::Weightless, _) => Weights::ZeroButOneIn(random.within(3, 9)),
        (_, 1) => random.pick(&[Weights::UpTo(255), Weights::UpTo(40), Weights::UpTo(9)]),
        _ => random.pick(&[Weights::UpTo(65535), Weights::UpTo(4000), Weights::OneOf(&EDGES)]),
    }
}

/// Where a read of this kind has holes.
fn gaps(kind: Kind, random: &mut Random) -> Gaps {
    match kind {
        Kind::Gapless => Gaps::None,
        Kind::Pairs => random.pick(&[Gaps::Pair, Gaps::Pair, Gaps::Pair, Gaps::None]),
        Kind::Holes => Gaps::OneIn(random.within(2, 4)),
        _ => random.pick(&[Gaps::None, Gaps::Pair, Gaps::OneIn(3)]),
    }
}

/// The column in which every layer has a read, and the holes of the first read around it, if it is in a gap.
struct Middle {
    column: usize,
    gap: Range<usize>,
}

/// A column of a read; of one with holes one of these.
fn middle(row: &Row, random: &mut Random) -> Middle {
    let is_hole = |column: &usize| row.cells[column - row.first].is_none();
    let columns: Vec<usize> = (row.first..row.end()).collect();
    let holes: Vec<usize> = columns.iter().copied().filter(is_hole).collect();
    let column = random.pick(if holes.is_empty() { &columns } else { &holes });
    let behind = (column..row.end()).take_while(is_hole).count();
    let before = (row.first..column).rev().take_while(is_hole).count();
    Middle { column, gap: column - before..column + behind }
}

/// A layer again, some of its reads with every letter exchanged.
fn repeated(layer: &[Row], random: &mut Random) -> Vec<Row> {
    layer.iter().map(|row| if random.one_in(2) { complement(row) } else { row.clone() }).collect()
}

impl Reads {
    pub fn new(kind: Kind, version: u8, columns: usize, random: &mut Random) -> Self {
        Reads { kind, weights: weights(kind, version, random), copies: Copies::new(columns, random) }
    }

    /// A read at a place.
    fn read(&self, place: Range<usize>, gaps: Gaps, random: &mut Random) -> Row {
        let row = Style { gaps, weights: self.weights }.row(random, place.start, place.len());
        self.copies.lettered(row, random)
    }

    /// The read that the others are drawn around: a long one with a gap, where the kind asks for it.
    fn first(&self, ground: &Ground, random: &mut Random) -> Row {
        let within = &ground.within;
        if !self.kind.has_gaps() {
            let column = random.within(within.start, within.end - 1);
            let place = over(column, within, ground.length(random), random);
            return self.read(place, gaps(self.kind, random), random);
        }
        let longest = *ground.lengths.end();
        let length = random.within(longest.div_ceil(2).max(3), longest);
        let first = random.within(within.start, within.end - length);
        let gaps = if self.kind == Kind::Holes { Gaps::OneIn(2) } else { Gaps::Pair };
        loop {
            let row = self.read(first..first + length, gaps, random);
            if row.has_gap() {
                return row;
            }
        }
    }

    /// The layer of a read.
    fn layer(&self, read: Row, ground: &Ground, random: &mut Random) -> Vec<Row> {
        let places = ground.around(read.first..read.end(), random);
        let others = places.into_iter().map(|place| self.read(place, gaps(self.kind, random), random));
        [read].into_iter().chain(others).collect()
    }

    /// The layer that follows those that are there.
    fn next(&self, layers: &[Vec<Row>], middle: &Middle, ground: &Ground, random: &mut Random) -> Vec<Row> {
        let Middle { column, gap } = middle;
        let (place, gaps) = match (self.kind, layers) {
            (Kind::Ties, [.., before]) if random.one_in(2) => return repeated(before, random),
            (Kind::Inside, [_]) => {
                let length = random.within(1, gap.len());
                (over(*column, gap, length, random), Gaps::OneIn(4))
            }
            _ => (over(*column, &ground.within, ground.length(random), random), gaps(self.kind, random)),
        };
        let read = self.read(place, gaps, random);
        self.layer(read, ground, random)
    }

    /// The reads of so many layers.
    pub fn layers(&self, ground: &Ground, depth: usize, random: &mut Random) -> Vec<Row> {
        let first = self.first(ground, random);
        let middle = middle(&first, random);
        let mut layers = vec![self.layer(first, ground, random)];
        while layers.len() < depth {
            layers.push(self.next(&layers, &middle, ground, random));
        }
        layers.concat()
    }
}
