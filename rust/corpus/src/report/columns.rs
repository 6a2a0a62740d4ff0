//! Which columns of a matrix are drawn: all of a few, else some around the first that matter.

use super::division::{Division, entries};
use matrix::Matrix;
use std::ops::Range;

/// How many columns are drawn at most, so that two drawings stand side by side: fewer where weights have four or five digits.
fn most(matrix: &Matrix) -> usize {
    let wide = entries(matrix).any(|(_, _, (_, weight))| weight > 999);
    if wide { 12 } else { 16 }
}

/// How many are drawn before and behind a column that matters.
const AROUND: usize = 2;

/// What stands in a drawing from left to right.
#[derive(Debug, PartialEq, Eq)]
pub enum Place {
    Column(usize),
    LeftOut(Range<usize>),
}

/// The columns where the two divisions are drawn differently.
fn different(matrix: &Matrix, builder: &Division, ours: &Division) -> Vec<bool> {
    let letters = |column: usize| (0..2).any(|side| builder.letters[side][column] != ours.letters[side][column]);
    let mut columns: Vec<bool> = (0..matrix.columns).map(letters).collect();
    for (read, column, (letter, _)) in entries(matrix) {
        columns[column] |= builder.disagrees(read, column, letter) != ours.disagrees(read, column, letter);
    }
    for (_, column) in builder.marks(matrix).false_dashes {
        columns[column] = true;
    }
    columns
}

/// The columns that have an entry of this kind.
fn with_entry(matrix: &Matrix, is: impl Fn(usize, usize, u8) -> bool) -> Vec<bool> {
    let mut columns = vec![false; matrix.columns];
    for (read, column, (letter, _)) in entries(matrix) {
        columns[column] |= is(read, column, letter);
    }
    columns
}

/// The columns that matter: those drawn differently; if there are none, those with entries of reads on other sides; if there
/// are none of these, those with disagreeing entries.
fn that_matter(matrix: &Matrix, builder: Option<&Division>, ours: &Division) -> Vec<bool> {
    let drawn = builder.unwrap_or(ours);
    let candidates = [
        different(matrix, drawn, ours),
        with_entry(matrix, |read, _, _| drawn.sides[read] != ours.sides[read]),
        with_entry(matrix, |read, column, letter| drawn.disagrees(read, column, letter)),
    ];
    candidates.into_iter().find(|columns| columns.contains(&true)).unwrap_or_default()
}

/// Columns around the first that matter, then those behind and before the last of these, until there are so many.
fn chosen(total: usize, most: usize, matter: &[bool]) -> Vec<bool> {
    let first: Vec<usize> = (0..matter.len()).filter(|&column| matter[column]).collect();
    let around = first.iter().flat_map(|&column| column.saturating_sub(AROUND)..total.min(column + AROUND + 1));
    let last = first.last().copied().unwrap_or(0);
    let mut chosen = vec![false; total];
    let mut left = most;
    for column in around.chain(last..total).chain((0..last).rev()) {
        if left > 0 && !chosen[column] {
            chosen[column] = true;
            left -= 1;
        }
    }
    chosen
}

/// What is drawn of a matrix, with what is left out between.
pub fn places(matrix: &Matrix, builder: Option<&Division>, ours: &Division) -> Vec<Place> {
    let chosen = chosen(matrix.columns, most(matrix), &that_matter(matrix, builder, ours));
    let mut places = Vec::new();
    for (column, chosen) in chosen.into_iter().enumerate() {
        match places.last_mut() {
            _ if chosen => places.push(Place::Column(column)),
            Some(Place::LeftOut(columns)) => columns.end = column + 1,
            _ => places.push(Place::LeftOut(column..column + 1)),
        }
    }
    places
}
