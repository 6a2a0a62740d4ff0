//! A matrix of a kind.

use crate::Kind;
use crate::layers::{Ground, parts};
use crate::reads::Reads;
use blocks::Random;
use matrix::{Matrix, Row};

/// How many reads are drawn at most, so that reads without cells find room beside them.
const MOST: usize = 1000;

/// The reads of parts that do not touch; most are active in one of these.
fn apart(reads: &Reads, columns: usize, depth: usize, random: &mut Random) -> Vec<Row> {
    let parts = parts(columns, random);
    let (most, deepest) = (MOST / parts.len(), random.within(0, parts.len() - 1));
    let mut rows = Vec::new();
    for (number, part) in parts.into_iter().enumerate() {
        let depth = if number == deepest { depth } else { random.within(1, depth) };
        let ground = Ground::new(part, depth, most, false, random);
        rows.extend(reads.layers(&ground, depth, random));
    }
    rows
}

/// Puts the reads in order of their first columns, or once in four times in any order.
fn put_in_order(rows: &mut [Row], random: &mut Random) {
    rows.sort_by_key(|row| row.first);
    if random.one_in(4) {
        for i in (1..rows.len()).rev() {
            rows.swap(i, random.within(0, i));
        }
    }
}

/// Puts reads without cells between the others.
fn put_empty_reads(rows: &mut Vec<Row>, random: &mut Random) {
    for _ in 0..random.within(1, 12) {
        rows.insert(random.within(0, rows.len()), Row::default());
    }
}

/// A matrix with so many columns, and so many reads active where most are, in this version.
pub fn matrix(kind: Kind, version: u8, columns: usize, depth: usize, random: &mut Random) -> Matrix {
    let reads = Reads::new(kind, version, columns, random);
    let mut rows = match kind {
        Kind::Apart => apart(&reads, columns, depth, random),
        _ => {
            let long = matches!(kind, Kind::Pairs | Kind::Inside);
            reads.layers(&Ground::new(0..columns, depth, MOST, long, random), depth, random)
        }
    };
    put_in_order(&mut rows, random);
    if kind == Kind::Empty {
        put_empty_reads(&mut rows, random);
    }
    Matrix { version, columns, rows }
}
