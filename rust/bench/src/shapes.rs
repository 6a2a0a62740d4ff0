//! The blocks that are timed.

use blocks::{Gaps, Random, Style, Weights};
use matrix::{Matrix, Row};

/// So many layers of reads of one length, each read behind the last one of its layer, the layers set off against each other.
/// The reads are numbered by their first column. In both versions they have the same letters and holes; the weights are as
/// large as the version lets them be.
pub fn tiled(version: u8, columns: usize, layers: usize, length: usize, gaps: Gaps) -> Matrix {
    let style = Style { gaps, weights: Weights::UpTo(if version == 1 { 255 } else { 65535 }) };
    let mut random = Random::new(2015);
    let set_off = |layer: usize| if length < columns { layer * length / layers } else { 0 };
    let mut firsts: Vec<usize> = (0..layers).flat_map(|layer| (set_off(layer)..columns).step_by(length)).collect();
    firsts.sort();
    let rows = firsts.iter().map(|&first| style.row(&mut random, first, length.min(columns - first)));
    Matrix { version, columns, rows: rows.collect() }
}

/// Reads without cells, which version 1 alone has.
pub fn empty(columns: usize, reads: usize) -> Matrix {
    Matrix { version: 1, columns, rows: vec![Row::default(); reads] }
}

/// The matrix of the WhatsHap paper's Figure 1.
pub fn p1(version: u8) -> Matrix {
    let p1 = matrix::parse("0:5 . / 1:3 0:2 / 1:6 1:1 / . 0:2", None).and_then(|p1| p1.in_version(version));
    p1.expect("P1 is a matrix")
}
