//! Random matrices of every kind in both versions, to block and text and back; those with empty reads in version 1 alone.

use blocks::{Kind, Random};
use matrix::{Fault, Matrix, VERSIONS, parse};

fn comes_back(kind: Kind, matrix: &Matrix) {
    if !kind.passes(matrix.version) {
        let empty = matrix.rows.iter().position(|row| row.cells.is_empty()).expect("an empty read");
        assert_eq!(Matrix::read(&matrix.block()), Err((38, empty as u32)), "{kind:?}");
        assert_eq!(matrix.clone().in_version(2), Err(Fault::NoCells { row: empty + 1 }), "{kind:?}");
        return;
    }
    let columns = matrix.rows.is_empty().then_some(matrix.columns);
    assert_eq!(Matrix::read(&matrix.block()).as_ref(), Ok(matrix), "{kind:?}");
    let parsed = parse(&matrix.to_string(), columns).and_then(|parsed| parsed.in_version(matrix.version));
    assert_eq!(parsed.as_ref(), Ok(matrix), "{kind:?}");
}

#[test]
fn every_kind_comes_back_from_block_and_text() {
    let mut random = Random::new(8);
    let small = Kind::SMALL.map(|kind| (kind, 400));
    let large = Kind::LARGE.map(|kind| (kind, 4));
    for (kind, times) in small.into_iter().chain(large) {
        for version in VERSIONS.into_iter().cycle().take(2 * times) {
            comes_back(kind, &kind.matrix(version, &mut random));
        }
    }
}
