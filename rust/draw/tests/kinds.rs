//! Every kind, on every sort of ground: the columns and the depth that were asked for, and what the kind promises.

use draw::{Kind, Plan};
use matrix::{Cell, Matrix, Row, VERSIONS};
use solver::Mode;

fn plan(kind: Kind, seed: u64, columns: Option<usize>, depth: Option<usize>) -> Plan {
    Plan { seed, count: 1, version: 1, kinds: vec![kind], columns, depth }
}

/// The runs of holes of a read, as first and last column.
fn gaps(row: &Row) -> Vec<(usize, usize)> {
    let mut gaps: Vec<(usize, usize)> = Vec::new();
    for column in (row.first..row.end()).filter(|column| row.cells[column - row.first].is_none()) {
        match gaps.last_mut() {
            Some((_, last)) if *last + 1 == column => *last = column,
            _ => gaps.push((column, column)),
        }
    }
    gaps
}

fn has_read_in_a_gap(matrix: &Matrix) -> bool {
    let lies_in = |row: &Row, (first, last)| !row.cells.is_empty() && first <= row.first && row.end() <= last + 1;
    matrix.rows.iter().flat_map(gaps).any(|gap| matrix.rows.iter().any(|row| lies_in(row, gap)))
}

/// How many runs of covered columns there are.
fn covered_runs(matrix: &Matrix) -> usize {
    let covers = |column: usize| matrix.rows.iter().any(|row| row.first <= column && column < row.end());
    (0..matrix.columns).filter(|&j| covers(j) && (j == 0 || !covers(j - 1))).count()
}

/// Whether two reads lie at the same place with the same weights, and the same or all other letters.
fn has_repeated_read(matrix: &Matrix) -> bool {
    let other = |cell: &Cell| cell.map(|(letter, weight)| (1 - letter, weight));
    let like = |a: &Row, b: &Row| {
        a.first == b.first && (a.cells == b.cells || a.cells.iter().map(other).eq(b.cells.iter().copied()))
    };
    let rows: Vec<&Row> = matrix.rows.iter().filter(|row| !row.cells.is_empty()).collect();
    (1..rows.len()).any(|i| rows[..i].iter().any(|earlier| like(earlier, rows[i])))
}

/// Whether at most half of the entries have a weight.
fn is_light(matrix: &Matrix) -> bool {
    let entries: Vec<(u8, u16)> = matrix.rows.iter().flat_map(|row| row.cells.iter().flatten().copied()).collect();
    2 * entries.iter().filter(|(_, weight)| *weight > 0).count() <= entries.len()
}

/// What a kind promises of each of its matrices, or of most.
fn keeps(kind: Kind, matrix: &Matrix) -> bool {
    match kind {
        Kind::Gapless => matrix.with_gaps() == 0,
        Kind::Pairs | Kind::Holes => matrix.with_gaps() > 0,
        Kind::Inside => has_read_in_a_gap(matrix),
        Kind::Ties => has_repeated_read(matrix),
        Kind::Weightless => is_light(matrix),
        Kind::Empty => matrix.rows.iter().any(|row| row.cells.is_empty()),
        Kind::Apart => covered_runs(matrix) > 1,
    }
}

#[test]
fn columns_and_depth_are_those_asked_for() {
    let grounds = [(3, 2), (3, 12), (4, 3), (5, 2), (12, 6), (60, 12), (120, 2), (1024, 2), (1024, 12)];
    for kind in Kind::ALL {
        for (columns, depth) in grounds {
            for seed in 0..if columns < 1000 { 40 } else { 4 } {
                let matrix = plan(kind, seed, Some(columns), Some(depth)).matrix(0);
                let drawn = (matrix.columns, matrix.most_active());
                assert_eq!(drawn, (columns, depth), "{kind:?}, seed {seed}");
                assert!(solver::rooms(&matrix.block()).is_ok(), "{kind:?}, seed {seed}: the block is lawful");
            }
        }
    }
}

#[test]
fn blocks_of_version_2_are_lawful_and_have_the_reads_of_version_1() {
    let plan = |version| Plan { version, kinds: Kind::of(2), ..plan(Kind::Pairs, 12, None, None) };
    let places = |matrix: &Matrix| matrix.rows.iter().map(|row| (row.first, row.cells.len())).collect::<Vec<_>>();
    for number in 0..400 {
        let [narrow, wide] = VERSIONS.map(|version| plan(version).matrix(number));
        assert_eq!(places(&narrow), places(&wide));
        assert!(solver::rooms(&wide.block()).is_ok(), "{wide}");
    }
}

#[test]
fn every_matrix_has_what_its_kind_promises() {
    for (kind, version) in
        VERSIONS.into_iter().flat_map(|version| Kind::of(version).into_iter().map(move |kind| (kind, version)))
    {
        let plan = Plan { version, ..plan(kind, 3, None, None) };
        let kept = (0..400).filter(|&number| keeps(kind, &plan.matrix(number))).count();
        // what ties repeat and which weights are 0 is left to chance
        let least = match kind {
            Kind::Ties => 250,
            Kind::Weightless => 380,
            _ => 400,
        };
        println!("{kind:?}, version {version}: {kept} of 400");
        assert!(kept >= least, "{kind:?}: {kept} of 400");
    }
}

/// What becomes of a weight.
type Change = fn(u16) -> u16;

/// The least cost of a matrix with every weight changed.
fn cost(mut matrix: Matrix, change: Change) -> u32 {
    for (_, weight) in matrix.rows.iter_mut().flat_map(|row| row.cells.iter_mut().flatten()) {
        *weight = change(*weight);
    }
    let block = matrix.block();
    let (entries, length) = solver::rooms(&block).expect("the block is lawful");
    solver::columns(Mode::General, &block, &mut vec![0; entries], &mut vec![0; length]).1
}

#[test]
fn in_version_2_either_byte_of_a_weight_matters() {
    let plan = Plan { seed: 6, count: 1, version: 2, kinds: Kind::of(2), columns: None, depth: None };
    let changes: [(&str, Change); 3] = [
        ("the low byte alone", |weight| weight & 0xff),
        ("the high byte alone", |weight| weight & 0xff00),
        ("the bytes exchanged", u16::swap_bytes),
    ];
    for (name, change) in changes {
        let differ =
            (0..400).filter(|&i| cost(plan.matrix(i), change) != cost(plan.matrix(i), |weight| weight)).count();
        println!("{name}: {differ} of 400");
        assert!(differ > 200, "{name}: {differ} of 400");
    }
}

#[test]
fn where_nothing_is_asked_for_sizes_vary() {
    let plan = Plan { seed: 4, count: 1, version: 1, kinds: Kind::ALL.to_vec(), columns: None, depth: None };
    let sizes: Vec<(usize, usize)> = (0..400).map(|i| plan.matrix(i)).map(|m| (m.columns, m.most_active())).collect();
    for depth in 2..=12 {
        assert!(sizes.iter().any(|(_, active)| *active == depth), "no matrix with A = {depth}");
    }
    assert!(sizes.iter().any(|(columns, _)| *columns < 6) && sizes.iter().any(|(columns, _)| *columns > 100));
}

#[test]
fn seeds_that_follow_each_other_do_not_draw_the_same_matrices() {
    let of = |seed: u64| -> Vec<Matrix> {
        let plan = plan(Kind::Pairs, seed, None, None);
        (0..50).map(|number| plan.matrix(number)).collect()
    };
    let (first, second) = (of(1), of(2));
    assert!(first.iter().all(|matrix| !second.contains(matrix)));
    assert!((1..50).all(|i| !first[..i].contains(&first[i])), "nor does one seed draw one twice");
}
