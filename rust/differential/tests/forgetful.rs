//! The solver that forgets a read in its gap, against the method that it is said to be and against what that must mean.

use blocks::{Kind, Random};
use matrix::{Matrix, Row, VERSIONS, parse};
use std::collections::BTreeMap;

/// What the solver gives: the cost and the answer block. None where it refuses the block.
fn forgetful(block: &[u8]) -> Option<(u32, Vec<u8>)> {
    let (entries, length) = solver::rooms(block).ok()?;
    let (mut work, mut out) = (vec![7; entries], vec![7; length]);
    let (number, cost) = solver::forgetful(block, &mut work, &mut out);
    assert_eq!(number, 0, "the rooms suffice");
    Some((cost, out))
}

/// Read and entry of each read that has a letter at a column.
fn entries(matrix: &Matrix, column: usize) -> Vec<(usize, (u8, u16))> {
    let entry = |(read, row): (usize, &Row)| {
        let cell = column.checked_sub(row.first).and_then(|i| row.cells.get(i));
        Some((read, cell.copied().flatten()?))
    };
    matrix.rows.iter().enumerate().filter_map(entry).collect()
}

/// The least cost by columns, where a column knows the sides of those reads alone that have a letter in it.
fn least_by_columns(matrix: &Matrix) -> u32 {
    let mut before = BTreeMap::from([(Vec::<(usize, u8)>::new(), 0u32)]);
    for column in 0..matrix.columns {
        let entries = entries(matrix, column);
        let mut here = BTreeMap::new();
        for number in 0..1u32 << entries.len() {
            let mut sums = [[0; 2]; 2];
            let mut sides = Vec::new();
            for (i, &(read, (letter, weight))) in entries.iter().enumerate() {
                let side = (number >> i & 1) as u8;
                sums[usize::from(side)][usize::from(letter)] += u32::from(weight);
                sides.push((read, side));
            }
            let agrees =
                |known: &Vec<(usize, u8)>| known.iter().all(|(read, side)| !sides.contains(&(*read, 1 - side)));
            let carried = before.iter().filter(|(known, _)| agrees(known)).map(|(_, cost)| *cost).min().unwrap();
            here.insert(sides, carried + sums.iter().map(|[zeros, ones]| zeros.min(ones)).sum::<u32>());
        }
        before = here;
    }
    *before.values().min().unwrap()
}

#[test]
fn the_pair_of_the_second_example_is_forgotten() {
    let block = parse("0:4 . 1:3 / 0:5 0:5 0:5 / 1:5 1:5 1:5", None).unwrap().block();
    let (cost, answer) = forgetful(&block).unwrap();
    assert_eq!((cost, &answer[17..]), (0, &[1, 1, 0, 1, 1, 1, 0, 0, 0][..]));
    assert_eq!(velejume::judge(&block, &answer).unwrap().number(), 54);
    assert_eq!(velejume::phase(&block).unwrap().cost, 3);
}

#[test]
fn its_cost_is_that_of_columns_that_know_only_reads_with_a_letter() {
    let mut random = Random::new(18);
    let (mut compared, mut less) = (0, 0);
    for i in 0..900 {
        let matrix = Kind::SMALL[i % Kind::SMALL.len()].matrix(VERSIONS[i % 2], &mut random);
        let crowd = (0..matrix.columns).map(|column| entries(&matrix, column).len()).max().unwrap();
        if let (Some((cost, _)), 0..=6) = (forgetful(&matrix.block()), crowd) {
            assert_eq!(cost, least_by_columns(&matrix), "{matrix}");
            compared += 1;
            less += usize::from(cost < velejume::phase(&matrix.block()).unwrap().cost);
        }
    }
    println!("{compared} blocks, {less} at less than the least cost");
    assert!(compared > 500 && less > 50, "{compared} blocks, {less} at less than the least cost");
}

#[test]
fn it_is_right_without_gaps_and_stated_below_the_least_cost_it_never_passes() {
    let mut random = Random::new(19);
    let (mut gapless, mut less) = (0, 0);
    for i in 0..2000 {
        let kind = if i % 100 == 0 { random.pick(&Kind::LARGE) } else { random.pick(&Kind::SMALL) };
        let matrix = kind.matrix(random.pick(&VERSIONS), &mut random);
        let block = matrix.block();
        let Some((cost, answer)) = forgetful(&block) else {
            continue;
        };
        let ours = velejume::phase(&block).unwrap();
        assert!(cost <= ours.cost, "forgetting leaves more divisions, not fewer");
        if matrix.with_gaps() == 0 {
            assert_eq!(answer, ours.block(), "{matrix}");
            gapless += 1;
        }
        if cost < ours.cost {
            assert!(!velejume::judge(&block, &answer).unwrap().is_least(), "{matrix}");
            less += 1;
        }
    }
    println!("{gapless} blocks without gaps, {less} at less than the least cost");
    assert!(gapless > 200 && less > 200, "{gapless} without gaps, {less} at less");
}

#[test]
fn more_runs_than_a_block_has_reads_find_room() {
    let cells = |from: usize| (0..1023).map(|i| (i % 2 == 0).then_some(((i + from) as u8 / 3 % 2, 9))).collect();
    let rows = (0..6).map(|i| Row { first: i % 2, cells: cells(i) }).collect();
    let matrix = Matrix::new(1024, rows);
    for block in VERSIONS.map(|version| matrix.clone().in_version(version).unwrap().block()) {
        let (cost, _) = forgetful(&block).unwrap();
        assert_eq!(cost, 0, "entries apart can all be on the side that they agree with");
        assert!(velejume::phase(&block).unwrap().cost > 0);
    }
}
