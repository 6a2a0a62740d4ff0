//! Every answer there is to a tiny block: 56 and 57 mean exactly that no division and haplotypes cost less.

use blocks::{Gaps, Random, Style, Weights};
use differential::Parts;
use matrix::{Matrix, VERSIONS};
use velejume::{Verdict, judge};

/// All runs of so many marks below a limit.
fn runs(length: usize, limit: u8) -> Vec<Vec<u8>> {
    let longer = |runs: Vec<Vec<u8>>| {
        let each = |mark| runs.iter().map(move |run: &Vec<u8>| [&run[..], &[mark]].concat());
        (0..limit).flat_map(each).collect()
    };
    (0..length).fold(vec![Vec::new()], |runs, _| longer(runs))
}

/// The weight of the entries that differ from their side's letter, a `-` read as 0.
fn weight(matrix: &Matrix, sides: &[u8], letters: &[u8]) -> u32 {
    let mut sum = 0;
    for (row, side) in matrix.rows.iter().zip(sides) {
        for (i, cell) in row.cells.iter().enumerate() {
            let letter = letters[usize::from(*side) * matrix.columns + row.first + i];
            if let Some((entry, weight)) = cell {
                sum += u32::from(*weight) * u32::from(*entry != letter % 2);
            }
        }
    }
    sum
}

/// Whether each `-` stands where that side's sums are equal: then another letter there changes nothing.
fn true_dashes(matrix: &Matrix, sides: &[u8], letters: &[u8]) -> bool {
    (0..letters.len()).filter(|&i| letters[i] == 2).all(|i| {
        let with = |letter| [&letters[..i], &[letter], &letters[i + 1..]].concat();
        weight(matrix, sides, &with(0)) == weight(matrix, sides, &with(1))
    })
}

/// Judges every answer to a matrix; gives how many got each verdict from 53 on.
fn every_answer(matrix: &Matrix) -> [usize; 5] {
    let block = matrix.block();
    let (divisions, pairs) = (runs(matrix.rows.len(), 2), runs(2 * matrix.columns, 2));
    let costs = divisions.iter().flat_map(|sides| pairs.iter().map(move |letters| weight(matrix, sides, letters)));
    let least = costs.min().expect("there is a division");
    let mut counts = [0; 5];
    for (sides, letters) in
        divisions.iter().flat_map(|sides| runs(2 * matrix.columns, 3).into_iter().map(move |letters| (sides, letters)))
    {
        let cost = weight(matrix, sides, &letters);
        let (first, second) = letters.split_at(matrix.columns);
        let mut answer = Parts { cost, flips: 0, sides: sides.clone(), letters: [first.to_vec(), second.to_vec()] };
        let verdict = judge(&block, &answer.laid()).expect("an accepted block");
        counts[verdict.number() as usize - 53] += 1;
        match verdict {
            _ if !true_dashes(matrix, sides, &letters) => assert_eq!(verdict, Verdict::FalseDash, "{matrix}"),
            Verdict::OtherAnswer | Verdict::Ours => assert_eq!(cost, least, "{matrix}"),
            _ => assert_eq!((verdict, cost > least), (Verdict::NotLeast { least }, true), "{matrix}"),
        }
        answer.cost = cost + 1;
        let dearer = judge(&block, &answer.laid()).expect("an accepted block").number();
        assert_eq!(dearer, if verdict == Verdict::FalseDash { 53 } else { 54 }, "{matrix}");
    }
    counts
}

#[test]
fn every_answer_to_a_tiny_block_is_least_exactly_where_56_and_57_say_so() {
    let mut random = Random::new(15);
    let narrow = [Weights::UpTo(2), Weights::UpTo(9)];
    let wide = [Weights::OneOf(&[0, 1, 256, 65535]), Weights::OneOf(&[255, 256, 511])];
    for (version, weights) in VERSIONS.into_iter().zip([narrow, wide]) {
        let mut total = [0; 5];
        for i in 0..60 {
            let style = Style { gaps: Gaps::Pair, weights: weights[i % 2] };
            let columns = 1 + i % 3;
            let rows = (0..i % 4).map(|_| style.row_within(&mut random, 0, columns, columns)).collect();
            let counts = every_answer(&Matrix { version, columns, rows });
            assert_eq!(counts[4], 1, "one answer is ours");
            total = std::array::from_fn(|i| total[i] + counts[i]);
        }
        println!("version {version}, verdicts 53 to 57: {total:?}");
        assert!([0, 2, 3, 4].iter().all(|&i| total[i] >= 60), "{total:?}");
    }
}
