//! Answers of the all-heterozygous mode, beside those of the general mode and beside every answer there is to a tiny block.

use blocks::{Gaps, Kind, Random, Style, Weights};
use differential::{Sums, choices, counts, sums};
use matrix::{Matrix, VERSIONS};
use solver::Mode;
use std::cmp::Ordering;
use velejume::{Answer, Letter, phase, phase_heterozygous};

/// What is summed of the entries that differ from a string for haplotype 1 and its complement for haplotype 2.
fn differing(sums: &Sums, first: &[u8]) -> u32 {
    let side =
        |side: usize| sums[side].iter().zip(first).map(move |(sums, letter)| sums[usize::from(1 ^ *letter) ^ side]);
    side(0).chain(side(1)).sum()
}

/// Whether an answer is what the mode says, all but least: the haplotypes are complementary, with `-` where both ways to write a
/// column cost the same, and there alone; the entries that differ weigh the cost and are as many as there are flips.
fn sound(matrix: &Matrix, answer: &Answer) {
    let [first, second] = &answer.haplotypes;
    let sums = sums(matrix, &answer.sides);
    for (column, [as_one, as_zero]) in choices(Mode::Heterozygous, sums.clone())[0].iter().enumerate() {
        let expected = match as_zero.cmp(as_one) {
            Ordering::Less => (Letter::Zero, Letter::One),
            Ordering::Equal => (Letter::Tie, Letter::Tie),
            Ordering::Greater => (Letter::One, Letter::Zero),
        };
        assert_eq!((first[column], second[column]), expected, "column {column}: {matrix}");
    }
    let written: Vec<u8> = first.iter().map(|letter| u8::from(*letter != Letter::Zero)).collect();
    assert_eq!(differing(&sums, &written), answer.cost, "{matrix}");
    assert_eq!(differing(&counts(matrix, &answer.sides), &written), answer.flips, "{matrix}");
}

#[test]
fn no_cost_and_no_entry_is_below_the_general_one() {
    let mut random = Random::new(41);
    let (mut same, mut above, mut ties) = (0, 0, 0);
    for i in 0..6000 {
        let kind = if i % 50 == 0 { random.pick(&Kind::LARGE) } else { random.pick(&Kind::SMALL) };
        let matrix = kind.matrix(random.pick(&VERSIONS), &mut random);
        let (general, heterozygous) = match (phase(&matrix.block()), phase_heterozygous(&matrix.block())) {
            (Ok(general), Ok(heterozygous)) => (general, heterozygous),
            (general, heterozygous) => {
                assert_eq!(general, heterozygous, "the refusals are the same");
                continue;
            }
        };
        sound(&matrix, &heterozygous);
        assert!(general.cost <= heterozygous.cost, "{matrix}");
        let mut entries = general.table.entries().iter().zip(heterozygous.table.entries());
        assert!(entries.all(|(general, heterozygous)| general <= heterozygous), "{matrix}");
        same += usize::from(general.cost == heterozygous.cost);
        above += usize::from(general.cost < heterozygous.cost);
        ties += usize::from(heterozygous.haplotypes[0].contains(&Letter::Tie));
    }
    println!("{same} at the same cost, {above} above it, {ties} with ties");
    assert!(same > 1000 && above > 1000 && ties > 1000, "{same}, {above}, {ties}");
}

/// All runs of so many digits 0 and 1.
fn runs(length: usize) -> impl Iterator<Item = Vec<u8>> {
    (0..1u32 << length).map(move |number| (0..length).map(|i| (number >> i & 1) as u8).collect())
}

#[test]
fn no_division_with_any_complementary_haplotypes_costs_less() {
    let mut random = Random::new(42);
    let narrow = [Weights::UpTo(2), Weights::UpTo(9)];
    let wide = [Weights::OneOf(&[0, 1, 256, 65535]), Weights::OneOf(&[255, 256, 511])];
    let mut above = 0;
    for (version, weights) in VERSIONS.into_iter().zip([narrow, wide]) {
        for i in 0..600 {
            let style = Style { gaps: Gaps::Pair, weights: weights[i % 2] };
            let columns = 1 + i % 4;
            let rows = (0..i % 6).map(|_| style.row_within(&mut random, 0, columns, columns)).collect();
            let matrix = Matrix { version, columns, rows };
            let divisions = runs(matrix.rows.len()).map(|sides| sums(&matrix, &sides));
            let costs = divisions.flat_map(|sums| runs(columns).map(move |first| differing(&sums, &first)));
            let least = costs.min().expect("there is a division");
            assert_eq!(phase_heterozygous(&matrix.block()).unwrap().cost, least, "{matrix}");
            above += usize::from(phase(&matrix.block()).unwrap().cost < least);
        }
    }
    println!("{above} above the general cost");
    assert!(above > 100, "{above}");
}
