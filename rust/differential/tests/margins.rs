//! Margins: random blocks of both versions in rooms of all sizes, whole and damaged; and what a margin says of its letter.

use blocks::{Field, Kind, Random};
use differential::{Case, Size, Tally, check_case_margins};
use matrix::{Matrix, VERSIONS};
use velejume::{AnswerWithMargins, Letter, Verdict, judge, phase, phase_margins};

/// So many cases of each kind with each damage, in one version.
fn tally(seed: u64, version: u8, kinds: &[Kind], fields: &[Option<Field>], times: usize) -> Tally {
    let mut random = Random::new(seed);
    let mut tally = Tally::default();
    for (&kind, &field) in kinds.iter().flat_map(|kind| fields.iter().map(move |field| (kind, field))) {
        for _ in 0..times {
            let case = Case::random(kind, version, field, &mut random);
            tally.note_margins(&case, check_case_margins(&case, &mut random));
        }
    }
    println!("{tally}");
    tally
}

/// 38, for a read without cells, which version 2 alone refuses.
fn empty_reads(version: u8) -> impl Iterator<Item = u32> {
    (version == 2).then_some(38).into_iter()
}

#[test]
fn whole_blocks_get_the_same_margins() {
    for version in VERSIONS {
        let small = tally(51, version, &Kind::SMALL, &[None], 2000);
        small.require("kind", Kind::SMALL);
        small.require("number", [0, 9, 10, 11, 13].into_iter().chain(empty_reads(version)));
        small.require("every division tried", [true]);
        small.require("run", Size::ALL);
        let large = tally(52, version, &Kind::LARGE, &[None], 150);
        large.require("number", [0, 9, 10, 11, 13]);
        large.require("T", (0..12).map(|digits| 1 << digits));
    }
}

#[test]
fn damaged_blocks_get_the_same_margins() {
    for version in VERSIONS {
        let small = tally(53, version, &Kind::SMALL, &Field::ALL.map(Some), 120);
        small.require("damaged", Field::ALL);
        small.require("number", (0..=11).chain([13]).chain(empty_reads(version)));
        tally(54, version, &Kind::LARGE, &Field::ALL.map(Some), 15).require("damaged", Field::ALL);
    }
}

/// Matrices of all kinds that are accepted, one in fifty large, with their answers, which are those without margins.
fn answered(seed: u64, count: usize) -> impl Iterator<Item = (Matrix, AnswerWithMargins)> {
    let mut random = Random::new(seed);
    (0..count).filter_map(move |i| {
        let kind = if i.is_multiple_of(50) { random.pick(&Kind::LARGE) } else { random.pick(&Kind::SMALL) };
        let matrix = kind.matrix(random.pick(&VERSIONS), &mut random);
        let sure = phase_margins(&matrix.block());
        assert_eq!(sure.as_ref().map(|sure| &sure.answer), phase(&matrix.block()).as_ref(), "{matrix}");
        Some((matrix, sure.ok()?))
    })
}

#[test]
fn a_margin_is_0_exactly_where_no_letter_is_reported() {
    let (mut ties, mut letters) = (0, 0);
    for (matrix, AnswerWithMargins { answer, margins }) in answered(55, 6000) {
        assert_eq!(margins.each_ref().map(Vec::len), [matrix.columns; 2], "{matrix}");
        for (letter, margin) in answer.haplotypes.iter().flatten().zip(margins.iter().flatten()) {
            assert_eq!(*letter == Letter::Tie, *margin == 0, "{matrix}");
            ties += usize::from(*margin == 0);
            letters += usize::from(*margin > 0);
        }
    }
    println!("{ties} ties, {letters} letters");
    assert!(ties > 10_000 && letters > 10_000, "{ties}, {letters}");
}

/// The weight of the entries that differ from their side's letter.
fn weight(matrix: &Matrix, sides: &[u8], letters: &[u8]) -> u32 {
    let mut sum = 0;
    for (row, side) in matrix.rows.iter().zip(sides) {
        let haplotype = &letters[usize::from(*side) * matrix.columns + row.first..];
        for (cell, letter) in row.cells.iter().zip(haplotype) {
            sum += cell.map_or(0, |(entry, weight)| u32::from(weight) * u32::from(entry != *letter));
        }
    }
    sum
}

#[test]
fn the_other_letter_at_one_column_costs_its_margin_more() {
    let mut tried = 0;
    for (matrix, AnswerWithMargins { answer, margins }) in answered(56, 2000).filter(|(matrix, _)| matrix.columns < 40)
    {
        let mut letters: Vec<u8> =
            answer.haplotypes.iter().flatten().map(|letter| u8::from(*letter != Letter::Zero)).collect();
        assert_eq!(weight(&matrix, &answer.sides, &letters), answer.cost, "{matrix}");
        for (i, margin) in margins.concat().into_iter().enumerate() {
            letters[i] ^= 1;
            assert_eq!(weight(&matrix, &answer.sides, &letters), answer.cost + margin, "letter {i}: {matrix}");
            letters[i] ^= 1;
            tried += 1;
        }
    }
    println!("{tried} letters");
    assert!(tried > 10_000, "{tried}");
}

/// The verdict on an answer block with one letter changed and this cost stated.
fn verdict(block: &[u8], ours: &[u8], (at, letter): (usize, u8), cost: u32) -> Verdict {
    let mut answer = ours.to_vec();
    answer[at] = letter;
    answer[5..9].copy_from_slice(&cost.to_be_bytes());
    judge(block, &answer).expect("an accepted block")
}

#[test]
fn the_judge_takes_the_other_letter_at_its_margin_more() {
    let mut counts = [0; 2];
    for (matrix, AnswerWithMargins { answer, margins }) in answered(57, 600).filter(|(matrix, _)| matrix.columns < 20) {
        let (block, ours, marks) = (matrix.block(), answer.block(), 17 + matrix.rows.len());
        let letters = answer.haplotypes.iter().flatten().zip(margins.concat());
        for (i, (letter, margin)) in letters.enumerate() {
            let others: &[u8] = if *letter == Letter::Tie { &[0, 1] } else { &[1 - *letter as u8] };
            for place in others.iter().map(|other| (marks + i, *other)) {
                let expected =
                    if margin == 0 { Verdict::OtherAnswer } else { Verdict::NotLeast { least: answer.cost } };
                assert_eq!(verdict(&block, &ours, place, answer.cost + margin), expected, "letter {i}: {matrix}");
                let more = verdict(&block, &ours, place, answer.cost + margin + 1);
                assert_eq!(more, Verdict::WrongCost, "letter {i}: {matrix}");
                counts[usize::from(margin == 0)] += 1;
            }
        }
    }
    println!("{} letters, {} at ties", counts[0], counts[1]);
    assert!(counts.iter().all(|&count| count > 1000), "{counts:?}");
}
