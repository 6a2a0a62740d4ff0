//! Judgings that are wrong in one thing each: the comparison finds every one in the cases of either version.

use blocks::{Kind, Random};
use differential::{Builder, Judge, Judging, check_judge, proved_judge};
use matrix::VERSIONS;
use velejume::phase_in;

type Numbers = (u32, u32);

/// Judges the flip count too.
fn counts_flips(block: &[u8], answer: &[u8], work: &mut [u32]) -> Numbers {
    let mut ours = [0; velejume::OUTPUT_BYTES];
    match (proved_judge(block, answer, work), phase_in(block, &mut work.to_vec(), &mut ours).number) {
        ((57, 0), 0) if answer[9..13] != ours[9..13] => (56, 0),
        (numbers, _) => numbers,
    }
}

/// Says that an answer is not least, but with its own cost.
fn gives_the_stated_cost(block: &[u8], answer: &[u8], work: &mut [u32]) -> Numbers {
    match proved_judge(block, answer, work) {
        (55, _) => (55, u32::from_be_bytes([answer[5], answer[6], answer[7], answer[8]])),
        numbers => numbers,
    }
}

/// Gives 53 to an answer with an unknown mark if it has a `-` too.
fn takes_a_dash_for_a_fault(block: &[u8], answer: &[u8], work: &mut [u32]) -> Numbers {
    match proved_judge(block, answer, work) {
        (52, 0) if answer.contains(&2) => (53, 0),
        numbers => numbers,
    }
}

/// Looks at the answer before the block.
fn looks_at_the_answer_first(block: &[u8], answer: &[u8], work: &mut [u32]) -> Numbers {
    if answer.len() < 17 { (50, 0) } else { proved_judge(block, answer, work) }
}

/// Makes no table for a malformed answer.
fn makes_no_table_under_50(block: &[u8], answer: &[u8], work: &mut [u32]) -> Numbers {
    let before = work.to_vec();
    let numbers = proved_judge(block, answer, work);
    if numbers.0 == 50 {
        work.copy_from_slice(&before);
    }
    numbers
}

/// Clears what lies beyond the table.
fn clears_the_rest(block: &[u8], answer: &[u8], work: &mut [u32]) -> Numbers {
    let numbers = proved_judge(block, answer, work);
    if let (50.., Ok((entries, _))) = (numbers.0, solver::rooms(block)) {
        work[entries..].fill(0);
    }
    numbers
}

/// Writes to a room that is too small.
fn writes_on_refusal(block: &[u8], answer: &[u8], work: &mut [u32]) -> Numbers {
    let numbers = proved_judge(block, answer, work);
    if numbers.0 == 10 {
        work.fill(0);
    }
    numbers
}

/// Whether a judging differs from the independent one in any of so many cases.
fn found(judge: Judge, version: u8) -> bool {
    let mut random = Random::new(16);
    let mut case = || {
        let (kind, builder) = (random.pick(&Kind::SMALL), random.pick(&Builder::ALL));
        let case = Judging::random(kind, version, None, builder, &mut random);
        check_judge(judge, &case.block, &case.answer, case.work.1, &mut random).is_err()
    };
    (0..1000).any(|_| case())
}

#[test]
fn each_wrong_judging_is_found() {
    let wrong: [(&str, Judge); 7] = [
        ("counts flips", counts_flips),
        ("gives the stated cost", gives_the_stated_cost),
        ("takes a dash for a fault", takes_a_dash_for_a_fault),
        ("looks at the answer first", looks_at_the_answer_first),
        ("makes no table under 50", makes_no_table_under_50),
        ("clears the rest", clears_the_rest),
        ("writes on refusal", writes_on_refusal),
    ];
    for version in VERSIONS {
        assert!(!found(proved_judge, version), "the proved judging is right");
        for (name, judge) in wrong {
            assert!(found(judge, version), "a judging that {name} passes in version {version}");
        }
    }
}
