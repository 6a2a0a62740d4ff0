//! Each verdict with its words, and what the work room holds under it.

use matrix::parse;
use velejume::{Refusal, Verdict, judge, judge_in};

/// P2, whose first read is a pair: cost 3, sides 001, haplotypes 000 and 111.
fn p2() -> Vec<u8> {
    parse("0:4 . 1:3 / 0:5 0:5 0:5 / 1:5 1:5 1:5", None).unwrap().block()
}

/// An answer to P2 with this cost, these sides and letters.
fn answer(cost: u8, sides: [u8; 3], first: [u8; 3], second: [u8; 3]) -> Vec<u8> {
    let head = [2, 0, 0, 0, 21, 0, 0, 0, cost, 0, 0, 0, 1, 0, 3, 0, 3];
    [&head[..], &sides, &first, &second].concat()
}

fn ours() -> Vec<u8> {
    answer(3, [0, 0, 1], [0, 0, 0], [1, 1, 1])
}

/// An answer for every verdict, 50 first.
fn judged() -> [(Vec<u8>, Verdict, &'static str); 8] {
    let other_counts = [2, 0, 0, 0, 14, 0, 0, 0, 0, 0, 0, 0, 0, 0, 0, 0, 1, 2, 2].to_vec();
    [
        (ours()[..25].to_vec(), Verdict::Malformed, "malformed"),
        (other_counts, Verdict::OtherCounts, "other n or m"),
        (answer(3, [0, 0, 2], [0; 3], [1; 3]), Verdict::UnknownMark, "a side above 1 or a letter above 2"),
        (answer(3, [0, 0, 1], [0, 0, 2], [1; 3]), Verdict::FalseDash, "a - where that side's sums differ"),
        (answer(0, [0, 0, 1], [0; 3], [1; 3]), Verdict::WrongCost, "stated cost not the weight of disagreeing entries"),
        (answer(4, [1, 0, 1], [0; 3], [1; 3]), Verdict::NotLeast { least: 3 }, "not least: the least cost is 3"),
        (answer(3, [1, 1, 0], [1; 3], [0; 3]), Verdict::OtherAnswer, "least but other sides or letters than ours"),
        (ours(), Verdict::Ours, "ours"),
    ]
}

#[test]
fn each_verdict_has_its_number_and_its_words() {
    for (i, (answer, verdict, words)) in judged().into_iter().enumerate() {
        assert_eq!(judge(&p2(), &answer), Ok(verdict));
        assert_eq!(verdict.number(), 50 + i as u32);
        assert_eq!(verdict.second(), if i == 5 { 3 } else { 0 }, "{verdict:?}");
        assert_eq!(verdict.is_least(), i >= 6, "{verdict:?}");
        assert_eq!(verdict.to_string(), words);
    }
}

#[test]
fn the_work_room_holds_the_table_under_each_verdict() {
    for (answer, verdict, _) in judged() {
        let mut work = [9; 14];
        assert_eq!(judge_in(&p2(), &answer, &mut work).verdict(), Ok(verdict));
        assert_eq!(work, [5, 4, 0, 5, 10, 4, 0, 10, 15, 4, 3, 15, 9, 9], "{verdict:?}");
    }
}

#[test]
fn any_flip_count_is_ours() {
    for flips in [0u32, 2, 255, u32::MAX] {
        let mut answer = ours();
        answer[9..13].copy_from_slice(&flips.to_be_bytes());
        assert_eq!(judge(&p2(), &answer), Ok(Verdict::Ours), "{flips} flips");
    }
}

#[test]
fn a_refused_block_comes_first_and_writes_nothing() {
    let mut work = [9; 11];
    let numbers = judge_in(&p2(), b"no answer", &mut work);
    assert_eq!((numbers.number, numbers.second), (10, 12));
    assert_eq!(numbers.verdict(), Err(Refusal::WorkRoom { need: 12 }));
    assert_eq!(judge(&p2()[..38], &ours()), Err(Refusal::Length));
    assert_eq!(judge_in(&p2()[..38], &ours(), &mut work).verdict(), Err(Refusal::Length));
    assert_eq!(work, [9; 11]);
}
