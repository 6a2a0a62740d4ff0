//! Each byte of an answer changed to each value, answers of every length, work rooms of every size.

use blocks::{Kind, Random};
use differential::{Parts, check_judge, proved_judge};
use matrix::{VERSIONS, parse};
use std::collections::BTreeSet;

/// The number of a judging, once all agree on it.
fn number(block: &[u8], answer: &[u8], work: usize) -> u32 {
    match check_judge(proved_judge, block, answer, work, &mut Random::new(9)) {
        Ok(((number, _), _)) => number,
        Err(fault) => panic!("{fault}"),
    }
}

/// Blocks whose answers have a `-`, with a pair with a gap and a read that weighs nothing, in version 1 since it has no cells:
/// weights of one byte, and of two.
const TEXTS: [&str; 2] =
    ["0:4 . 1:3 / . / 0:5 0:5 0:5 / 1:5 1:5 .", "0:1024 . 1:769 / 0:0 / 0:1281 0:1281 0:1281 / 1:1281 1:1281 ."];

/// One of these blocks; our answer, cost 3 or 769, sides 0001, haplotypes 000 and 11-; the entries that it needs.
fn example(version: u8) -> (Vec<u8>, Vec<u8>, usize) {
    let block = parse(TEXTS[usize::from(version) - 1], None).unwrap().block();
    assert_eq!(block[0], version);
    let answer = Parts::ours(&block).expect("an accepted block").laid();
    assert_eq!(answer[5..9], if version == 1 { [0, 0, 0, 3] } else { [0, 0, 3, 1] });
    assert_eq!(answer[17..], [0, 0, 0, 1, 0, 0, 0, 1, 1, 2]);
    let (entries, _) = solver::rooms(&block).expect("an accepted block");
    (block, answer, entries)
}

#[test]
fn each_byte_changed_to_each_value_gets_its_verdict() {
    for (block, ours, entries) in VERSIONS.map(example) {
        for at in 0..ours.len() {
            let mut met = BTreeSet::new();
            for byte in 0..=255 {
                let mut answer = ours.clone();
                answer[at] = byte;
                met.insert(number(&block, &answer, entries));
            }
            let wanted: &[u32] = match at {
                0..5 | 13..17 => &[50, 57],
                5..9 => &[54, 57],
                9..13 => &[57],
                17 | 19 => &[52, 53, 57], // the read has an entry where haplotype 2 is `-`
                18 => &[52, 56, 57],      // the read that weighs nothing
                20 => &[52, 54, 57],      // the read of ones among the zeros
                21..26 => &[52, 53, 54, 57],
                _ => &[52, 56, 57], // the `-`
            };
            assert!(met.iter().eq(wanted), "byte {at}: {met:?}");
        }
    }
}

#[test]
fn answers_of_every_other_length_are_malformed() {
    for (block, ours, entries) in VERSIONS.map(example) {
        for length in 0..ours.len() + 40 {
            let answer: Vec<u8> = ours.iter().copied().chain([0; 40]).take(length).collect();
            let expected = if length == ours.len() { 57 } else { 50 };
            assert_eq!(number(&block, &answer, entries), expected, "{length} bytes");
        }
    }
}

#[test]
fn work_rooms_of_every_size_get_what_they_should() {
    let mut random = Random::new(14);
    let mut refused = 0;
    for (kind, version) in Kind::SMALL.into_iter().cycle().zip(VERSIONS.into_iter().cycle()).take(50) {
        let block = kind.matrix(version, &mut random).block();
        let Some(need) = solver::rooms(&block).ok().filter(|need| need.0 <= 300) else {
            continue;
        };
        let ours = Parts::ours(&block).expect("an accepted block").laid();
        for (answer, verdict) in [(&ours[..], 57), (&[], 50)] {
            for work in 0..need.0 + 3 {
                let expected = if work < need.0 { 10 } else { verdict };
                assert_eq!(number(&block, answer, work), expected, "{work} entries for a need of {}", need.0);
                refused += usize::from(work < need.0);
            }
        }
    }
    println!("refused by 10: {refused}");
    assert!(refused > 1000, "{refused}");
}
