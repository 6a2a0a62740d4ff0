//! Judged answers from fixed seeds: ours, others at the cost that they have, faulty ones; blocks of both versions, whole and
//! damaged, work rooms of all sizes.

use blocks::{Field, Kind, Random};
use differential::{Builder, Fault, Judging, Size, Tally, check_judging};
use matrix::VERSIONS;

/// So many answers of each builder, to blocks of each kind with each damage, in one version.
fn tally(seed: u64, version: u8, kinds: &[Kind], fields: &[Option<Field>], times: usize) -> Tally {
    let mut random = Random::new(seed);
    let mut tally = Tally::default();
    for (&kind, &field) in kinds.iter().flat_map(|kind| fields.iter().map(move |field| (kind, field))) {
        for builder in Builder::ALL.into_iter().cycle().take(times * Builder::ALL.len()) {
            let case = Judging::random(kind, version, field, builder, &mut random);
            tally.note_judging(&case, check_judging(&case, &mut random));
        }
    }
    println!("{tally}");
    tally
}

/// 38, for a read without cells, which version 2 alone refuses.
fn empty_reads(version: u8) -> impl Iterator<Item = u32> {
    (version == 2).then_some(38).into_iter()
}

#[test]
fn answers_to_small_blocks_get_their_verdicts() {
    for version in VERSIONS {
        let tally = tally(11, version, &Kind::SMALL, &[None], 120);
        tally.require("kind", Kind::SMALL);
        tally.require("answer", Builder::of(version));
        tally.require("fault", Fault::ALL);
        tally.require("number", [9, 10].into_iter().chain(empty_reads(version)).chain(50..=57));
        tally.require("every division tried", [true]);
        tally.require("work room", Size::ALL);
    }
}

#[test]
fn answers_to_large_blocks_get_their_verdicts() {
    for version in VERSIONS {
        let tally = tally(12, version, &Kind::LARGE, &[None], 30);
        tally.require("kind", Kind::LARGE);
        tally.require("answer", Builder::of(version));
        tally.require("fault", Fault::ALL);
        tally.require("number", [9, 10].into_iter().chain(50..=57));
    }
}

#[test]
fn a_damaged_block_is_refused_before_its_answer_is_looked_at() {
    for version in VERSIONS {
        let tally = tally(13, version, &Kind::SMALL, &Field::ALL.map(Some), 10);
        tally.require("damaged", Field::ALL);
        tally.require("answer", Builder::of(version));
        tally.require("fault", Fault::ALL);
        tally.require("number", (1..=10).chain(empty_reads(version)).chain(50..=57));
    }
}
