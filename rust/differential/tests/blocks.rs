//! Random blocks of both versions from fixed seeds, whole and damaged, in rooms of all sizes, phased in both modes.

use blocks::{Field, Kind, Random};
use differential::{Case, Size, Tally, check_case};
use matrix::VERSIONS;
use solver::Mode;

/// So many cases of each kind with each damage, in one version, each in both modes.
fn tally(seed: u64, version: u8, kinds: &[Kind], fields: &[Option<Field>], times: usize) -> Tally {
    let mut random = Random::new(seed);
    let mut tally = Tally::default();
    for (&kind, &field) in kinds.iter().flat_map(|kind| fields.iter().map(move |field| (kind, field))) {
        for _ in 0..times {
            let case = Case::random(kind, version, field, &mut random);
            for mode in Mode::ALL {
                tally.note(mode, &case, check_case(mode, &case, &mut random));
            }
        }
    }
    println!("{tally}");
    tally
}

/// 38, for a read without cells, which version 2 alone refuses.
fn empty_reads(version: u8) -> impl Iterator<Item = u32> {
    (version == 2).then_some(38).into_iter()
}

#[test]
fn small_blocks_agree_with_every_division() {
    for version in VERSIONS {
        let tally = tally(1, version, &Kind::SMALL, &[None], 4000);
        tally.require("kind", Kind::SMALL);
        tally.require("number", [0, 9, 10, 11].into_iter().chain(empty_reads(version)));
        tally.require("every division tried", [true]);
        tally.require("work room", Size::ALL);
        tally.require("output", Size::ALL);
    }
}

#[test]
fn large_blocks_agree_with_the_column_method() {
    for version in VERSIONS {
        let tally = tally(2, version, &Kind::LARGE, &[None], 300);
        tally.require("kind", Kind::LARGE);
        tally.require("number", [0, 9, 10, 11]);
        tally.require("T", (0..12).map(|digits| 1 << digits));
    }
}

#[test]
fn blocks_damaged_in_each_field_agree() {
    for version in VERSIONS {
        let tally = tally(3, version, &Kind::SMALL, &Field::ALL.map(Some), 250);
        tally.require("kind", Kind::SMALL);
        tally.require("damaged", Field::ALL);
        tally.require("number", (0..=11).chain(empty_reads(version)));
    }
}

#[test]
fn large_blocks_damaged_in_each_field_agree() {
    for version in VERSIONS {
        let tally = tally(4, version, &Kind::LARGE, &Field::ALL.map(Some), 30);
        tally.require("damaged", Field::ALL);
        tally.require("number", (0..=8).chain(empty_reads(version)));
    }
}
