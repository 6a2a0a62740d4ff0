//! Every size of both rooms, from nothing to more than enough, in both modes; and of the run of margins.

use blocks::{Kind, Random};
use differential::{check, check_margins, modes_and_versions, proved, proved_margins};
use matrix::VERSIONS;
use solver::{Block, Mode};

/// The number that these rooms give to a block that needs so much.
fn expected(need: (usize, usize), work: usize, out: usize) -> u32 {
    match (work < need.0, out < need.1) {
        (true, _) => 10,
        (false, true) => 11,
        (false, false) => 0,
    }
}

/// Every size of the work room beside some of the output, and the other way round; gives how many calls were refused by
/// 10 and by 11, and how many accepted.
fn every_size(mode: Mode, block: &[u8], need: (usize, usize), random: &mut Random) -> [usize; 3] {
    let works = (0..need.0 + 3).flat_map(|work| [0, need.1 - 1, need.1, need.1 + 40].map(|out| (work, out)));
    let outs = (0..need.1 + 3).flat_map(|out| [0, need.0 - 1, need.0, need.0 + 40].map(|work| (work, out)));
    let mut counts = [0; 3];
    for (work, out) in works.chain(outs) {
        let number = match check(proved, mode, block, (work, out), random) {
            Ok(((number, _), _)) => number,
            Err(fault) => panic!("{fault}"),
        };
        assert_eq!(number, expected(need, work, out), "work {work} and output {out} for a need of {need:?}");
        counts[[10, 11, 0].iter().position(|&n| n == number).expect("one of these")] += 1;
    }
    counts
}

#[test]
fn rooms_of_every_size_get_what_they_should() {
    let mut random = Random::new(5);
    let mut total = [0; 3];
    for kind in Kind::SMALL {
        for (mode, version) in modes_and_versions().collect::<Vec<_>>().into_iter().cycle().take(32) {
            let block = kind.matrix(version, &mut random).block();
            if let Some(need) = solver::rooms(&block).ok().filter(|need| need.0 <= 600) {
                let counts = every_size(mode, &block, need, &mut random);
                total = std::array::from_fn(|i| total[i] + counts[i]);
            }
        }
    }
    println!("refused by 10: {}, by 11: {}, accepted: {}", total[0], total[1], total[2]);
    assert!(total.iter().all(|&count| count > 1000), "{total:?}");
}

/// Every size of the run beside rooms that suffice and rooms that do not; gives how many calls were refused by 10, by 11 and by 13, and
/// how many accepted.
fn every_run(block: &[u8], need: (usize, usize), random: &mut Random) -> [usize; 4] {
    let margins = 2 * Block::read(block).expect("an accepted block").columns;
    let rooms = [(0, 0), (-1, 0), (0, -1), (-1, -1), (40, 0), (0, 40)];
    let rooms = rooms.map(|(work, out)| (need.0.strict_add_signed(work), need.1.strict_add_signed(out)));
    let mut counts = [0; 4];
    for (run, (work, out)) in (0..margins + 3).flat_map(|run| rooms.map(|rooms| (run, rooms))) {
        let numbers = match check_margins(proved_margins, block, (work, out, run), random) {
            Ok((numbers, _)) => numbers,
            Err(fault) => panic!("{fault}"),
        };
        let wanted = match expected(need, work, out) {
            0 if run < margins => 13,
            number => number,
        };
        assert_eq!(numbers.0, wanted, "work {work}, output {out}, run {run} for a need of {need:?} and {margins}");
        assert!(wanted != 13 || numbers.1 as usize == margins, "{numbers:?}");
        counts[[10, 11, 13, 0].iter().position(|&n| n == numbers.0).expect("one of these")] += 1;
    }
    counts
}

#[test]
fn runs_of_every_size_get_what_they_should() {
    let mut random = Random::new(59);
    let mut total = [0; 4];
    for kind in Kind::SMALL {
        for version in VERSIONS.into_iter().cycle().take(8) {
            let block = kind.matrix(version, &mut random).block();
            if let Some(need) = solver::rooms(&block).ok().filter(|need| need.0 <= 600) {
                let counts = every_run(&block, need, &mut random);
                total = std::array::from_fn(|i| total[i] + counts[i]);
            }
        }
    }
    println!("refused by 10: {}, by 11: {}, by 13: {}, accepted: {}", total[0], total[1], total[2], total[3]);
    assert!(total.iter().all(|&count| count > 300), "{total:?}");
}
